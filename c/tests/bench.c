/* Measures what calls cost, in nanoseconds of processor time: the least of sixty rounds. */
#define _POSIX_C_SOURCE 199309L
#include "is_ice.h"
#include <stdio.h>
#include <stdlib.h>
#include <time.h>

enum { MANY = 100000, SOME = 2000, ROUNDS = 60 };

static const char request[] =
    "000100502112a4426a756331357578556e6747630006000970394b413a53514174000000c05700040001000a802a00086eeec6e97d18395c"
    "00250000002400046e7f1eff000800145d0425a0207ab1e054102299aaf9839ca076c6d580280004360e219f";

static const is_ice_address own = {4, {10, 0, 0, 1}, 1000, 0, 0}, peer = {4, {10, 0, 0, 2}, 2000, 0, 0};

struct bench {
    is_ice_agent agent;
    uint8_t bytes[100];
};

/* A call, or two that belong together. */
typedef int32_t work(struct bench *b);

static int32_t poll_timeout(struct bench *b)
{
    uint64_t at;
    return is_ice_poll_timeout(&b->agent, &at);
}

static int32_t poll_event(struct bench *b)
{
    is_ice_event event;
    return is_ice_poll_event(&b->agent, &event);
}

static int32_t poll_transmit(struct bench *b)
{
    uint8_t buffer[1500];
    is_ice_packet packet;
    return is_ice_poll_transmit(&b->agent, buffer, sizeof buffer, &packet);
}

static int32_t status(struct bench *b)
{
    is_ice_agent_status now;
    return is_ice_status(&b->agent, &now);
}

static int32_t unparsed(struct bench *b)
{
    return is_ice_handle_packet(&b->agent, 0, IS_ICE_UDP, &peer, &own, b->bytes, 99);
}

static int32_t unauthentic(struct bench *b)
{
    b->bytes[67] ^= 1;
    int32_t code = is_ice_handle_packet(&b->agent, 0, IS_ICE_UDP, &peer, &own, b->bytes, 100);
    b->bytes[67] ^= 1;
    return code;
}

static int32_t served(struct bench *b)
{
    int32_t code = is_ice_handle_packet(&b->agent, 0, IS_ICE_UDP, &peer, &own, b->bytes, 100);
    return code == IS_ICE_OK ? poll_transmit(b) : code;
}

struct row {
    const char *name;
    work *work;
    int32_t wanted;
    long count;
};

static const struct row rows[] = {
    {"poll_timeout", poll_timeout, IS_ICE_NOTHING, MANY},
    {"poll_event, none", poll_event, IS_ICE_NOTHING, MANY},
    {"poll_transmit, none", poll_transmit, IS_ICE_NOTHING, MANY},
    {"status", status, IS_ICE_OK, MANY},
    {"handle_packet, not a STUN message", unparsed, IS_ICE_UNPARSED, MANY},
    {"handle_packet, a forged request", unauthentic, IS_ICE_NOTHING, SOME},
    {"handle_packet, a request, and poll_transmit, its response", served, IS_ICE_OK, SOME},
};

static double now(void)
{
    struct timespec t;
    if (clock_gettime(CLOCK_PROCESS_CPUTIME_ID, &t) != 0) exit(2);
    return (double)t.tv_sec * 1e9 + (double)t.tv_nsec;
}

static double measured(struct bench *b, const struct row *row)
{
    double least = 1e18;
    for (int round = 0; round < ROUNDS; round++) {
        double begin = now();
        for (long i = 0; i < row->count; i++)
            if (row->work(b) != row->wanted) {
                printf("%s: unexpected code\n", row->name);
                exit(1);
            }
        double took = (now() - begin) / (double)row->count;
        if (took < least) least = took;
    }
    return least;
}

static int32_t make(struct bench *b)
{
    static const uint8_t ufrag[] = "p9KA", pass[] = "xJcE9AQAR7kczUDVOXRUCl", remote[] = "SQAt", secret[] = "x";
    const is_ice_candidate host = {own, own, IS_ICE_HOST, IS_ICE_UDP, 0};
    size_t index;
    for (size_t i = 0; i < sizeof b->bytes; i++) {
        const char byte[3] = {request[2 * i], request[2 * i + 1], '\0'};
        b->bytes[i] = (uint8_t)strtoul(byte, NULL, 16);
    }
    int32_t code = is_ice_agent_new(&b->agent, ufrag, 4, pass, 22, 1);
    if (code == IS_ICE_OK) code = is_ice_set_remote_credentials(&b->agent, remote, 4, secret, 1);
    return code == IS_ICE_OK ? is_ice_add_local(&b->agent, &host, &index) : code;
}

int main(void)
{
    struct bench bench = {{false, NULL}, {0}};
    if (make(&bench) != IS_ICE_OK) return 1;
    for (size_t i = 0; i < sizeof rows / sizeof *rows; i++) printf("%8.1f ns  %s\n", measured(&bench, &rows[i]), rows[i].name);
    is_ice_agent_free(&bench.agent);
    return 0;
}
