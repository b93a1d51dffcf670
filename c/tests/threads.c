/* Agents that threads pass on: created in one thread, used in others under a lock, and freed in another one. Each pair of
 * agents finds a path. All threads make calls without an agent at any time. */
#include "is_ice.h"

#include <pthread.h>
#include <stdio.h>
#include <stdlib.h>
#include <string.h>

enum { PAIRS = 8, THREADS = 4, MOST_TURNS = 400 };
#define MS UINT64_C(1000000)
#define HOLD(condition)                                                 \
    do {                                                                \
        if (!(condition)) {                                             \
            printf("line %d: not so: %s\n", __LINE__, #condition);      \
            exit(1);                                                    \
        }                                                               \
    } while (0)

/* Two agents, which only the thread that has the lock uses. */
typedef struct pair {
    pthread_mutex_t lock;
    is_ice_agent agents[2];
    uint64_t now;
    bool has_path[2];
} pair;

static pair pairs[PAIRS];

static is_ice_address address_of(uint8_t last)
{
    is_ice_address address = {4, {10, 0, 0, last}, 5000, 0, 0};
    return address;
}

static void drawn(uint8_t *bytes, size_t length)
{
    static pthread_mutex_t lock = PTHREAD_MUTEX_INITIALIZER;
    static uint64_t state = 1;
    pthread_mutex_lock(&lock);
    for (size_t i = 0; i < length; i++) {
        state = state * UINT64_C(6364136223846793005) + 1;
        bytes[i] = (uint8_t)(state >> 56);
    }
    pthread_mutex_unlock(&lock);
}

static void must(int32_t code)
{
    if (code == IS_ICE_OK) return;
    printf("%s\n", is_ice_code_text(code));
    exit(1);
}

/* ---- one thread creates the agents, and ends */

static void signal_candidate(pair *p, int side)
{
    uint8_t line[128];
    size_t length = 0, index = 0;
    is_ice_address own = address_of((uint8_t)(side + 1));
    is_ice_candidate host = {own, own, IS_ICE_HOST, IS_ICE_UDP, 0};
    must(is_ice_add_local(&p->agents[side], &host, &index));
    must(is_ice_local_candidate(&p->agents[side], index, line, sizeof line, &length));
    must(is_ice_add_remote(&p->agents[!side], line, length, &index));
}

static void *create(void *unused)
{
    static const uint8_t *ufrags[2] = {(const uint8_t *)"left", (const uint8_t *)"rght"};
    static const uint8_t pass[] = "a password of 22 bytes";
    for (pair *p = pairs; p < pairs + PAIRS; p++) {
        for (int side = 0; side < 2; side++)
            must(is_ice_agent_new(&p->agents[side], ufrags[side], 4, pass, sizeof pass - 1, (uint64_t)side));
        for (int side = 0; side < 2; side++) {
            must(is_ice_set_controlling(&p->agents[side], side == 0));
            must(is_ice_set_remote_credentials(&p->agents[side], ufrags[!side], 4, pass, sizeof pass - 1));
            signal_candidate(p, side);
        }
        p->now = 60000 * MS;
    }
    return unused;
}

/* ---- several threads use them, each whichever is free */

static void deliver(pair *p, int side)
{
    uint8_t buffer[1500];
    is_ice_packet packet;
    while (is_ice_poll_transmit(&p->agents[side], buffer, sizeof buffer, &packet) == IS_ICE_OK)
        must(is_ice_handle_packet(&p->agents[!side], p->now, packet.protocol, &packet.source, &packet.destination, buffer, packet.length));
}

static void turn(pair *p)
{
    for (int side = 0; side < 2; side++) {
        uint8_t random[IS_ICE_TIMEOUT_RANDOM];
        is_ice_event event;
        drawn(random, sizeof random);
        must(is_ice_handle_timeout(&p->agents[side], p->now, random, sizeof random));
        deliver(p, side);
        deliver(p, !side);
        while (is_ice_poll_event(&p->agents[side], &event) == IS_ICE_OK)
            p->has_path[side] |= event.kind == IS_ICE_NOMINATED_SEND;
    }
    p->now += 50 * MS;
}

/* Calls without an agent, which no lock orders. */
static void ask(void)
{
    static const uint8_t line[] = "candidate:1 1 udp 7 10.0.0.9 9 typ host";
    static const is_ice_stun_transaction id = {{1, 2, 3}};
    is_ice_agent_settings settings;
    is_ice_stun_message message;
    is_ice_fields fields;
    uint8_t text[256], json[256];
    size_t length, json_length;
    must(is_ice_line_fields(line, sizeof line - 1, text, sizeof text, &length, &fields));
    must(is_ice_line_to_json(line, sizeof line - 1, json, sizeof json, &json_length));
    must(is_ice_line_from_json(json, json_length, text, sizeof text, &length));
    must(is_ice_stun_request(&id, text, sizeof text, &length));
    must(is_ice_stun_read(text, length, &message));
    must(is_ice_modern_settings(&settings));
    HOLD(fields.priority == 7 && message.method == IS_ICE_STUN_BINDING && settings.modern);
}

static void *work(void *unused)
{
    for (int turns = 0; turns < MOST_TURNS; turns++) {
        pair *p = &pairs[turns % PAIRS];
        ask();
        pthread_mutex_lock(&p->lock);
        turn(p);
        pthread_mutex_unlock(&p->lock);
    }
    return unused;
}

/* ---- and another one frees them */

static void *destroy(void *unused)
{
    for (pair *p = pairs; p < pairs + PAIRS; p++)
        for (int side = 0; side < 2; side++) is_ice_agent_free(&p->agents[side]);
    return unused;
}

static void run(void *(*start)(void *), int count)
{
    pthread_t threads[THREADS];
    for (int i = 0; i < count; i++) HOLD(pthread_create(&threads[i], NULL, start, NULL) == 0);
    for (int i = 0; i < count; i++) HOLD(pthread_join(threads[i], NULL) == 0);
}

int main(void)
{
    for (pair *p = pairs; p < pairs + PAIRS; p++) HOLD(pthread_mutex_init(&p->lock, NULL) == 0);
    run(create, 1);
    run(work, THREADS);
    for (pair *p = pairs; p < pairs + PAIRS; p++) HOLD(p->has_path[0] && p->has_path[1]);
    run(destroy, 1);
    printf("%d agents, %d threads\n", 2 * PAIRS, THREADS);
    return 0;
}
