/* What the programs share that measure what calls cost: hostile.c, flood.c and mapped.c, which play a hostile peer, and others. */
#ifndef MEASURING_H
#define MEASURING_H

#include "is_ice.h"
#include <stdio.h>
#include <stdlib.h>
#include <string.h>
#include <time.h>
#include <unistd.h>

#define MS UINT64_C(1000000) /* times are nanoseconds */
#define SECOND (1000 * MS)
#define TEXT(text) (const uint8_t *)(text), strlen(text)

enum {
    BLOCK = 1000,      /* packets whose times are compared */
    LIMIT = 32,        /* on the candidates that packets bring */
    FLAT = 64 * 1024,  /* bytes that memory may grow: below a byte for each packet of a flood */
    LONGEST = 600      /* a packet: none of the agent's is longer than 596 bytes */
};

struct message {
    uint8_t bytes[LONGEST];
    size_t length;
};

static inline void fail(const char *what, const char *why)
{
    printf("%s: %s\n", what, why);
    exit(1);
}

static inline void must(const char *what, int32_t code, int32_t wanted)
{
    if (code != wanted) fail(what, is_ice_code_text(code));
}

static inline double processor_time(void)
{
    struct timespec t;
    if (clock_gettime(CLOCK_PROCESS_CPUTIME_ID, &t) != 0) exit(2);
    return (double)t.tv_sec * 1e9 + (double)t.tv_nsec;
}

#ifndef _WIN32 /* which has no /proc */
/* Bytes of the process in memory, without those that are a file's: code is loaded when it first runs. */
static inline long resident(void)
{
    long size = 0, pages = 0, shared = 0;
    FILE *file = fopen("/proc/self/statm", "r");
    if (!file || fscanf(file, "%ld %ld %ld", &size, &pages, &shared) != 3) fail("/proc/self/statm", "no sizes");
    fclose(file);
    return (pages - shared) * sysconf(_SC_PAGESIZE);
}
#endif

static inline int compare(const void *a, const void *b)
{
    double x = *(const double *)a, y = *(const double *)b;
    return (x > y) - (x < y);
}

/* A time that a tenth of a block's packets did not exceed: other programs add to the rest. Sorts the times. */
static inline double quick_tenth(double took[BLOCK])
{
    qsort(took, BLOCK, sizeof *took, compare);
    return took[BLOCK / 10];
}

/* The agent's timeout, with random bytes from a linear congruential generator. */
static inline void timeout(uint64_t *state, is_ice_agent *agent, uint64_t now)
{
    uint8_t random[IS_ICE_TIMEOUT_RANDOM];
    for (size_t i = 0; i < sizeof random; i++) {
        *state = *state * UINT64_C(6364136223846793005) + UINT64_C(1442695040888963407);
        random[i] = (uint8_t)(*state >> 56);
    }
    must("timeout", is_ice_handle_timeout(agent, now, random, sizeof random), IS_ICE_OK);
}

/* Whether the agent had a packet to send. */
static inline bool transmit(is_ice_agent *agent, struct message *m, is_ice_packet *packet)
{
    if (is_ice_poll_transmit(agent, m->bytes, sizeof m->bytes, packet) != IS_ICE_OK) return false;
    m->length = packet->length;
    return true;
}

/* How many candidates the agent lists by is_ice_local_candidate or is_ice_remote_candidate. */
static inline size_t listed(is_ice_agent *agent, int32_t (*candidate)(is_ice_agent *, size_t, uint8_t *, size_t, size_t *))
{
    uint8_t line[512];
    size_t length, count = 0;
    while (candidate(agent, count, line, sizeof line, &length) == IS_ICE_OK) count++;
    return count;
}

/* The agent takes a message, and accepts it. */
static inline void receive(is_ice_agent *agent, uint64_t now, const is_ice_address *from, const is_ice_address *to, const struct message *m)
{
    must("packet", is_ice_handle_packet(agent, now, IS_ICE_UDP, from, to, m->bytes, m->length), IS_ICE_OK);
}

#endif
