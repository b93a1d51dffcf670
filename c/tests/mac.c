/* Measures whether what a call takes with a wrong MAC depends on how many of its first bytes are right: then a forger could find the MAC
 * byte by byte.
 *
 * One request has the right MAC, others have 0 to 19 right bytes and then wrong ones. is_ice_stun_verify and is_ice_accepts_message get
 * each of them equally often.
 *
 * mac: makes the calls by `batch`, for callgrind to count the instructions of each batch; a last batch is there to end the one before.
 * mac N: makes N calls for each number of right bytes, in random order, and prints the ticks of the processor's clock that they took,
 * beside a control: once more messages without a right byte. On a quiet machine t above 5 would be no chance. A comparison that ends at
 * the first wrong byte makes the ticks rise with the right bytes. */
#define _GNU_SOURCE
#include "measuring.h"
#ifdef __x86_64__
#include <x86intrin.h>
#endif

enum {
    MAC = 20,         /* bytes of a MAC, which FINGERPRINT follows (RFC 8489, sections 14.5 and 14.7) */
    AFTER_MAC = 8,
    CONTROL = MAC + 1,
    KINDS = MAC + 2,  /* 0 to 19 right bytes, all right, and the control */
    CALLS = 50        /* of a batch */
};

static const char *const password = "password of the agent";

struct world {
    is_ice_agent agent;
    struct message requests[KINDS];
    struct message given; /* one of them: all are passed from one place, since a call takes longer for another one */
    uint64_t random;
};

static const char *const names[] = {"is_ice_stun_verify", "is_ice_accepts_message"};

static int32_t ask(struct world *w, bool is_agent)
{
    const struct message *m = &w->given;
    return is_agent ? is_ice_accepts_message(&w->agent, m->bytes, m->length)
                    : is_ice_stun_verify(m->bytes, m->length, TEXT(password));
}

/* Writes each request. From the first wrong byte on, all bytes of the MAC are wrong. */
static void begin(struct world *w)
{
    is_ice_stun_message fields;
    is_ice_stun_texts texts;
    memset(&fields, 0, sizeof fields);
    memset(&texts, 0, sizeof texts);
    fields.method = IS_ICE_STUN_BINDING, fields.priority.is_set = true, fields.controlling.is_set = true, fields.has_integrity = true;
    texts.username.length = 9, texts.username.is_set = true;
    must("new", is_ice_agent_new(&w->agent, TEXT("near"), TEXT(password), 1), IS_ICE_OK);
    for (size_t kind = 0; kind < KINDS; kind++) {
        struct message *m = &w->requests[kind];
        must("request", is_ice_stun_write(&fields, &texts, TEXT("near:farr"), TEXT(password), m->bytes, sizeof m->bytes, &m->length), IS_ICE_OK);
        size_t first = m->length - AFTER_MAC - MAC;
        for (size_t i = kind == CONTROL ? 0 : kind; i < MAC; i++) m->bytes[first + i] ^= 0x55;
    }
}

/* ---- instructions */

/* Some calls, whose instructions callgrind counts. */
__attribute__((noinline)) static void batch(struct world *w, bool is_agent, size_t kind)
{
    int32_t wanted = kind == MAC ? IS_ICE_OK : IS_ICE_NOTHING;
    w->given = w->requests[kind];
    for (int i = 0; i < CALLS; i++)
        if (ask(w, is_agent) != wanted) fail(names[is_agent], "another result");
}

static void make_batches(struct world *w)
{
    for (int is_agent = 0; is_agent < 2; is_agent++)
        for (size_t kind = 0; kind <= MAC; kind++) batch(w, is_agent, kind);
    batch(w, false, 0);
}

/* ---- time */

static int compare_ticks(const void *a, const void *b)
{
    uint32_t x = *(const uint32_t *)a, y = *(const uint32_t *)b;
    return (x > y) - (x < y);
}

/* The processor's clock, after all that came before and before all that comes after; where there is no such clock here, nanoseconds. */
static uint64_t ticks(void)
{
#ifdef __x86_64__
    _mm_lfence();
    uint64_t now = __rdtsc();
    _mm_lfence();
    return now;
#else
    struct timespec t;
    if (clock_gettime(CLOCK_MONOTONIC, &t) != 0) exit(2);
    return (uint64_t)t.tv_sec * SECOND + (uint64_t)t.tv_nsec;
#endif
}

static uint32_t ticks_of(struct world *w, bool is_agent, size_t kind)
{
    w->given = w->requests[kind];
    uint64_t begun = ticks();
    volatile int32_t code = ask(w, is_agent);
    uint64_t took = ticks() - begun;
    (void)code;
    return took > UINT32_MAX ? UINT32_MAX : (uint32_t)took;
}

/* Fills the times of all kinds, in random order: so other work on the machine falls on each alike. */
static void take_times(struct world *w, bool is_agent, uint32_t *times[KINDS], size_t count)
{
    size_t done[KINDS] = {0};
    for (size_t left = count * KINDS; left > 0; left--) {
        w->random = w->random * UINT64_C(6364136223846793005) + UINT64_C(1442695040888963407);
        size_t kind = (size_t)(w->random >> 33) % KINDS;
        while (done[kind] == count) kind = (kind + 1) % KINDS;
        times[kind][done[kind]++] = ticks_of(w, is_agent, kind);
    }
}

/* The mean of the times from the twentieth to the half, which other work hardly changes, and its variance. Sorts the times. */
static double mean_of(uint32_t *times, size_t count, double *variance)
{
    double sum = 0, squares = 0;
    size_t first = count / 20, end = count / 2;
    qsort(times, count, sizeof *times, compare_ticks);
    for (size_t i = first; i < end; i++) sum += times[i], squares += (double)times[i] * times[i];
    double mean = sum / (double)(end - first);
    *variance = (squares / (double)(end - first) - mean * mean) / (double)(end - first);
    return mean;
}

static double root(double of)
{
    double found = of > 1 ? of : 1;
    for (int i = 0; i < 100; i++) found = (found + of / found) / 2;
    return found;
}

static void print_times(struct world *w, bool is_agent, size_t count)
{
    uint32_t *times[KINDS];
    double variance, control_variance;
    for (size_t kind = 0; kind < KINDS; kind++)
        if (!(times[kind] = malloc(count * sizeof **times))) fail("mac", "no memory");
    take_times(w, is_agent, times, count);
    double control = mean_of(times[CONTROL], count, &control_variance);
    printf("%s, %zu calls each; control %.2f ticks\n", names[is_agent], count, control);
    for (size_t kind = 0; kind <= MAC; kind++) {
        double difference = mean_of(times[kind], count, &variance) - control;
        double t = difference / root(variance + control_variance + 1e-12);
        printf("%2zu right bytes: %+.3f ticks, median %u, t %+.1f\n", kind, difference, (unsigned)times[kind][count / 2], t);
    }
    for (size_t kind = 0; kind < KINDS; kind++) free(times[kind]);
}

int main(int argc, char **words)
{
    static struct world w;
    size_t count = argc > 1 ? (size_t)strtoul(words[1], NULL, 10) : 0;
    if (argc > 1 && (count < 100 || count > 10000000)) fail("mac", "from 100 to 10,000,000 calls");
    w.random = 1;
    begin(&w);
    if (count == 0) make_batches(&w);
    else for (int is_agent = 0; is_agent < 2; is_agent++) print_times(&w, is_agent, count);
    is_ice_agent_free(&w.agent);
    return 0;
}
