/* A peer signals thousands of candidates, and shows that the limit of is_ice_set_max_candidates bounds what they cost: memory, the time
 * of each, of a local candidate that is added then, and of forming the pairs again.
 *
 * They are signaled without a limit too, which shows that these measurements see what grows.
 *
 * signaled [N]: measures N candidates without a limit, 4,000 without a number. */
#define _GNU_SOURCE
#include "measuring.h"

enum {
    CANDIDATES = 10000, /* with the limit */
    UNLIMITED = 4000,
    LISTED = 100,       /* the limit on each side */
    MOST = 65536
};

struct world {
    is_ice_agent agent;
    size_t signaled, added;
    double took[BLOCK];
};

struct costs {
    double first, last;            /* of a candidate: in the first and in the last thousand */
    double add_local, again, form; /* of a local candidate, of the next one, and of is_ice_recreate_pairs */
    long grown;                    /* memory, from the first thousand on */
    size_t added;
};

static void begin(struct world *w, size_t limit)
{
    memset(w, 0, sizeof *w);
    must("new", is_ice_agent_new(&w->agent, TEXT("agent"), TEXT("password of the agent"), 1), IS_ICE_OK);
    must("credentials", is_ice_set_remote_credentials(&w->agent, TEXT("peer"), TEXT("password of the peer")), IS_ICE_OK);
    must("limit", is_ice_set_max_candidates(&w->agent, limit), IS_ICE_OK);
}

/* The peer's next candidate, each with another address and priority. Returns the time that the agent spends on it, in nanoseconds. */
static double signal_one(struct world *w)
{
    char line[128];
    size_t index, number = w->signaled++;
    unsigned high = (unsigned)(number >> 8 & 255), low = (unsigned)(number & 255);
    snprintf(line, sizeof line, "candidate:%u 1 udp %u 10.1.%u.%u 2000 typ host", (unsigned)number, 1000 + (unsigned)number, high, low);
    double begun = processor_time();
    int32_t code = is_ice_add_remote(&w->agent, TEXT(line), &index);
    double took = processor_time() - begun;
    if (code == IS_ICE_OK && index == w->added) w->added++;
    else must("candidate", code, IS_ICE_TOO_MANY_CANDIDATES);
    return took;
}

/* A thousand candidates. Returns a time that a tenth of them did not exceed. */
static double signal_block(struct world *w)
{
    for (size_t i = 0; i < BLOCK; i++) w->took[i] = signal_one(w);
    return quick_tenth(w->took);
}

static double add_local(struct world *w, uint16_t port)
{
    is_ice_candidate host;
    size_t index;
    memset(&host, 0, sizeof host);
    host.address.family = 4, host.address.bytes[0] = 10, host.address.bytes[3] = 1, host.address.port = port;
    double begun = processor_time();
    must("host", is_ice_add_local(&w->agent, &host, &index), IS_ICE_OK);
    return processor_time() - begun;
}

static double form_again(struct world *w)
{
    double begun = processor_time();
    must("pairs", is_ice_recreate_pairs(&w->agent), IS_ICE_OK);
    return processor_time() - begun;
}

static struct costs play(const char *name, size_t limit, size_t candidates)
{
    static struct world w;
    struct costs c;
    uint8_t line[256];
    size_t length;
    begin(&w, limit);
    c.first = c.last = signal_block(&w);
    long begun = resident();
    while (w.signaled < candidates) c.last = signal_block(&w);
    c.grown = resident() - begun, c.added = w.added;
    c.add_local = add_local(&w, 1000), c.again = add_local(&w, 1001), c.form = form_again(&w);
    must(name, is_ice_remote_candidate(&w.agent, w.added - 1, line, sizeof line, &length), IS_ICE_OK);
    must(name, is_ice_remote_candidate(&w.agent, w.added, line, sizeof line, &length), IS_ICE_NOTHING);
    printf("%s: %zu of %zu listed, %.0f ns each at first, then %.0f, memory grew by %ld bytes; ", name, w.added, w.signaled, c.first, c.last, c.grown);
    printf("a local candidate %.2f ms, the next %.2f ms, all pairs %.2f ms\n", c.add_local / 1e6, c.again / 1e6, c.form / 1e6);
    is_ice_agent_free(&w.agent);
    return c;
}

int main(int argc, char **words)
{
    size_t many = argc > 1 ? (size_t)strtoul(words[1], NULL, 10) : UNLIMITED;
    if (many < 2 * BLOCK || many > MOST) fail("signaled", "from 2,000 to 65,536 candidates");
    struct costs limited = play("candidates with the limit", LISTED, CANDIDATES);
    struct costs unlimited = play("candidates without a limit", IS_ICE_NO_LIMIT, many);
    if (limited.added != LISTED) fail("with the limit", "another number is listed");
    if (limited.grown > FLAT) fail("with the limit", "memory grows");
    if (limited.last > 2 * limited.first) fail("with the limit", "candidates take longer and longer");
    if (unlimited.added < many || unlimited.grown <= FLAT || unlimited.last <= 2 * unlimited.first)
        fail("without a limit", "the measurements do not see what grows");
    if (limited.add_local > unlimited.add_local || limited.form > unlimited.form) fail("with the limit", "pairs cost as much as without");
    return 0;
}
