/* Floods an agent with requests from other addresses, and shows that the limit of is_ice_set_max_discovered bounds what
 * they cost, while the session of the two honest agents goes on.
 *
 * 100,000 requests arrive, one each millisecond: a replayed one, as anybody can send it who saw it, or requests each with
 * a transaction ID of its own, which need the password. They come from as many addresses, or from one fewer than the limit
 * allows. A last flood, without a limit, shows that these measurements see what grows. */
#define _GNU_SOURCE
#include "measuring.h"

enum {
    PACKETS = 100000,
    PAIRS = LIMIT + 3 /* with those of the peer, of a signaled address and of a new one */
};

/* How long the agent that is flooded may leave its path unchecked: the longest RTO, and a pacing interval for each pair
 * that can be due before. Times are whole milliseconds here. */
#define LONGEST_GAP (modern.max_rto + PAIRS * 51 * MS)

/* When a new address has a valid pair after a flood at the latest: a pair without a response is checked a last time before a whole
 * series of checks is over, and removed the longest RTO later. Its first check, this one and the first one of the new
 * pair can each wait for two of each other pair. */
#define LONGEST_WAIT (series + modern.max_rto + 3 * 2 * PAIRS * 51 * MS)

/* The settings of a new agent, and how long its series of checks takes. */
static is_ice_agent_settings modern;
static uint64_t series;

struct flood {
    const char *name;
    size_t limit, addresses, packets;
    bool is_fresh; /* each request has a transaction ID of its own */
};

static const struct flood floods[] = {
    {"replays from 100,000 addresses", LIMIT, PACKETS, PACKETS, false},
    {"replays from 31 addresses", LIMIT, LIMIT - 1, PACKETS, false},
    {"requests from 100,000 addresses", LIMIT, PACKETS, PACKETS, true},
    {"requests from 31 addresses", LIMIT, LIMIT - 1, PACKETS, true},
};

static const is_ice_address victim_at = {4, {10, 0, 0, 1}, 1000, 0, 0}, peer_at = {4, {10, 0, 0, 2}, 2000, 0, 0};
static const is_ice_address writer_at = {4, {10, 0, 0, 3}, 3000, 0, 0};

/* The victim is controlled; the peer is its honest controlling one. The writer has the peer's credentials, and the twin the
 * victim's: the twin responds to the writer, so that the writer has a path and writes checks as long as they are needed. */
struct world {
    is_ice_agent victim, peer, writer, twin;
    uint64_t now, writer_now, random;
    uint64_t last_check, longest_gap; /* of the victim, on its path to the peer */
    struct message replayed;          /* the last check of the peer */
    size_t served;                    /* responses to the flood */
    unsigned paths;                   /* paths that the victim selected */
    bool is_lost;                     /* victim or peer had no path */
    double took[BLOCK];
};

static bool is_equal(const is_ice_address *a, const is_ice_address *b)
{
    return a->port == b->port && memcmp(a->bytes, b->bytes, 4) == 0;
}

static bool is_request(const struct message *m)
{
    is_ice_stun_message read;
    must("read", is_ice_stun_read(m->bytes, m->length, &read), IS_ICE_OK);
    return read.cls == IS_ICE_STUN_REQUEST;
}

/* An address of the flood: 10.1.x.y, with x and y from the index, and one of 50,000 ports. */
static is_ice_address flood_at(size_t index)
{
    is_ice_address at = {4, {10, 1, (uint8_t)(index / 50000), 1}, (uint16_t)(1024 + index % 50000), 0, 0};
    return at;
}

/* ---- the honest session */

static void take_events(struct world *w, is_ice_agent *agent)
{
    is_ice_event event = {0};
    while (is_ice_poll_event(agent, &event) == IS_ICE_OK) {
        if (event.kind == IS_ICE_NOMINATED_SEND && agent == &w->victim) w->paths++;
        if (event.kind == IS_ICE_STATE_CHANGED && event.state == IS_ICE_DISCONNECTED) w->is_lost = true;
    }
}

static void note_check(struct world *w)
{
    uint64_t gap = w->last_check == 0 ? 0 : w->now - w->last_check;
    if (gap > w->longest_gap) w->longest_gap = gap;
    w->last_check = w->now;
}

/* The writer takes a check of the victim, and the victim its response. */
static void respond(struct world *w, const struct message *check)
{
    struct message response;
    is_ice_packet packet;
    receive(&w->writer, w->writer_now, &victim_at, &writer_at, check);
    while (transmit(&w->writer, &response, &packet)) receive(&w->victim, w->now, &writer_at, &victim_at, &response);
}

/* Delivers at once what the victim and the others send to each other. What it sends to an address of the flood is lost. */
static void deliver(struct world *w)
{
    struct message m;
    is_ice_packet packet;
    bool is_quiet = false;
    while (!is_quiet) {
        is_quiet = true;
        for (; transmit(&w->victim, &m, &packet); is_quiet = false) {
            if (is_equal(&packet.destination, &writer_at)) respond(w, &m);
            if (!is_equal(&packet.destination, &peer_at)) continue;
            if (is_request(&m)) note_check(w);
            receive(&w->peer, w->now, &victim_at, &peer_at, &m);
        }
        for (; transmit(&w->peer, &m, &packet); is_quiet = false) {
            if (is_request(&m)) w->replayed = m;
            receive(&w->victim, w->now, &peer_at, &victim_at, &m);
        }
    }
    take_events(w, &w->victim);
    take_events(w, &w->peer);
}

static void timeout_if_due(struct world *w, is_ice_agent *agent)
{
    uint64_t at = 0;
    if (is_ice_poll_timeout(agent, &at) != IS_ICE_OK || w->now >= at) timeout(&w->random, agent, w->now);
}

/* A millisecond passes: what is due is done, and what is sent arrives. */
static void pass(struct world *w)
{
    w->now += MS;
    timeout_if_due(w, &w->victim);
    timeout_if_due(w, &w->peer);
    deliver(w);
}

/* Makes a controlling agent with the peer's credentials, or a controlled one with the victim's. */
static void make(is_ice_agent *agent, bool is_controlling, const is_ice_address *at)
{
    static const char *const ufrags[] = {"victim", "peer"}, *const passwords[] = {"password of the victim", "password of the peer"};
    const is_ice_candidate host = {*at, *at, IS_ICE_HOST, IS_ICE_UDP, IS_ICE_TCP_UNSTATED};
    const char *ufrag = ufrags[is_controlling], *pass = passwords[is_controlling];
    const char *other = ufrags[!is_controlling], *secret = passwords[!is_controlling];
    size_t index;
    must("new", is_ice_agent_new(agent, TEXT(ufrag), TEXT(pass), is_controlling ? 2 : 1), IS_ICE_OK);
    must("role", is_ice_set_controlling(agent, is_controlling), IS_ICE_OK);
    must("credentials", is_ice_set_remote_credentials(agent, TEXT(other), TEXT(secret)), IS_ICE_OK);
    must("host", is_ice_add_local(agent, &host, &index), IS_ICE_OK);
}

static void introduce(is_ice_agent *a, is_ice_agent *b)
{
    uint8_t line[256];
    size_t length, index;
    must("text", is_ice_local_candidate(a, 0, line, sizeof line, &length), IS_ICE_OK);
    must("remote", is_ice_add_remote(b, line, length, &index), IS_ICE_OK);
}

/* Both have a path after ten seconds, which is checked from then on. */
static void begin(struct world *w, const struct flood *f)
{
    make(&w->victim, false, &victim_at);
    make(&w->twin, false, &victim_at);
    make(&w->peer, true, &peer_at);
    make(&w->writer, true, &writer_at);
    introduce(&w->victim, &w->peer);
    introduce(&w->peer, &w->victim);
    introduce(&w->twin, &w->writer);
    must("limit", is_ice_set_max_discovered(&w->victim, f->limit), IS_ICE_OK);
    w->now = w->writer_now = 60 * SECOND;
    w->random = 1;
    for (int i = 0; i < 10000; i++) pass(w);
    if (w->paths != 1 || w->is_lost || w->replayed.length == 0) fail(f->name, "no path");
    w->longest_gap = 0;
}

static void end(struct world *w)
{
    is_ice_agent_free(&w->victim);
    is_ice_agent_free(&w->peer);
    is_ice_agent_free(&w->writer);
    is_ice_agent_free(&w->twin);
}

/* ---- requests from other addresses */

/* The writer's next check. Its own clock passes to the time at which one is due, and the twin responds to it. */
static void write_request(struct world *w, struct message *request)
{
    struct message response;
    is_ice_packet packet;
    do {
        uint64_t at = w->writer_now;
        if (is_ice_poll_timeout(&w->writer, &at) == IS_ICE_OK && at > w->writer_now) w->writer_now = at;
        timeout(&w->random, &w->writer, w->writer_now);
        take_events(w, &w->writer);
    } while (!transmit(&w->writer, request, &packet));
    receive(&w->twin, w->writer_now, &writer_at, &victim_at, request);
    while (transmit(&w->twin, &response, &packet)) receive(&w->writer, w->writer_now, &victim_at, &writer_at, &response);
    take_events(w, &w->twin);
}

/* The request arrives from this address. Returns whether it got a response. */
static bool is_served(struct world *w, const struct message *request, const is_ice_address *from)
{
    struct message response;
    is_ice_packet packet;
    receive(&w->victim, w->now, from, &victim_at, request);
    bool has_response = transmit(&w->victim, &response, &packet);
    if (has_response && (!is_equal(&packet.destination, from) || is_request(&response))) fail("response", "it is none");
    return has_response;
}

/* Packet number `number` of the flood. Returns the time that the victim spends on it, in nanoseconds. */
static double take_one(struct world *w, const struct flood *f, size_t number)
{
    struct message request = w->replayed;
    is_ice_address from = flood_at(number % f->addresses);
    if (f->is_fresh) write_request(w, &request);
    double begin = processor_time();
    w->served += is_served(w, &request, &from);
    double took = processor_time() - begin;
    pass(w);
    return took;
}

/* A thousand packets of the flood. Returns a time that a tenth of them did not exceed. */
static double take_block(struct world *w, const struct flood *f, size_t first)
{
    for (size_t i = 0; i < BLOCK; i++) w->took[i] = take_one(w, f, first + i);
    return quick_tenth(w->took);
}

static size_t pair_count(struct world *w)
{
    size_t count = 0;
    must("pairs", is_ice_pair_count(&w->victim, &count), IS_ICE_OK);
    return count;
}

/* ---- what holds during a flood and after it */

/* The path is the first one, and it was checked in time. */
static void expect_path(struct world *w, const struct flood *f)
{
    is_ice_nominated_pair path;
    must(f->name, is_ice_nominated(&w->victim, &path), IS_ICE_OK);
    must(f->name, is_ice_has_viable_remote(&w->victim, &peer_at), IS_ICE_OK);
    if (w->is_lost || w->paths != 1) fail(f->name, "the path does not stay");
    if (w->now - w->last_check > w->longest_gap) w->longest_gap = w->now - w->last_check;
    if (w->longest_gap > LONGEST_GAP) fail(f->name, "the path was checked too late");
}

/* An address of the peer's that was signaled is served at once, also at the limit. */
static void expect_signaled(struct world *w, const struct flood *f)
{
    const is_ice_address from = {4, {10, 0, 0, 4}, 4000, 0, 0};
    size_t index;
    must("signaled", is_ice_add_remote(&w->victim, TEXT("candidate:1 1 udp 1 10.0.0.4 4000 typ host"), &index), IS_ICE_OK);
    if (!is_served(w, &w->replayed, &from)) fail(f->name, "a signaled address is not served");
}

/* After the flood a request arrives each half second from an address that was not signaled. Returns when its pair is valid. */
static uint64_t wait_for_new(struct world *w, const struct flood *f)
{
    uint64_t begin = w->now;
    struct message request;
    while (is_ice_has_viable_remote(&w->victim, &writer_at) != IS_ICE_OK) {
        if (w->now - begin > LONGEST_WAIT) fail(f->name, "a new address gets no pair");
        write_request(w, &request);
        is_served(w, &request, &writer_at);
        for (int i = 0; i < 500; i++) pass(w);
    }
    return w->now - begin;
}

/* Plays a flood within the limit, and prints what it cost. */
static void play(const struct flood *f)
{
    static struct world w;
    double first = 0, last = 0;
    long begun = 0;
    memset(&w, 0, sizeof w);
    begin(&w, f);
    for (size_t block = 0; block < f->packets / BLOCK; block++) {
        last = take_block(&w, f, block * BLOCK);
        if (block == 0) first = last, begun = resident();
        size_t remotes = listed(&w.victim, is_ice_remote_candidate);
        if (remotes > 1 + f->limit || pair_count(&w) > 1 + f->limit) fail(f->name, "there are more candidates or pairs");
    }
    long grown = resident() - begun;
    if (grown > FLAT) fail(f->name, "memory grows");
    if (last > 2 * first) fail(f->name, "packets take longer and longer");
    if (f->addresses < f->limit && w.served != f->packets) fail(f->name, "a known sender was not served");
    expect_path(&w, f);
    expect_signaled(&w, f);
    uint64_t waited = wait_for_new(&w, f);
    expect_path(&w, f);
    printf("%s: %zu served, %.0f ns each at first, then %.0f, memory grew by %ld bytes, ", f->name, w.served, first, last, grown);
    printf("path checked after %llu ms at most, ", (unsigned long long)(w.longest_gap / MS));
    printf("new address after %llu ms\n", (unsigned long long)(waited / MS));
    end(&w);
}

/* Without a limit each address becomes a candidate and a pair, as in the original. */
static void play_without_limit(void)
{
    static const struct flood f = {"replays without a limit", IS_ICE_NO_LIMIT, 5000, 5000, false};
    static struct world w;
    memset(&w, 0, sizeof w);
    begin(&w, &f);
    double first = take_block(&w, &f, 0), last = first;
    long begun = resident();
    for (size_t block = 1; block < f.packets / BLOCK; block++) last = take_block(&w, &f, block * BLOCK);
    long grown = resident() - begun;
    if (w.served != f.packets || listed(&w.victim, is_ice_remote_candidate) != 1 + f.packets) fail(f.name, "an address is no candidate");
    if (grown <= FLAT || last <= first) fail(f.name, "the measurements do not see what grows");
    printf("%s: %zu served, %.0f ns each at first, then %.0f, memory grew by %ld bytes\n", f.name, w.served, first, last, grown);
    end(&w);
}

int main(void)
{
    must("settings", is_ice_modern_settings(&modern), IS_ICE_OK);
    must("series", is_ice_retransmit_timeout(modern.initial_rto, modern.max_rto, modern.max_retransmits, &series), IS_ICE_OK);
    for (size_t i = 0; i < sizeof floods / sizeof *floods; i++) play(&floods[i]);
    play_without_limit();
    return 0;
}
