/* What an agent sends to addresses that never answer, in simulated time: bytes for each byte of a request that somebody replays from them,
 * once or again and again (RFC 8445, section 19.5.1), and checks to candidates that a peer signals there. The numbers are those of
 * docs/GUIDE.md, "Security". */
#define _GNU_SOURCE
#include "measuring.h"

enum { CHECKS = 11, SERIES = 17, UDP_HEADERS = 28, SIGNALED = 100, MODERN_RATE = 49, ORIGINAL_RATE = 21, MOST = 100000, SOURCES = 32, TIMES = 20 };
enum { SLOW = 100 }; /* milliseconds: candidates that come so far apart or further get up to 17 checks with `Modern` */
static const double most_bytes = 11.85; /* for each byte of a replayed request: 11.8 */

static const is_ice_address agent_at = {4, {10, 0, 0, 1}, 1000, 0, 0}, peer_at = {4, {10, 0, 0, 2}, 2000, 0, 0};
static const char *const agent_password = "password of the agent", *const peer_password = "password of the peer";

struct world {
    is_ice_agent agent;
    uint64_t now, random;
    bool answers;                    /* the peer answers checks on its own address */
    size_t checks, packets, bytes;   /* sent to the silent addresses; bytes with the headers of IP and UDP */
    uint64_t sent[MOST];             /* when each of these checks was sent */
};

static void begin(struct world *w, bool modern)
{
    const is_ice_candidate host = {agent_at, agent_at, IS_ICE_HOST, IS_ICE_UDP, IS_ICE_TCP_UNSTATED};
    is_ice_agent_settings settings;
    size_t index;
    memset(w, 0, sizeof *w);
    w->now = 60 * SECOND;
    w->random = 1;
    must("new", is_ice_agent_new(&w->agent, TEXT("agent"), TEXT(agent_password), 1), IS_ICE_OK);
    must("settings", is_ice_settings(&w->agent, &settings), IS_ICE_OK);
    settings.modern = modern, settings.initial_rto = 250 * MS, settings.max_rto = 2900 * MS, settings.max_retransmits = CHECKS;
    must("settings", is_ice_set_settings(&w->agent, &settings), IS_ICE_OK);
    must("role", is_ice_set_controlling(&w->agent, true), IS_ICE_OK);
    must("host", is_ice_add_local(&w->agent, &host, &index), IS_ICE_OK);
    must("credentials", is_ice_set_remote_credentials(&w->agent, TEXT("peer"), TEXT(peer_password)), IS_ICE_OK);
}

static void write_message(const is_ice_stun_message *m, const is_ice_stun_texts *texts, const char *words, const char *password, struct message *written)
{
    must("message", is_ice_stun_write(m, texts, TEXT(words), TEXT(password), written->bytes, sizeof written->bytes, &written->length), IS_ICE_OK);
}

static void respond(struct world *w, const struct message *check)
{
    static const is_ice_stun_texts none;
    is_ice_stun_message request, m = {0};
    struct message response;
    must("check", is_ice_stun_read(check->bytes, check->length, &request), IS_ICE_OK);
    m.method = request.method, m.cls = IS_ICE_STUN_SUCCESS, m.id = request.id, m.mapped = agent_at, m.has_integrity = true;
    write_message(&m, &none, "", peer_password, &response);
    receive(&w->agent, w->now, &peer_at, &agent_at, &response);
}

/* A request of the peer, as it checks a path. */
static void request(struct message *written)
{
    is_ice_stun_message m = {0};
    is_ice_stun_texts texts = {0};
    m.method = 1, m.id.bytes[0] = 1, m.priority = (is_ice_stun_number){1845494271, true};
    m.controlled = (is_ice_stun_number){5, true}, m.has_integrity = true;
    texts.username = (is_ice_stun_span){0, strlen("agent:peer"), true};
    write_message(&m, &texts, "agent:peer", agent_password, written);
}

static void note(struct world *w, const struct message *m)
{
    is_ice_stun_message read;
    must("packet", is_ice_stun_read(m->bytes, m->length, &read), IS_ICE_OK);
    w->packets++;
    w->bytes += m->length + UDP_HEADERS;
    if (read.cls == IS_ICE_STUN_REQUEST && w->checks < MOST) w->sent[w->checks++] = w->now;
}

static void drain(struct world *w)
{
    struct message m;
    is_ice_packet packet;
    is_ice_event event;
    while (transmit(&w->agent, &m, &packet)) {
        bool is_peers = memcmp(packet.destination.bytes, peer_at.bytes, 4) == 0;
        if (!is_peers) note(w, &m);
        else if (w->answers) respond(w, &m);
    }
    while (is_ice_poll_event(&w->agent, &event) == IS_ICE_OK) {}
}

static void start(struct world *w)
{
    timeout(&w->random, &w->agent, w->now);
    drain(w);
}

static void run_for(struct world *w, uint64_t span)
{
    uint64_t end = w->now + span, at;
    while (is_ice_poll_timeout(&w->agent, &at) == IS_ICE_OK && at <= end) {
        if (at > w->now) w->now = at;
        timeout(&w->random, &w->agent, w->now);
        drain(w);
    }
    w->now = end;
}

/* The greatest number of checks within a second. */
static size_t busiest(const struct world *w)
{
    size_t most = 0, first = 0;
    for (size_t i = 0; i < w->checks; i++) {
        while (w->sent[i] - w->sent[first] >= SECOND) first++;
        if (i - first + 1 > most) most = i - first + 1;
    }
    return most;
}

static const char *profile(bool modern) { return modern ? "Modern" : "Original"; }

/* One request of the peer arrives from as many silent addresses, so many times, so many milliseconds apart. */
static void replay(bool modern, bool connected, size_t sources, size_t times, unsigned apart)
{
    static struct world w;
    struct message m;
    size_t index, requests = sources * times;
    begin(&w, modern);
    if (connected) {
        w.answers = true;
        must("remote", is_ice_add_remote(&w.agent, TEXT("candidate:1 1 udp 2130706431 10.0.0.2 2000 typ host"), &index), IS_ICE_OK);
    }
    start(&w);
    run_for(&w, 5 * SECOND);
    request(&m);
    for (size_t k = 0; k < times; k++) {
        for (size_t i = 0; i < sources; i++) {
            const is_ice_address from = {4, {192, 0, 2, (uint8_t)i}, 3000, 0, 0};
            receive(&w.agent, w.now, &from, &agent_at, &m);
            drain(&w);
        }
        run_for(&w, apart * MS);
    }
    run_for(&w, 90 * SECOND);
    double factor = (double)w.bytes / (double)(requests * (m.length + UDP_HEADERS));
    printf("%s, %s a path, a request from each of %zu silent addresses", profile(modern), connected ? "with" : "without", sources);
    if (times > 1) printf(", %zu times, %u ms apart", times, apart);
    printf(": %zu checks, %.1f bytes for each byte, at most %zu checks in a second\n", w.checks, factor, busiest(&w));
    if (requests == 1 && w.checks != CHECKS) fail("replay", "not 11 checks");
    if (w.checks == 0 || w.checks > requests * CHECKS) fail("replay", "more than 11 checks for each request");
    if (factor > most_bytes) fail("replay", "more than 11.8 bytes for each byte");
    if (busiest(&w) > (modern ? MODERN_RATE : ORIGINAL_RATE)) fail("replay", "more checks in a second");
    if (w.packets != w.checks + requests) fail("replay", "each request has one response");
    is_ice_agent_free(&w.agent);
}

/* A peer signals a hundred candidates that never answer, so many milliseconds apart. */
static void list_strangers(bool modern, unsigned apart)
{
    static struct world w;
    char line[100];
    size_t index, most = modern ? MODERN_RATE : ORIGINAL_RATE;
    begin(&w, modern);
    for (size_t i = 0; i < SIGNALED; i++) {
        snprintf(line, sizeof line, "candidate:1 1 udp %zu 192.0.2.9 %zu typ host", 2130706431 - i, 3000 + i);
        must("remote", is_ice_add_remote(&w.agent, TEXT(line), &index), IS_ICE_OK);
        if (i == 0) start(&w);
        run_for(&w, apart * MS);
    }
    run_for(&w, 300 * SECOND);
    printf("%s, %d signaled candidates that never answer, %u ms apart: %zu checks, at most %zu in a second\n",
           profile(modern), SIGNALED, apart, w.checks, busiest(&w));
    if (w.checks == 0 || w.checks > SIGNALED * (modern && apart >= SLOW ? SERIES : CHECKS)) fail("signal", "more checks than 11 for each candidate, or 17");
    if (busiest(&w) > most) fail("signal", "more checks in a second");
    is_ice_agent_free(&w.agent);
}

int main(void)
{
    static const unsigned gaps[] = {0, 10, 20, 100, 500, 1000}, waits[] = {500, 4000, 12000, 16000, 28000};
    for (int modern = 0; modern < 2; modern++) {
        for (int connected = 0; connected < 2; connected++) {
            replay(modern, connected, 1, 1, 0);
            replay(modern, connected, SOURCES, 1, 0);
            for (size_t i = 0; i < sizeof waits / sizeof *waits; i++) replay(modern, connected, 1, TIMES, waits[i]);
        }
        for (size_t i = 0; i < sizeof gaps / sizeof *gaps; i++) list_strangers(modern, gaps[i]);
    }
    return 0;
}
