/* Attacks on an agent: messages that are cut, changed, forged, repeated or late, requests before the peer is known, values at their limits,
 * and random calls. What an agent does not accept changes nothing that a program sees of it, and what it accepts has the outcome that the
 * standards say. flood.c, mapped.c, signaled.c and silent.c have what floods cost, ice_stories role conflicts whose 487 is late. */
#define _GNU_SOURCE
#include "hostile.h"
#include "hostile_reader.h"
#include "hostile_calls.h"

/* ---- the request, cut and changed */

/* The agent responds to the request, and reports where it came from. */
static void expect_reply(is_ice_agent *agent)
{
    struct message m;
    is_ice_packet packet;
    expect("a response", transmit(agent, &m, &packet));
    expect("the response is that of another library", m.length == sizeof reply && memcmp(m.bytes, reply, sizeof reply) == 0);
    expect("the response goes back", packet.destination.port == far_at.port && packet.destination.bytes[3] == far_at.bytes[3]);
    expect("one response, and the source", packets(agent) == 0 && strcmp(events(agent), "S") == 0);
}

/* A new agent gets these bytes in place of the request. Either it responds as to the request, or nothing changes and it then responds to the
 * request. Returns what the bytes are, after the other reader; the library says the same. */
static enum form try_bytes(const uint8_t *bytes, size_t length, bool *is_taken)
{
    const enum form form = form_of(bytes, length);
    is_ice_agent agent = {0};
    is_ice_stun_message read;
    must("read", is_ice_stun_read(bytes, length, &read), form == NO_MESSAGE ? IS_ICE_UNPARSED : IS_ICE_OK);
    must("read strictly", is_ice_stun_read_strict(bytes, length, &read), form == COMPLETE ? IS_ICE_OK : IS_ICE_UNPARSED);
    make_asked(&agent);
    const uint64_t before = seen_of(&agent);
    const int32_t code = give(&agent, 0, &far_at, &near_at, bytes, length);
    *is_taken = code == IS_ICE_OK;
    if (*is_taken) expect("the request is seen", seen_of(&agent) != before);
    else {
        must("not accepted", code, form == COMPLETE ? IS_ICE_NOTHING : IS_ICE_UNPARSED);
        expect("nothing changes", seen_of(&agent) == before && packets(&agent) == 0 && events(&agent)[0] == 0);
        must("the request after it", give(&agent, 0, &far_at, &near_at, request, sizeof request), IS_ICE_OK);
    }
    expect_reply(&agent);
    is_ice_agent_free(&agent);
    return form;
}

static void set_length(uint8_t *bytes, size_t length)
{
    bytes[2] = (uint8_t)((length - 20) >> 8), bytes[3] = (uint8_t)(length - 20);
}

/* The request cut to each length, as it is and with a header that says the new length. */
static void cut(void)
{
    static const size_t ends[] = {20, 36, 44, 56, 60, 68, 92, 100}; /* of the header and of each attribute; MESSAGE-INTEGRITY ends at 92 */
    size_t tried = 0, next = 0;
    bool is_taken;
    for (size_t length = 0; length < sizeof request; length++, tried++)
        expect("a cut request is no message", try_bytes(request, length, &is_taken) == NO_MESSAGE && !is_taken);
    for (size_t length = 20; length < sizeof request; length++, tried++) {
        uint8_t bytes[sizeof request];
        memcpy(bytes, request, sizeof bytes);
        set_length(bytes, length);
        const enum form form = try_bytes(bytes, length, &is_taken), wanted = length == 92 ? COMPLETE : INCOMPLETE;
        expect("it is one after each attribute", form == (length == ends[next] ? wanted : NO_MESSAGE));
        expect("it is accepted with MESSAGE-INTEGRITY", is_taken == (length == 92));
        next += length == ends[next];
    }
    printf("%zu cut requests\n", tried);
}

/* Each byte of the request set to each other value. */
static void change(void)
{
    size_t tried = 0, taken = 0, forms[3] = {0};
    uint8_t bytes[sizeof request];
    memcpy(bytes, request, sizeof bytes);
    for (size_t place = 0; place < sizeof request; place++)
        for (unsigned change = 1; change < 256; change++, tried++) {
            bool is_taken;
            bytes[place] ^= (uint8_t)change;
            forms[try_bytes(bytes, sizeof bytes, &is_taken)]++;
            taken += is_taken;
            bytes[place] ^= (uint8_t)change;
            expect("only a change after MESSAGE-INTEGRITY is accepted", !is_taken || place >= 92);
        }
    expect("type and value of FINGERPRINT are not looked at", taken == 6 * 255);
    printf("%zu changed requests: %zu no message, %zu without an attribute, %zu accepted\n", tried, forms[NO_MESSAGE], forms[INCOMPLETE], taken);
}

/* ---- responses */

/* A response to the agent's check of 10.0.0.2:2000 from 10.0.0.1:1000, which is wrong in one thing. */
struct forgery {
    const char *name, *password;
    bool is_conflict, is_known; /* a 487; with the transaction ID of the check */
    is_ice_address from, to;
    int32_t reason;
};

#define FAR {4, {10, 0, 0, 2}, 2000, 0, 0}
#define OTHER_HOST {4, {10, 0, 0, 3}, 2000, 0, 0}
#define OTHER_PORT {4, {10, 0, 0, 2}, 2001, 0, 0}
#define NEAR {4, {10, 0, 0, 1}, 1000, 0, 0}
#define NEAR_PORT {4, {10, 0, 0, 1}, 1001, 0, 0}

static const struct forgery forgeries[] = {
    {"another password", "farpast", false, true, FAR, NEAR, IS_ICE_REJECTED_REMOTE_PASSWORD},
    {"the receiver's password", "nearpass", false, true, FAR, NEAR, IS_ICE_REJECTED_REMOTE_PASSWORD},
    {"an ID of no check", "farpass", false, false, FAR, NEAR, IS_ICE_REJECTED_NO_CHECK},
    {"another host", "farpass", false, true, OTHER_HOST, NEAR, IS_ICE_REJECTED_PATH},
    {"another port", "farpass", false, true, OTHER_PORT, NEAR, IS_ICE_REJECTED_PATH},
    {"to another port", "farpass", false, true, FAR, NEAR_PORT, IS_ICE_REJECTED_PATH},
    {"487 with another password", "farpast", true, true, FAR, NEAR, IS_ICE_REJECTED_REMOTE_PASSWORD},
    {"487 with an ID of no check", "farpass", true, false, FAR, NEAR, IS_ICE_REJECTED_NO_CHECK},
    {"487 from another host", "farpass", true, true, OTHER_HOST, NEAR, IS_ICE_REJECTED_PATH},
};

/* A controlling agent sends its check at 0. Returns the transaction ID in `id`. */
static void begin_check(is_ice_agent *agent, bool modern, uint8_t *id)
{
    struct message check;
    is_ice_packet packet;
    uint64_t random = 1;
    make_peered(agent, modern);
    must("remote", add_remote(agent, FAR_LINE), IS_ICE_OK);
    timeout(&random, agent, 0);
    expect("a check", transmit(agent, &check, &packet) && packets(agent) == 0);
    events(agent);
    memcpy(id, check.bytes + 8, 12);
}

/* The forged response changes nothing, and the true one after it selects the path. */
static void forge(const struct forgery *f, bool modern)
{
    is_ice_agent agent = {0};
    struct message response;
    uint8_t id[12];
    begin_check(&agent, modern, id);
    const uint64_t before = seen_of(&agent);
    id[11] ^= !f->is_known;
    respond(id, f->is_conflict, f->password, &response);
    id[11] ^= !f->is_known;
    must(f->name, is_ice_rejection(&agent, IS_ICE_UDP, &f->from, &f->to, response.bytes, response.length), f->reason);
    must(f->name, give(&agent, 50 * MS, &f->from, &f->to, response.bytes, response.length), IS_ICE_NOTHING);
    expect(f->name, seen_of(&agent) == before && packets(&agent) == 0 && events(&agent)[0] == 0);
    respond(id, false, far_password, &response);
    must("the true one", give(&agent, 50 * MS, &far_at, &near_at, response.bytes, response.length), IS_ICE_OK);
    expect("it selects the path", packets(&agent) == 0 && strcmp(events(&agent), "NCS") == 0);
    is_ice_agent_free(&agent);
}

/* ---- more requests than an agent stores before it knows its peer */

/* At each millisecond from 0 on one of 40 requests gets its response, in their order, the second one first. */
static void expect_in_order(is_ice_agent *agent)
{
    struct message m;
    is_ice_packet packet;
    uint64_t random = 1;
    for (uint8_t n = 0; n < 40; n++) {
        timeout(&random, agent, n * MS);
        expect("a response to the next request", transmit(agent, &m, &packet) && m.bytes[0] == 1 && m.bytes[19] == n + 2 && packets(agent) == 0);
    }
}

static size_t waiting(is_ice_agent *agent)
{
    size_t count = 0;
    must("early", is_ice_early_count(agent, &count), IS_ICE_OK);
    return count;
}

/* The last 100 of 101 requests wait for the peer's credentials. Those that are as old as a whole series of checks are dropped then. */
static void come_early(bool modern)
{
    is_ice_agent agent = {0};
    is_ice_agent_status status;
    struct message m;
    is_ice_packet packet;
    uint64_t random = 1;
    make_near(&agent, modern);
    for (uint8_t n = 1; n <= 101; n++) {
        ask(n, true, &m);
        must("early", give(&agent, 0, &far_at, &near_at, m.bytes, m.length), IS_ICE_OK);
    }
    expect("the last 100 wait", waiting(&agent) == 100 && packets(&agent) == 0 && strcmp(events(&agent), "S") == 0);
    set_peer(&agent, "farr", far_password);
    expect_in_order(&agent);
    must("status", is_ice_status(&agent, &status), IS_ICE_OK);
    expect("60 wait", waiting(&agent) == 60 && strcmp(events(&agent), "Rc") == 0);
    timeout(&random, &agent, status.ice_timeout);
    expect("they are too old, and the peer is checked", transmit(&agent, &m, &packet) && m.bytes[0] == 0 && waiting(&agent) == 0);
    is_ice_agent_free(&agent);
}

/* ---- the request, replayed before there is a path */

/* What the agent sends: how many responses, and whether its peer is checked, with which transaction ID. */
static void send_all(is_ice_agent *agent, size_t *responses, uint8_t *id)
{
    struct message m;
    is_ice_packet packet;
    while (transmit(agent, &m, &packet)) {
        *responses += m.bytes[0] == 1;
        if (m.bytes[0] == 0 && packet.destination.bytes[3] == far_at.bytes[3]) memcpy(id, m.bytes + 8, 12);
    }
}

/* The request comes from 1,000 ports within two seconds, while the peer is silent. As many as the limit become candidates and get a response,
 * and the peer is checked all the same: its response selects the path. */
static void replay(bool modern)
{
    is_ice_agent agent = {0};
    is_ice_address from = {4, {10, 0, 0, 3}, 0, 0, 0};
    struct message response;
    uint64_t random = 1;
    size_t responses = 0;
    uint8_t id[12] = {0};
    make_asked(&agent);
    set_profile(&agent, modern);
    must("limit", is_ice_set_max_discovered(&agent, LIMIT), IS_ICE_OK);
    must("remote", add_remote(&agent, FAR_LINE), IS_ICE_OK);
    for (from.port = 1; from.port <= 1000; from.port++) {
        must("replay", give(&agent, from.port * 2 * MS, &from, &near_at, request, sizeof request), IS_ICE_OK);
        if (from.port % 25 == 0) timeout(&random, &agent, from.port * 2 * MS);
        send_all(&agent, &responses, id);
    }
    expect("as many as the limit", responses == LIMIT && listed(&agent, is_ice_remote_candidate) == 1 + LIMIT && pairs(&agent) == 1 + LIMIT);
    respond(id, false, "x", &response);
    must("response", give(&agent, 2 * SECOND, &far_at, &near_at, response.bytes, response.length), IS_ICE_OK);
    must("the peer's pair is valid", is_ice_has_viable_remote(&agent, &far_at), IS_ICE_OK);
    is_ice_agent_free(&agent);
}

/* ---- limits */

static void expect_listed(const char *what, is_ice_agent *agent, size_t pair_count, size_t remotes)
{
    expect(what, pairs(agent) == pair_count && listed(agent, is_ice_remote_candidate) == remotes);
}

/* No pair number is left: a candidate that would be paired is not added, and one over TCP needs no pair. Or one number is left. */
static void run_out_of_numbers(bool modern)
{
    is_ice_agent agent = {0};
    make_peered(&agent, modern);
    must("skip", is_ice_skip_pair_ids(&agent, UINT64_MAX), IS_ICE_OK);
    const uint64_t before = seen_of(&agent);
    must("no number", add_remote(&agent, FAR_LINE), IS_ICE_PAIR_IDS_EXHAUSTED);
    expect("nothing changes", seen_of(&agent) == before);
    must("over TCP", add_remote(&agent, "candidate:1 1 tcp 2130706175 10.0.0.2 2000 typ host tcptype passive"), IS_ICE_OK);
    expect_listed("one without a pair", &agent, 0, 1);
    is_ice_agent_free(&agent);
    make_peered(&agent, modern);
    must("skip", is_ice_skip_pair_ids(&agent, UINT64_MAX - 1), IS_ICE_OK);
    must("the last number", add_remote(&agent, FAR_LINE), IS_ICE_OK);
    must("no number", add_remote(&agent, THIRD_LINE), IS_ICE_PAIR_IDS_EXHAUSTED);
    must("skip back", is_ice_skip_pair_ids(&agent, 7), IS_ICE_OK);
    must("no number", add_remote(&agent, THIRD_LINE), IS_ICE_PAIR_IDS_EXHAUSTED);
    expect_listed("one pair", &agent, 1, 1);
    is_ice_agent_free(&agent);
}

/* No pair is allowed: forming leaves none, and a request adds one until pairs are formed again. */
static void allow_no_pair(bool modern)
{
    is_ice_agent agent = {0};
    struct message m;
    make_peered(&agent, modern);
    must("limit", is_ice_set_max_pairs(&agent, 0), IS_ICE_OK);
    must("remote", add_remote(&agent, FAR_LINE), IS_ICE_OK);
    expect_listed("no pair", &agent, 0, 1);
    ask(1, false, &m);
    must("request", give(&agent, 0, &far_at, &near_at, m.bytes, m.length), IS_ICE_OK);
    expect_listed("that of the request", &agent, 1, 1);
    must("another", add_remote(&agent, THIRD_LINE), IS_ICE_OK);
    expect_listed("none again", &agent, 0, 2);
    is_ice_agent_free(&agent);
}

/* The pair's priority (RFC 8445, section 6.1.2.3) at the limits of both: G is that of the controlling side. */
static void expect_priorities(bool controlling)
{
    static const char local[] = "candidate:1 1 udp 4294967294 10.0.0.1 1000 typ host";
    static const uint32_t remotes[] = {0, UINT32_MAX};
    for (size_t i = 0; i < COUNT(remotes); i++) {
        is_ice_agent agent = {0};
        is_ice_pair pair;
        char line[100];
        size_t index;
        const uint64_t g = controlling ? UINT32_MAX - 1 : remotes[i], d = controlling ? remotes[i] : UINT32_MAX - 1;
        snprintf(line, sizeof line, "candidate:1 1 udp %lu 10.0.0.2 2000 typ host", (unsigned long)remotes[i]);
        must("new", is_ice_agent_new(&agent, TEXT("near"), TEXT(near_password), 1), IS_ICE_OK);
        must("role", is_ice_set_controlling(&agent, controlling), IS_ICE_OK);
        must("local", is_ice_add_local_line(&agent, TEXT(local), &index), IS_ICE_OK);
        must("remote", add_remote(&agent, line), IS_ICE_OK);
        must("pair", is_ice_pair_at(&agent, 0, &pair), IS_ICE_OK);
        expect("the priority", pair.priority == ((g < d ? g : d) << 32) + 2 * (g < d ? d : g) + (g > d));
        is_ice_agent_free(&agent);
    }
}

/* ---- times at their limits */

/* With an initial RTO of 0, or at the greatest time, a pair gets as many checks as the limit on retransmits says, all at one time; the next
 * call removes it. A time of the last minute before 2^64 is that before it (is_ice.h). */
static void check_at_once(bool modern, bool is_last)
{
    const uint64_t now = is_last ? UINT64_MAX : 0;
    is_ice_agent agent = {0};
    is_ice_agent_settings settings;
    uint64_t random = 1, at = 0;
    make_peered(&agent, modern);
    must("remote", add_remote(&agent, FAR_LINE), IS_ICE_OK);
    must("settings", is_ice_settings(&agent, &settings), IS_ICE_OK);
    if (!is_last) must("RTO", is_ice_set_initial_rto(&agent, 0), IS_ICE_OK);
    for (size_t i = 0; i < settings.max_retransmits; i++) {
        timeout(&random, &agent, now);
        expect("a check", packets(&agent) == 1 && pairs(&agent) == 1);
        must("a timeout", is_ice_poll_timeout(&agent, &at), IS_ICE_OK);
        expect("it is late", is_last ? at == UINT64_MAX - 60 * SECOND : at > 0);
    }
    timeout(&random, &agent, now);
    expect("the pair is gone", packets(&agent) == 0 && pairs(&agent) == 0 && strcmp(events(&agent), "RcD") == 0);
    is_ice_agent_free(&agent);
}

/* A time before the last one: the next check stays due after the first one. */
static void go_back(bool modern)
{
    is_ice_agent agent = {0};
    is_ice_pair pair;
    uint64_t random = 1, at = 0;
    make_peered(&agent, modern);
    must("remote", add_remote(&agent, FAR_LINE), IS_ICE_OK);
    timeout(&random, &agent, SECOND);
    expect("a check", packets(&agent) == 1);
    timeout(&random, &agent, 0);
    must("pair", is_ice_pair_at(&agent, 0, &pair), IS_ICE_OK);
    must("a timeout", is_ice_poll_timeout(&agent, &at), IS_ICE_OK);
    expect("no check until it is due", packets(&agent) == 0 && pair.has_due && pair.due > SECOND && at == pair.due);
    is_ice_agent_free(&agent);
}

static uint64_t series(is_ice_agent *agent)
{
    is_ice_agent_status status;
    must("status", is_ice_status(agent, &status), IS_ICE_OK);
    return status.ice_timeout;
}

/* How long a whole series of checks takes: of one the initial RTO; of the most that there can be no number of nanoseconds. */
static void expect_series(bool modern)
{
    is_ice_agent agent = {0};
    is_ice_agent_settings settings;
    make_peered(&agent, modern);
    must("settings", is_ice_settings(&agent, &settings), IS_ICE_OK);
    must("one", is_ice_set_max_retransmits(&agent, 1), IS_ICE_OK);
    expect("one RTO", series(&agent) == settings.initial_rto);
    must("most", is_ice_set_max_retransmits(&agent, SIZE_MAX), IS_ICE_OK);
    expect("the greatest time", series(&agent) == UINT64_MAX);
    must("RTO", is_ice_set_initial_rto(&agent, 0), IS_ICE_OK);
    expect("no time", series(&agent) == 0);
    is_ice_agent_free(&agent);
}

/* With one of the profiles. */
static void attack(bool modern)
{
    for (size_t i = 0; i < COUNT(forgeries); i++) forge(&forgeries[i], modern);
    come_early(modern);
    replay(modern);
    run_out_of_numbers(modern);
    allow_no_pair(modern);
    check_at_once(modern, false);
    check_at_once(modern, true);
    go_back(modern);
    expect_series(modern);
}

/* hostile [LISTS]: makes so many lists of random calls. */
int main(int argc, char **argv)
{
    const unsigned long lists = argc > 1 ? strtoul(argv[1], NULL, 10) : 10000;
    cut();
    change();
    attack(false);
    attack(true);
    expect_priorities(false);
    expect_priorities(true);
    call_randomly(lists);
    return 0;
}
