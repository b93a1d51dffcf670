/* What fuzz.c shares with fuzz_arguments.h: the input, the agents, and what must hold after each call. */
#ifndef FUZZ_CALLS_H
#define FUZZ_CALLS_H

#include "fences.h"
#include "is_ice.h"

#define TEXT(text) (const uint8_t *)(text), strlen(text)
#define MS UINT64_C(1000000) /* times are nanoseconds */
#define SECOND (1000 * MS)
#define COUNT(array) (sizeof(array) / sizeof *(array))

enum { AGENTS = 3, WIRE = 16, MTU_FLOOR = 588, LONGEST = 596, TEXT_SIZE = 2048, SUBJECTS = 512 };

/* ---- coverage: what a run saw */

__attribute__((section("__libfuzzer_extra_counters"))) static uint8_t counters[SUBJECTS * 32];

/* Counts one of 32 things that a run saw of a subject. */
static void saw(size_t subject, size_t thing)
{
    uint8_t *counter = &counters[subject % SUBJECTS * 32 + thing % 32];
    if (*counter < 255) ++*counter;
}

/* The number of a call, by its text and by which one of a table it is. */
static size_t subject_of(const char *call, size_t place)
{
    uint32_t hash = 2166136261u + (uint32_t)place;
    for (; *call != '(' && *call; call++) hash = (hash ^ (uint8_t)*call) * 16777619u;
    return (hash >> 8) % (SUBJECTS - 16) + 16;
}

enum { EVENTS = 0, STATES = 1, PAIRS = 4, REASONS = 10, PAIR_COUNTS = 7 }; /* the subjects below 16; of each agent one of the last three */

/* ---- the input */

static const uint8_t *at, *end;

static uint8_t take(void)
{
    return at < end ? *at++ : 0;
}

static size_t below(size_t limit)
{
    return limit <= 256 ? take() % limit : (take() * (size_t)256 + take()) % limit;
}

static bool one_in(size_t many)
{
    return below(many) == many - 1;
}

static uint64_t number(void)
{
    static const uint64_t edges[] = {0, 1, 2, 3, 9, 11, 31, 32, 100, 587, 588, 589, 1150, 65535, 65536, UINT32_MAX, UINT64_C(4294967296),
        50 * MS, 250 * MS, SECOND, 3 * SECOND, 15 * SECOND, 60 * SECOND, INT64_MAX, UINT64_MAX - 1, UINT64_MAX};
    uint8_t kind = take();
    if (kind < 64) return kind;
    if (kind < 192) return edges[kind % COUNT(edges)];
    uint64_t value = 0;
    for (int i = 0; i < 8; i++) value = value << 8 | take();
    return value;
}

/* ---- the world */

struct wire {
    uint8_t bytes[LONGEST];
    is_ice_packet packet;
};

static is_ice_agent *agents[AGENTS]; /* each before a page without access */
static bool is_held[AGENTS];
static uint64_t now;
static struct wire wires[WIRE]; /* the last packets that agents sent */
static size_t sent;
static size_t on; /* the agent of the call, or AGENTS */
static size_t which; /* the number of the call in its table, if it is chosen from one */

static const char *const ufrags[AGENTS] = {"left", "rght", "a:b"};
static const char *const passwords[AGENTS] = {"password of the left one", "password of the right one", ""};

/* What queries say of an agent. */
struct view {
    uint64_t values[35];
};

/* A code as the number of a bit: the reasons of is_ice_rejection have one. */
static unsigned bit_of(int32_t code)
{
    if (code > IS_ICE_NO_RELAY || code < IS_ICE_HAS_SERVERS) stop("there is no such code");
    if (code == IS_ICE_NO_RELAY) return 28;
    if (code <= IS_ICE_BAD_URL) return 29 + (unsigned)(IS_ICE_BAD_URL - code);
    if (code >= IS_ICE_UNSERVED_EARLY) return 27;
    if (code >= IS_ICE_REJECTED_METHOD) return 22;
    return code > IS_ICE_OK ? 18 + (unsigned)code : (unsigned)-code;
}

static void view(is_ice_agent *agent, struct view *v)
{
    is_ice_agent_status status;
    is_ice_agent_settings settings;
    is_ice_agent_stats stats;
    is_ice_nominated_pair path;
    is_ice_pair pair;
    size_t count = 0;
    memset(v, 0, sizeof *v);
    if (is_ice_status(agent, &status) != IS_ICE_OK) return;
    uint64_t timeout = 0, *to = v->values;
    *to++ = (uint64_t)status.state, *to++ = status.controlling, *to++ = status.lite, *to++ = status.mtu, *to++ = status.mtu_warn;
    *to++ = status.ice_timeout, *to++ = status.max_candidates;
    if (is_ice_settings(agent, &settings) == IS_ICE_OK) {
        *to++ = settings.timing_advance, *to++ = settings.initial_rto, *to++ = settings.max_rto, *to++ = settings.lite_timeout;
        *to++ = settings.consent_timeout, *to++ = settings.max_retransmits, *to++ = settings.max_pairs, *to++ = settings.max_discovered;
        *to++ = (uint64_t)settings.modern * 4 + (uint64_t)settings.strict_consent * 2 + settings.renomination;
    }
    if (is_ice_stats(agent, &stats) == IS_ICE_OK) {
        *to++ = stats.bind_request_sent, *to++ = stats.bind_success_recv, *to++ = stats.bind_request_recv;
        *to++ = stats.discovered_recv_count, *to++ = stats.nomination_send_count;
    }
    if (is_ice_nominated(agent, &path) == IS_ICE_OK) *to++ = 1, *to++ = path.total_rtt, *to++ = path.responses;
    if (is_ice_pair_count(agent, &count) == IS_ICE_OK) *to++ = count;
    if (count > 0 && is_ice_pair_at(agent, count - 1, &pair) == IS_ICE_OK) {
        *to++ = pair.local, *to++ = pair.remote, *to++ = pair.priority, *to++ = pair.checks_sent, *to++ = pair.requests_received;
        *to++ = (uint64_t)pair.state, *to++ = pair.nominated;
    }
    if (is_ice_poll_timeout(agent, &timeout) == IS_ICE_OK) *to++ = timeout;
    if (is_ice_removed_count(agent, &count) == IS_ICE_OK) *to++ = count;
    if (is_ice_early_count(agent, &count) == IS_ICE_OK) *to++ = count;
}

static bool is_utf8(const uint8_t *text, size_t length)
{
    for (size_t i = 0; i < length;) {
        uint8_t lead = text[i++];
        int more = lead < 0x80 ? 0 : lead >= 0xf0 ? 3 : lead >= 0xe0 ? 2 : 1;
        if (more && (lead < 0xc2 || lead > 0xf4)) return false;
        for (int k = 0; k < more; k++, i++)
            if (i >= length || text[i] >> 6 != 2) return false;
    }
    return true;
}

/* ---- a call: CALL(codes that it may return, call) */

enum {
    OK = 1u << 0,
    NOTHING = 1u << 19,
    OTHER = 1u << 20 | 1u << 21, /* of another component, or of another username fragment */
    HAS_AGENT = 1u << 2,
    NOT_UTF8 = 1u << 3,
    BAD_ADDRESS = 1u << 4,
    UNPARSED = 1u << 5,
    TOO_SHORT = 1u << 6,
    BAD_CANDIDATE = 1u << 8,
    NO_IDS = 1u << 9,
    MTU_TOO_SMALL = 1u << 10,
    CREDENTIALS = 1u << 11,
    PRIORITY = 1u << 12,
    BAD_LIMIT = 1u << 13,
    FEW_RANDOM = 1u << 14,
    BAD_MESSAGE = 1u << 15,
    TOO_LONG = 1u << 16,
    TOO_MANY = 1u << 17,
    LITE_STAYS = 1u << 18,
    REJECTED = 1u << 22,
    QUIET = 1u << 23, /* the call does not allocate */
    QUERY = 1u << 24, /* nor change the agent */
    MOVES = 1u << 25, /* IS_ICE_BUFFER_TOO_SHORT takes the packet out of those for which is_ice_poll_timeout returns an early time */
    UNSERVED = 1u << 27,
    NO_RELAY = 1u << 28,
    BAD_URL = 1u << 29,
    NO_SERVERS = 1u << 30,
    COPES = 1u << 26  /* memory that only saves time or other memory may be missing: the call does without it */
};

/* No int holds it. */
#define HAS_SERVERS (1u << 31)

static struct view before;
static long asked_before;

static void begin(void)
{
    if (on < AGENTS) view(agents[on], &before);
    asked_before = asked;
    has_refused = false;
}

static void wrong(const char *call, int32_t code, const char *what)
{
    fprintf(stderr, "fuzz: %s returned %d (%s): %s\n", call, code, is_ice_code_text(code), what);
    abort();
}

static int32_t expect(const char *call, int32_t code, unsigned allowed)
{
    struct view after;
    end_arguments();
    saw(subject_of(call, which), bit_of(code));
    bool has_coped = has_refused && code == IS_ICE_OK && (allowed & COPES);
    if (!has_coped && has_refused != (code == IS_ICE_OUT_OF_MEMORY)) wrong(call, code, has_refused ? "an allocation failed" : "no allocation failed");
    if (on < AGENTS && (code == IS_ICE_NO_AGENT) == is_held[on])
        wrong(call, code, is_held[on] ? "there is an agent" : "there is no agent");
    bool is_general = code == IS_ICE_OUT_OF_MEMORY || (code == IS_ICE_NO_AGENT && on < AGENTS);
    if (!is_general && !(allowed >> bit_of(code) & 1)) wrong(call, code, "the header does not name this code");
    if ((allowed & QUIET) && asked != asked_before) wrong(call, code, "it allocated");
    bool is_same = code != IS_ICE_OK || (allowed & QUERY);
    if (code == IS_ICE_BUFFER_TOO_SHORT && (allowed & MOVES)) is_same = false;
    if (on < AGENTS && is_held[on] && is_same) {
        view(agents[on], &after);
        if (memcmp(&before, &after, sizeof after) != 0) wrong(call, code, "the agent has changed");
    }
    return code;
}

#define CALL(allowed, call) (begin(), expect(#call, (call), allowed))

#endif
