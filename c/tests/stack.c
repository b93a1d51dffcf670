/* Measures how many bytes of stack each call of is_ice.h needs, and shows that a thread with 64 KiB is enough for them, or with the
 * system's least if that is more (glibc on ARM64: 128 KiB).
 *
 * A story makes every call in several situations, on a thread with a stack of its own. Before each call the stack below it is
 * painted, and afterwards the lowest word that has changed counts. That includes what malloc, realloc and free need. Each
 * need is at most MOST, and the thread has at least twice as much, which the story needs too. */
#define _GNU_SOURCE
#include "measuring.h"
#include <pthread.h>
#include <sys/mman.h>

enum {
    LEAST = 32, /* words that are not painted: a call counts as needing 256 bytes at least */
    SMALL = 64 * 1024,
    MOST = 32 * 1024,
    HOSTS = 10,       /* of each agent: 100 pairs, the limit of a new agent */
    NAMES = 128,
    ANY = -100,       /* a call may return any code */
    NESTED = 100000   /* levels of JSON */
};

static struct {
    char name[64];
    size_t need;
} needs[NAMES];
static size_t need_count;

static uint64_t *low, *base; /* the lowest word of the stack, and the highest one that a call may use */
static const uint64_t painted = UINT64_C(0x5a5a5a5a5a5a5a5a);

/* ---- measuring one call: CALL(code, call) */

__attribute__((noinline)) static void paint(void)
{
    base = __builtin_frame_address(0);
    for (volatile uint64_t *p = low; p < base - LEAST; p++) *p = painted;
}

static size_t *need_of(const char *call)
{
    call = strstr(call, "is_ice_");
    size_t length = strcspn(call, "(");
    for (size_t i = 0; i < need_count; i++)
        if (strlen(needs[i].name) == length && memcmp(needs[i].name, call, length) == 0) return &needs[i].need;
    if (need_count == NAMES || length >= sizeof needs->name) fail(call, "no room for its name");
    memcpy(needs[need_count].name, call, length);
    return &needs[need_count++].need;
}

__attribute__((noinline)) static int32_t note(const char *call, int32_t code, int32_t wanted)
{
    uint64_t *p = low;
    while (p < base - LEAST && *p == painted) p++;
    size_t need = (size_t)(base - p) * sizeof *p, *most = need_of(call);
    if (need > *most) *most = need;
    if (wanted != ANY && code != wanted) fail(call, is_ice_code_text(code));
    return code;
}

#define CALL(wanted, call) (paint(), note(#call, (call), wanted))

/* ---- the story */

struct story {
    is_ice_agent a, b;
    uint64_t now;
    uint8_t count;    /* random bytes are made of it */
    struct message last;
};

/* As long as two username fragments may be, with a colon between them: 508 bytes. */
static uint8_t long_ufrag[254], other_ufrag[253];

static is_ice_candidate host(uint8_t network, uint8_t number, uint8_t protocol)
{
    is_ice_address at = {4, {10, 0, network, number}, 5000, 0, 0}, six = {6, {0x20, 1, 0xd, 0xb8}, 5000, 0, 0};
    six.bytes[14] = network, six.bytes[15] = number;
    is_ice_candidate made = {number % 2 ? at : six, number % 2 ? at : six, IS_ICE_HOST, protocol, IS_ICE_TCP_UNSTATED};
    if (protocol == IS_ICE_TCP) made.tcptype = IS_ICE_TCP_PASSIVE;
    return made;
}

static void create(struct story *s)
{
    uint8_t random[IS_ICE_CREDENTIALS_RANDOM] = {1}, ufrag[IS_ICE_UFRAG_LENGTH], pass[IS_ICE_PASS_LENGTH];
    memset(long_ufrag, 'l', sizeof long_ufrag), memset(other_ufrag, 'o', sizeof other_ufrag);
    CALL(IS_ICE_OK, is_ice_make_credentials(random, sizeof random, ufrag, sizeof ufrag, pass, sizeof pass));
    CALL(IS_ICE_TOO_FEW_RANDOM_BYTES, is_ice_make_credentials(random, 1, ufrag, sizeof ufrag, pass, sizeof pass));
    CALL(IS_ICE_NOT_UTF8, is_ice_agent_new(&s->a, TEXT("\xff"), pass, sizeof pass, 1));
    CALL(IS_ICE_OK, is_ice_agent_new(&s->a, long_ufrag, sizeof long_ufrag, pass, sizeof pass, 1));
    CALL(IS_ICE_HAS_AGENT, is_ice_agent_new(&s->a, ufrag, sizeof ufrag, pass, sizeof pass, 1));
    CALL(IS_ICE_OK, is_ice_agent_new(&s->b, ufrag, sizeof ufrag, TEXT("first password"), 2));
    CALL(IS_ICE_OK, is_ice_set_local_credentials(&s->b, other_ufrag, sizeof other_ufrag, TEXT("password of b")));
    CALL(IS_ICE_OK, is_ice_set_remote_credentials(&s->b, long_ufrag, sizeof long_ufrag, pass, sizeof pass));
}

static void set(struct story *s)
{
    static const is_ice_preference_table table = {{65000, 40000, 30000, 10}, {65001, 40001, 30001, 11}};
    is_ice_agent_settings settings;
    CALL(IS_ICE_OK, is_ice_original_settings(&settings));
    CALL(IS_ICE_OK, is_ice_set_controlling(&s->a, true));
    CALL(IS_ICE_OK, is_ice_set_controlling(&s->b, true)); /* a role conflict */
    CALL(IS_ICE_OK, is_ice_set_lite(&s->b, false));
    CALL(IS_ICE_OK, is_ice_set_renomination(&s->b, false));
    CALL(IS_ICE_OK, is_ice_set_lite_timeout(&s->b, settings.lite_timeout));
    CALL(IS_ICE_OK, is_ice_set_tie_breaker(&s->b, 5));
    CALL(IS_ICE_OK, is_ice_set_max_pairs(&s->b, HOSTS * HOSTS));
    CALL(IS_ICE_OK, is_ice_set_max_discovered(&s->b, LIMIT));
    CALL(IS_ICE_OK, is_ice_set_max_candidates(&s->b, 4 * HOSTS));
    CALL(IS_ICE_OK, is_ice_set_timing_advance(&s->b, settings.timing_advance));
    CALL(IS_ICE_OK, is_ice_set_initial_rto(&s->b, settings.initial_rto));
    CALL(IS_ICE_OK, is_ice_set_max_rto(&s->b, settings.max_rto));
    CALL(IS_ICE_OK, is_ice_set_max_retransmits(&s->b, settings.max_retransmits));
    CALL(IS_ICE_OK, is_ice_set_mtu(&s->b, 1150, 1280));
    CALL(IS_ICE_OK, is_ice_skip_pair_ids(&s->b, 1));
    CALL(IS_ICE_OK, is_ice_set_local_preference(&s->b, 1));
    CALL(IS_ICE_OK, is_ice_set_preference_table(&s->b, &table));
    CALL(IS_ICE_OK, is_ice_reset_local_preference(&s->b));
    CALL(IS_ICE_OK, is_ice_modern_settings(&settings));
    CALL(IS_ICE_OK, is_ice_original_settings(&settings));
    CALL(IS_ICE_OK, is_ice_set_settings(&s->b, &settings));
}

/* Both have the other's candidates, and b a long one that is not a candidate. */
static void introduce(struct story *s)
{
    static uint8_t line[2048];
    size_t length, index;
    memset(line, 'x', sizeof line);
    CALL(IS_ICE_BAD_CANDIDATE, is_ice_add_remote(&s->b, line, sizeof line, &index));
    CALL(IS_ICE_BAD_CANDIDATE, is_ice_add_local_line(&s->b, line, sizeof line, &index));
    for (uint8_t i = 0; i < 2 * HOSTS; i++) {
        is_ice_candidate of_a = host(1, i, i < HOSTS ? IS_ICE_UDP : IS_ICE_TCP), of_b = host(2, i, IS_ICE_UDP);
        if (i == 1) of_a.kind = IS_ICE_SERVER_REFLEXIVE, of_a.address.bytes[0] = 192;
        if (i == 3) of_a.kind = IS_ICE_RELAYED, of_a.address.bytes[0] = 198;
        CALL(IS_ICE_OK, is_ice_add_local(&s->a, &of_a, &index));
        CALL(IS_ICE_NOTHING, is_ice_add_local(&s->a, &of_a, &index));
        if (i < HOSTS) CALL(IS_ICE_OK, is_ice_add_local(&s->b, &of_b, &index));
    }
    for (size_t i = 0; CALL(ANY, is_ice_local_candidate(&s->a, i, line, sizeof line, &length)) == IS_ICE_OK; i++)
        CALL(IS_ICE_OK, is_ice_add_remote(&s->b, line, length, &index));
    for (size_t i = 0; CALL(ANY, is_ice_local_candidate(&s->b, i, line, sizeof line, &length)) == IS_ICE_OK; i++)
        CALL(IS_ICE_OK, is_ice_add_remote(&s->a, line, length, &index));
    for (size_t i = 0; CALL(ANY, is_ice_remote_candidate(&s->b, i, line, sizeof line, &length)) == IS_ICE_OK; i++) {}
}

static void timeout_at(struct story *s, is_ice_agent *agent)
{
    uint8_t random[IS_ICE_TIMEOUT_RANDOM];
    uint64_t at;
    memset(random, s->count++, sizeof random);
    memcpy(random, &s->now, sizeof s->now);
    CALL(IS_ICE_OK, is_ice_handle_timeout(agent, s->now, random, sizeof random));
    CALL(ANY, is_ice_poll_timeout(agent, &at)); /* nothing is due while it has no remote credentials */
}

/* What the agent sends arrives, if it may. */
static void deliver(struct story *s, is_ice_agent *from, is_ice_agent *to, bool is_lost)
{
    is_ice_packet p;
    struct message *m = &s->last;
    uint8_t line[512];
    size_t length;
    while (CALL(ANY, is_ice_poll_transmit(from, m->bytes, sizeof m->bytes, &p)) == IS_ICE_OK) {
        m->length = p.length;
        if (is_lost) continue;
        p.source.bytes[0] = p.source.bytes[0] == 192 ? 10 : p.source.bytes[0];
        CALL(ANY, is_ice_accepts_packet(to, p.protocol, &p.source, &p.destination, m->bytes, p.length));
        CALL(ANY, is_ice_accepts_message(to, m->bytes, p.length));
        CALL(ANY, is_ice_rejection(to, p.protocol, &p.source, &p.destination, m->bytes, p.length));
        CALL(ANY, is_ice_unserved(to, p.protocol, &p.source, &p.destination, m->bytes, p.length));
        CALL(IS_ICE_OK, is_ice_packet_line(to, p.protocol, &p.source, &p.destination, m->bytes, p.length, line, sizeof line, &length));
        CALL(IS_ICE_OK, is_ice_packet_kind(to, p.protocol, &p.source, &p.destination, m->bytes, p.length, line, sizeof line, &length));
        CALL(ANY, is_ice_handle_packet(to, s->now, p.protocol, &p.source, &p.destination, m->bytes, p.length));
        p.source.port++; /* the same message from another address, and to one that is not there */
        CALL(ANY, is_ice_handle_packet(to, s->now, p.protocol, &p.source, &p.destination, m->bytes, p.length));
        CALL(ANY, is_ice_handle_packet(to, s->now, p.protocol, &p.destination, &p.source, m->bytes, p.length));
        m->bytes[p.length - 9] ^= 1; /* a forged one, and one that is no message */
        CALL(ANY, is_ice_handle_packet(to, s->now, p.protocol, &p.source, &p.destination, m->bytes, p.length));
        CALL(IS_ICE_UNPARSED, is_ice_handle_packet(to, s->now, p.protocol, &p.source, &p.destination, m->bytes, p.length - 1));
        m->bytes[p.length - 9] ^= 1;
    }
}

static void play(struct story *s, int rounds, bool is_lost)
{
    is_ice_event event;
    is_ice_agent *agents[2] = {&s->a, &s->b};
    for (int i = 0; i < rounds; i++, s->now += 50 * MS)
        for (int side = 0; side < 2; side++) {
            timeout_at(s, agents[side]);
            deliver(s, agents[side], agents[!side], is_lost);
            deliver(s, agents[!side], agents[side], is_lost);
            while (CALL(ANY, is_ice_poll_event(agents[side], &event)) == IS_ICE_OK) {}
        }
}

static void ask(struct story *s)
{
    static const char line[] = "candidate:1 1 udp 7 10.0.2.1 5000 typ host";
    is_ice_agent_status status;
    is_ice_agent_settings settings;
    is_ice_agent_stats stats;
    is_ice_nominated_pair selected;
    is_ice_media_path path;
    is_ice_pair pair;
    is_ice_removed_pair removed;
    is_ice_failed_send failed;
    is_ice_fields fields;
    is_ice_candidate of_b = host(2, 1, IS_ICE_UDP);
    uint64_t since = 0;
    uint8_t text[512];
    size_t count, length;
    CALL(IS_ICE_OK, is_ice_status(&s->a, &status));
    CALL(IS_ICE_OK, is_ice_settings(&s->a, &settings));
    CALL(IS_ICE_OK, is_ice_stats(&s->a, &stats));
    CALL(IS_ICE_OK, is_ice_nominated(&s->a, &selected));
    CALL(IS_ICE_OK, is_ice_valid_path(&s->a, &path));
    CALL(IS_ICE_OK, is_ice_set_silence(&s->a, SECOND));
    CALL(IS_ICE_OK, is_ice_silent_since(&s->a, &since));
    CALL(IS_ICE_OK, is_ice_path_for_media(&s->a, since, &path));
    CALL(IS_ICE_OK, is_ice_takes_media_from(&s->a, since, &path.destination));
    CALL(IS_ICE_OK, is_ice_send_failed(&s->a, IS_ICE_UDP, &path.source, &path.destination, 1));
    CALL(IS_ICE_OK, is_ice_failed_send_count(&s->a, &count));
    CALL(IS_ICE_OK, is_ice_failed_send_at(&s->a, 0, &failed));
    CALL(IS_ICE_OK, is_ice_early_count(&s->a, &count));
    CALL(IS_ICE_OK, is_ice_pair_count(&s->a, &count));
    for (size_t i = 0; i < count; i++) CALL(IS_ICE_OK, is_ice_pair_at(&s->a, i, &pair));
    CALL(IS_ICE_OK, is_ice_removed_count(&s->a, &count));
    CALL(IS_ICE_NOTHING, is_ice_removed_at(&s->a, count, &removed));
    CALL(IS_ICE_OK, is_ice_alike_local(&s->a, &of_b, &count));
    CALL(ANY, is_ice_find_pair(&s->a, TEXT(line), &pair));
    CALL(ANY, is_ice_has_viable_remote(&s->a, &of_b.address));
    CALL(IS_ICE_OK, is_ice_local_fields(&s->a, 0, text, sizeof text, &length, &fields));
    CALL(IS_ICE_OK, is_ice_remote_fields(&s->a, 0, text, sizeof text, &length, &fields));
    CALL(IS_ICE_OK, is_ice_local_ufrag(&s->a, text, sizeof text, &length));
    CALL(IS_ICE_OK, is_ice_local_pass(&s->a, text, sizeof text, &length));
    CALL(IS_ICE_OK, is_ice_remote_ufrag(&s->a, text, sizeof text, &length));
    CALL(IS_ICE_OK, is_ice_remote_pass(&s->a, text, sizeof text, &length));
    CALL(IS_ICE_VERSION, (int32_t)is_ice_version());
}

/* Pairs are formed again, removed one by one as their checks get no response, and removed with their candidates. */
static void change(struct story *s)
{
    is_ice_candidate of_b = host(2, 1, IS_ICE_UDP), of_a = host(1, 1, IS_ICE_UDP);
    is_ice_removed_pair removed;
    is_ice_event event = {0};
    uint8_t line[1024];
    size_t length;
    event.kind = IS_ICE_STATE_CHANGED;
    CALL(IS_ICE_OK, is_ice_recreate_pairs(&s->a));
    CALL(IS_ICE_OK, is_ice_set_max_pairs(&s->a, HOSTS));
    CALL(IS_ICE_OK, is_ice_recreate_pairs(&s->a));
    play(s, 40, true);
    s->now += 60 * SECOND;
    play(s, 40, true);
    CALL(IS_ICE_OK, is_ice_invalidate_local(&s->b, &of_b));
    CALL(ANY, is_ice_invalidate_local(&s->b, &of_a));
    CALL(ANY, is_ice_invalidate(&s->b, TEXT("candidate:1 1 udp 7 10.0.1.5 5000 typ host")));
    CALL(IS_ICE_OK, is_ice_removed_at(&s->a, 0, &removed));
    CALL(IS_ICE_OK, is_ice_removed_line(&s->a, 0, line, sizeof line, &length));
    CALL(IS_ICE_OK, is_ice_event_line(&s->a, &event, line, sizeof line, &length));
    CALL(IS_ICE_OK, is_ice_restart(&s->a, TEXT("CCCC"), TEXT("password"), true));
    CALL(IS_ICE_OK, is_ice_restart(&s->b, TEXT("DDDD"), TEXT("password"), false));
    paint();
    is_ice_agent_free(&s->a);
    note("is_ice_agent_free(&s->a)", IS_ICE_OK, IS_ICE_OK);
    paint();
    is_ice_agent_free(&s->b);
    note("is_ice_agent_free(&s->b)", IS_ICE_OK, IS_ICE_OK);
}

/* ---- without an agent */

static void candidates(void)
{
    static const char *const lines[] = {
        "candidate:1 1 udp 2043278322 192.0.2.172 44323 typ host ufrag EsAw",
        "candidate:1 1 tcp 2043278322 2001:db8:1:2:3:4:5:6 44323 typ srflx raddr 2001:db8:1:2:3:4:5:7 rport 9 tcptype passive x y",
        "candidate:1 1 udp 2043278322 3f2b8c1e.local 44323 typ host", "candidate:1 1 udp", "candidate: 1 1 1 1 1 typ \xc3\xa9", "\xff"};
    is_ice_candidate good = host(1, 1, IS_ICE_UDP), bad = good;
    is_ice_fields fields, given;
    uint8_t text[1024];
    size_t length;
    uint32_t preference;
    bad.address.bytes[0] = 0, bad.address.bytes[3] = 0, bad.address.bytes[2] = 0;
    for (size_t i = 0; i < sizeof lines / sizeof *lines; i++) {
        CALL(ANY, is_ice_line_refusal(TEXT(lines[i]), text, sizeof text, &length));
        CALL(ANY, is_ice_line_with_ufrag(TEXT(lines[i]), TEXT("EsAw"), text, sizeof text, &length));
        CALL(ANY, is_ice_line_to_json(TEXT(lines[i]), text, sizeof text, &length));
        CALL(ANY, is_ice_line_preference(TEXT(lines[i]), 1, &preference));
        CALL(ANY, is_ice_line_fields(TEXT(lines[i]), text, sizeof text, &length, &fields));
        CALL(ANY, is_ice_line_name(TEXT(lines[i]), text, sizeof text, &length));
        CALL(ANY, is_ice_line_with_address(TEXT(lines[i]), &good.address, text, sizeof text, &length));
        CALL(ANY, is_ice_line_with_address_fields(TEXT(lines[i]), &good.address, text, sizeof text, &length, &fields));
        CALL(ANY, is_ice_line_with_ufrag_fields(TEXT(lines[i]), TEXT("EsAw"), text, sizeof text, &length, &fields));
        CALL(ANY, is_ice_check_text(IS_ICE_TEXT_UFRAG, TEXT(lines[i])));
    }
    CALL(IS_ICE_OK, is_ice_candidate_line(&good, text, sizeof text, &length));
    CALL(IS_ICE_OK, is_ice_candidate_fields(&good, text, sizeof text, &length, &fields));
    given = fields;
    CALL(IS_ICE_OK, is_ice_fields_line(&given, TEXT("1"), text, sizeof text, &length, &fields));
    CALL(IS_ICE_BAD_CANDIDATE, is_ice_candidate_line(&bad, text, sizeof text, &length));
    CALL(IS_ICE_NOTHING, is_ice_candidate_refusal(&good, text, sizeof text, &length));
    CALL(IS_ICE_OK, is_ice_candidate_refusal(&bad, text, sizeof text, &length));
    CALL(IS_ICE_OK, is_ice_candidate_preference(&good, 1, &preference));
}

/* A number halfway between two of 64 bits, but for a last digit (IEEE 754: 2^53 + 1 needs 54 bits): what is longest to read. */
#define LONG_NUMBER "9007199254740993." ZEROS ZEROS ZEROS ZEROS "1"
#define ZEROS "00000000000000000000000000000000"

static void read_json(const uint8_t *json, size_t size)
{
    static uint8_t text[4096];
    is_ice_fields fields;
    size_t length;
    CALL(ANY, is_ice_line_from_json(json, size, text, sizeof text, &length));
    CALL(ANY, is_ice_json_fields(json, size, text, sizeof text, &length, &fields));
    CALL(ANY, is_ice_json_refusal(json, size, text, sizeof text, &length));
}

/* JSON with a candidate, and members before it of so many levels. */
static void read_nested(const char *open, const char *close, size_t levels)
{
    static uint8_t json[NESTED * 8]; /* an opening and a closing text have 6 bytes at most */
    static const char rest[] = ",\"candidate\":\"candidate:1 1 udp 7 10.0.0.9 9 typ host\",\"usernameFragment\":\"EsAw\"}";
    size_t length = 5;
    memcpy(json, "{\"x\":", length);
    for (size_t i = 0; i < levels; i++, length += strlen(open)) memcpy(json + length, open, strlen(open));
    memcpy(json + length, LONG_NUMBER, strlen(LONG_NUMBER));
    length += strlen(LONG_NUMBER);
    for (size_t i = 0; i < levels; i++, length += strlen(close)) memcpy(json + length, close, strlen(close));
    memcpy(json + length, rest, strlen(rest));
    read_json(json, length + strlen(rest));
}

static void json_without_nesting(void)
{
    static const char *const texts[] = {
        "{\"candidate\":\"candidate:1 1 udp 2043278322 192.0.2.172 44323 typ host\",\"sdpMid\":\"0\",\"sdpMLineIndex\":0,"
        "\"usernameFragment\":\"EsAw\"}",
        "{\"candidate\":\"\"}", "{\"candidate\":\"candidate:1\",\"x\":1e999}", "{\"x\":" LONG_NUMBER "}",
        "{\"candidate\":\"\\ud834\\udd1e\\u00e9\\n\"}", "[]", "{", "-0.5e-7", "\xff"};
    for (size_t i = 0; i < sizeof texts / sizeof *texts; i++) read_json(TEXT(texts[i]));
}

static void messages(struct story *s)
{
    static const is_ice_stun_transaction id = {{1, 2, 3}};
    static const is_ice_address v4 = {4, {10, 0, 0, 1}, 1000, 0, 0}, v6 = {6, {0x20, 1, 0xd, 0xb8}, 2000, 0, 0};
    static uint8_t longest[IS_ICE_STUN_WRITE_LENGTH], letters[600], text[600];
    is_ice_stun_message m, read;
    is_ice_stun_texts texts;
    is_ice_stun_result result;
    is_ice_stun_number *numbers[] = {&m.priority, &m.controlled, &m.controlling, &m.lifetime, &m.channel_number, &m.network_id,
        &m.network_cost, &m.nomination};
    size_t length, receiver;
    uint64_t time;
    memset(letters, 'e', sizeof letters);
    memset(&m, 0, sizeof m);
    for (size_t i = 0; i < sizeof numbers / sizeof *numbers; i++) numbers[i]->value = 0x4000, numbers[i]->is_set = true;
    m.error_code.value = 438, m.error_code.is_set = true, m.mapped = v4, m.peer = v6, m.relayed = v6, m.id = id;
    m.method = IS_ICE_STUN_BINDING, m.cls = IS_ICE_STUN_FAILURE, m.use_candidate = true, m.has_integrity = true;
    memset(&texts, 0, sizeof texts);
    is_ice_stun_span *spans[] = {&texts.username, &texts.reason, &texts.realm, &texts.nonce, &texts.software};
    for (size_t i = 0; i < sizeof spans / sizeof *spans; i++) spans[i]->length = i == 0 ? 508 : 128, spans[i]->is_set = true;
    CALL(IS_ICE_OK, is_ice_stun_write(&m, &texts, letters, sizeof letters, letters, sizeof letters, longest, sizeof longest, &length));
    CALL(IS_ICE_OK, is_ice_is_stun(longest, length));
    CALL(IS_ICE_OK, is_ice_role(true, false, false));
    CALL(IS_ICE_OK, is_ice_is_host_address(&v6));
    CALL(IS_ICE_OK, is_ice_stun_read(longest, length, &read));
    CALL(IS_ICE_OK, is_ice_stun_verify(longest, length, letters, sizeof letters));
    CALL(IS_ICE_OK, is_ice_stun_response(&id, longest, length, &result));
    CALL(IS_ICE_OK, is_ice_stun_text(IS_ICE_STUN_USERNAME, longest, length, text, sizeof text, &length));
    CALL(IS_ICE_OK, is_ice_stun_read(s->last.bytes, s->last.length, &read));
    CALL(ANY, is_ice_stun_read_strict(s->last.bytes, s->last.length, &read));
    CALL(ANY, is_ice_stun_username(s->last.bytes, s->last.length, text, sizeof text, &length, &receiver));
    CALL(IS_ICE_OK, is_ice_username_parts(TEXT("evtj:h6vY"), &receiver));
    CALL(IS_ICE_OK, is_ice_hmac_sha1(letters, sizeof letters, longest, sizeof longest, text, sizeof text, &length));
    CALL(IS_ICE_OK, is_ice_retransmit_timeout(250 * MS, 3 * SECOND, 1000, &time));
    CALL(IS_ICE_OK, is_ice_retransmit_delay(250 * MS, 3 * SECOND, 1000, 9, &time));
    CALL(IS_ICE_OK, is_ice_stun_request(&id, text, sizeof text, &length));
    m.cls = IS_ICE_STUN_SUCCESS, m.error_code.is_set = false;
    CALL(IS_ICE_OK, is_ice_stun_write(&m, &texts, letters, sizeof letters, letters, sizeof letters, longest, sizeof longest, &length));
    CALL(IS_ICE_OK, is_ice_stun_response(&id, longest, length, &result));
}

#include "stack_servers.h"

static void *tell(void *told)
{
    struct story *s = told;
    create(s);
    set(s);
    introduce(s);
    play(s, 3, false); /* a has no remote credentials, and stores b's requests */
    CALL(IS_ICE_OK, is_ice_set_remote_credentials(&s->a, other_ufrag, sizeof other_ufrag, TEXT("password of b")));
    play(s, 120, false);
    ask(s);
    candidates();
    messages(s);
    json_without_nesting();
    have_servers();
    read_servers();
    change(s);
    static const size_t levels[] = {1, 3, 5, 6, 7, 8, 9, 126, 127, 128, NESTED};
    for (size_t i = 0; i < sizeof levels / sizeof *levels; i++)
        read_nested("[", "]", levels[i]), read_nested("{\"a\":", "}", levels[i]), read_nested("[1,", "]", levels[i]);
    return told;
}

/* Tells the story on a thread with a stack of this size. */
static void run(size_t size)
{
    static struct story s;
    pthread_attr_t attributes;
    pthread_t thread;
    const size_t fence = 65536; /* a thread that needs more ends there, also by a call with a large frame */
    uint8_t *at = mmap(NULL, size + fence, PROT_READ | PROT_WRITE, MAP_PRIVATE | MAP_ANONYMOUS, -1, 0);
    if (at == MAP_FAILED || mprotect(at, fence, PROT_NONE) != 0) fail("stack", "no memory");
    memset(&s, 0, sizeof s);
    s.now = 60 * SECOND, low = (uint64_t *)(void *)(at + fence);
    if (pthread_attr_init(&attributes) != 0 || pthread_attr_setstack(&attributes, low, size) != 0) fail("stack", "no thread may have it");
    if (pthread_create(&thread, &attributes, tell, &s) != 0 || pthread_join(thread, NULL) != 0) fail("stack", "no thread");
    munmap(at, size + fence);
}

static size_t greatest(void)
{
    size_t most = 0;
    for (size_t i = 0; i < need_count; i++) {
        if (needs[i].need > MOST) fail(needs[i].name, "it needs more than 32 KiB of stack");
        if (needs[i].need > most) most = needs[i].need;
    }
    return most;
}

int main(void)
{
    long least = sysconf(_SC_THREAD_STACK_MIN);
    size_t size = least > SMALL ? (size_t)least : SMALL;
    run(size);
    for (size_t i = 0; i < need_count; i++) printf("%7zu  %s\n", needs[i].need, needs[i].name);
    size_t most = greatest();
    printf("%zu calls on a stack of %zu KiB; at most %zu bytes\n", need_count, size / 1024, most);
    return 0;
}
