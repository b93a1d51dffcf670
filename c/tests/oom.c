/* Makes each allocation fail in turn, while two agents connect, restart and lose candidates, and clients of servers are made and
 * end. The call that needed the memory returns IS_ICE_OUT_OF_MEMORY, leaves the agents as they were and succeeds when it is repeated. Only a list
 * that `is_ice_handle_timeout` shrinks stays as it is, and the call succeeds. All later packets, events, statistics and removed pairs are the same as
 * without a failure, and no memory leaks.
 *
 * Link with -Wl,--wrap=malloc,--wrap=realloc,--wrap=free. */
#include "seen.h"
#include <stdio.h>
#include <stdlib.h>
#include <string.h>

/* ---- memory: only the library's, since nothing else here allocates between two counts */

static long left = -1; /* allocations before the one that fails; below 0: none fails */
static long asked, live;

void *__real_malloc(size_t size);
void *__real_realloc(void *at, size_t size);
void __real_free(void *at);
void *__wrap_malloc(size_t size);
void *__wrap_realloc(void *at, size_t size);
void __wrap_free(void *at);

static bool refuse(void)
{
    asked++;
    return left >= 0 && left-- == 0;
}

void *__wrap_malloc(size_t size)
{
    void *at = refuse() ? NULL : __real_malloc(size);
    if (at) live++;
    return at;
}

void *__wrap_realloc(void *at, size_t size)
{
    void *to = refuse() ? NULL : __real_realloc(at, size);
    if (!at && to) live++;
    return to;
}

void __wrap_free(void *at)
{
    if (at) live--;
    __real_free(at);
}

/* ---- a session */

#define TEXT(text) (const uint8_t *)text, sizeof text - 1

struct story {
    is_ice_agent a, b;
    uint64_t sum; /* a hash of all results */
    int refused;
    int unshrunk; /* lists that stayed as they were, without memory to shrink them */
    size_t listed; /* removed pairs */
    uint8_t random[IS_ICE_CREDENTIALS_RANDOM];
};

static const is_ice_candidate host_a = {{4, {10, 0, 0, 1}, 1000, 0, 0}, {4, {10, 0, 0, 1}, 1000, 0, 0}, IS_ICE_HOST, IS_ICE_UDP, 0};
static const is_ice_candidate host_b = {{4, {10, 0, 0, 2}, 2000, 0, 0}, {4, {10, 0, 0, 2}, 2000, 0, 0}, IS_ICE_HOST, IS_ICE_UDP, 0};

static void add(struct story *s, const void *bytes, size_t length)
{
    for (size_t i = 0; i < length; i++) s->sum = (s->sum ^ ((const uint8_t *)bytes)[i]) * UINT64_C(1099511628211);
}

static void fail(int line, const char *what, long number)
{
    printf("line %d: %s %ld\n", line, what, number);
    exit(1);
}

/* What a program sees of both agents. It takes no part in the count of allocations. */
static uint64_t seen_by(struct story *s)
{
    const long left_before = left, asked_before = asked;
    left = -1;
    const uint64_t sum = seen_of(&s->a) ^ seen_of(&s->b) << 1;
    left = left_before, asked = asked_before;
    return sum;
}

/* Repeats a call that ran out of memory, and expects this code. What is seen of the agents is then as before the call. */
#define CALL(s, wanted, call)                                                           \
    do {                                                                                \
        const uint64_t before_ = seen_by(s);                                            \
        int32_t code_ = (call);                                                         \
        if (code_ == IS_ICE_OUT_OF_MEMORY) {                                                \
            (s)->refused++;                                                             \
            if (seen_by(s) != before_) fail(__LINE__, "changed by the refused call", 0);\
            code_ = (call);                                                             \
        }                                                                               \
        if (code_ != (wanted)) fail(__LINE__, "code", code_);                           \
    } while (0)

/* Makes an `is_ice_handle_timeout` call, which also shrinks lists: without memory for that it succeeds. */
#define TIMED(s, call)                                                                  \
    do {                                                                                \
        const long left_ = left;                                                        \
        const int refused_ = (s)->refused;                                              \
        CALL(s, IS_ICE_OK, call);                                                       \
        if (left_ >= 0 && left < 0 && (s)->refused == refused_) (s)->unshrunk++;        \
    } while (0)

/* Makes a call that does not allocate. */
#define QUIET(wanted, call)                                                             \
    do {                                                                                \
        long asked_ = asked;                                                            \
        int32_t code_ = (call);                                                         \
        if (code_ != (wanted)) fail(__LINE__, "code", code_);                           \
        if (asked != asked_) fail(__LINE__, "allocations", asked - asked_);             \
    } while (0)

static void make(struct story *s)
{
    uint8_t ufrag[IS_ICE_UFRAG_LENGTH], pass[IS_ICE_PASS_LENGTH];
    for (size_t i = 0; i < sizeof s->random; i++) s->random[i] = (uint8_t)(i * 37 + 11);
    CALL(s, IS_ICE_OK, is_ice_make_credentials(s->random, sizeof s->random, ufrag, sizeof ufrag, pass, sizeof pass));
    CALL(s, IS_ICE_OK, is_ice_agent_new(&s->a, ufrag, sizeof ufrag, pass, sizeof pass, 10));
    CALL(s, IS_ICE_OK, is_ice_agent_new(&s->b, TEXT("BBBB"), TEXT("QQQQ"), 5));
    QUIET(IS_ICE_OK, is_ice_set_controlling(&s->a, true));
    CALL(s, IS_ICE_OK, is_ice_set_remote_credentials(&s->a, TEXT("BBBB"), TEXT("QQQQ")));
    CALL(s, IS_ICE_OK, is_ice_set_remote_credentials(&s->b, ufrag, sizeof ufrag, pass, sizeof pass));
    CALL(s, IS_ICE_OK, is_ice_set_local_credentials(&s->b, TEXT("BBBB"), TEXT("QQQQ")));
}

static void introduce(struct story *s)
{
    static const is_ice_preference_table table = {{65000, 40000, 30000, 10}, {65001, 40001, 30001, 11}};
    is_ice_agent_settings settings;
    uint8_t line[256];
    size_t length, index = 0;
    QUIET(IS_ICE_OK, is_ice_modern_settings(&settings));
    QUIET(IS_ICE_OK, is_ice_set_lite(&s->b, false));
    QUIET(IS_ICE_OK, is_ice_set_renomination(&s->b, false));
    QUIET(IS_ICE_OK, is_ice_set_tie_breaker(&s->b, 5));
    QUIET(IS_ICE_OK, is_ice_set_max_pairs(&s->b, settings.max_pairs));
    QUIET(IS_ICE_OK, is_ice_set_max_discovered(&s->b, settings.max_discovered));
    QUIET(IS_ICE_OK, is_ice_set_max_candidates(&s->b, settings.max_candidates));
    QUIET(IS_ICE_OK, is_ice_set_timing_advance(&s->b, settings.timing_advance));
    QUIET(IS_ICE_OK, is_ice_set_initial_rto(&s->b, settings.initial_rto));
    QUIET(IS_ICE_OK, is_ice_set_max_rto(&s->b, settings.max_rto));
    QUIET(IS_ICE_OK, is_ice_set_lite_timeout(&s->b, settings.lite_timeout));
    QUIET(IS_ICE_OK, is_ice_set_max_retransmits(&s->b, settings.max_retransmits));
    QUIET(IS_ICE_OK, is_ice_set_mtu(&s->b, 1150, 1280));
    QUIET(IS_ICE_OK, is_ice_skip_pair_ids(&s->b, 0));
    QUIET(IS_ICE_OK, is_ice_set_local_preference(&s->b, 1));
    QUIET(IS_ICE_OK, is_ice_reset_local_preference(&s->b));
    QUIET(IS_ICE_OK, is_ice_set_preference_table(&s->b, &table));
    QUIET(IS_ICE_OK, is_ice_original_settings(&settings));
    QUIET(IS_ICE_OK, is_ice_set_settings(&s->b, &settings));
    QUIET(IS_ICE_OK, is_ice_modern_settings(&settings));
    QUIET(IS_ICE_OK, is_ice_set_settings(&s->b, &settings));
    CALL(s, IS_ICE_OK, is_ice_add_local(&s->a, &host_a, &index));
    CALL(s, IS_ICE_OK, is_ice_add_local(&s->b, &host_b, &index));
    CALL(s, IS_ICE_OK, is_ice_local_candidate(&s->b, index, line, sizeof line, &length));
    add(s, line, length);
    CALL(s, IS_ICE_OK, is_ice_add_remote(&s->a, line, length, &index));
    CALL(s, IS_ICE_BAD_CANDIDATE, is_ice_add_remote(&s->a, TEXT("candidate:1 1 udp"), &index));
    CALL(s, IS_ICE_BAD_CANDIDATE, is_ice_add_local_line(&s->a, TEXT("candidate:1 1 udp"), &index));
    CALL(s, IS_ICE_OK, is_ice_line_refusal(TEXT("candidate:1 1 udp"), line, sizeof line, &length));
    add(s, line, length);
    CALL(s, IS_ICE_NOTHING, is_ice_candidate_refusal(&host_a, line, sizeof line, &length));
    CALL(s, IS_ICE_OK, is_ice_local_candidate(&s->a, 0, line, sizeof line, &length));
    CALL(s, IS_ICE_OK, is_ice_add_remote(&s->b, line, length, &index));
}

/* Candidates without an agent. */
static void write_texts(struct story *s)
{
    static const uint8_t line[] = "candidate:1 1 udp 7 10.0.0.9 9 typ host";
    const size_t size = sizeof line - 1;
    is_ice_fields fields;
    uint8_t text[256], again[256];
    size_t length, again_length;
    uint32_t preference = 0;
    CALL(s, IS_ICE_OK, is_ice_candidate_line(&host_a, text, sizeof text, &length));
    add(s, text, length);
    CALL(s, IS_ICE_OK, is_ice_line_with_ufrag(line, size, TEXT("AAAA"), text, sizeof text, &length));
    add(s, text, length);
    CALL(s, IS_ICE_OK, is_ice_line_to_json(line, size, text, sizeof text, &length));
    add(s, text, length);
    CALL(s, IS_ICE_OK, is_ice_line_from_json(text, length, again, sizeof again, &again_length));
    add(s, again, again_length);
    CALL(s, IS_ICE_OK, is_ice_json_fields(text, length, again, sizeof again, &again_length, &fields));
    add(s, again, again_length);
    CALL(s, IS_ICE_OK, is_ice_line_with_ufrag_fields(line, size, TEXT("AAAA"), text, sizeof text, &length, &fields));
    add(s, &fields.ufrag_length, sizeof fields.ufrag_length);
    CALL(s, IS_ICE_OK, is_ice_json_refusal(TEXT("[]"), text, sizeof text, &length));
    add(s, text, length);
    CALL(s, IS_ICE_OK, is_ice_candidate_preference(&host_a, 1, &preference));
    CALL(s, IS_ICE_OK, is_ice_line_preference(line, size, 1, &preference));
    add(s, &preference, sizeof preference);
}

/* Texts with the fields of their candidates, and with a name in place of an address. */
static void read_texts(struct story *s)
{
    static const uint8_t named[] = "candidate:1 1 udp 7 3f2b8c1e.local 9 typ host";
    const size_t size = sizeof named - 1;
    is_ice_fields fields, again_fields;
    uint8_t text[256], again[256];
    size_t length, again_length;
    QUIET(IS_ICE_OK, is_ice_line_name(named, size, text, sizeof text, &length));
    add(s, text, length);
    CALL(s, IS_ICE_OK, is_ice_line_with_address(named, size, &host_b.address, text, sizeof text, &length));
    add(s, text, length);
    CALL(s, IS_ICE_OK, is_ice_line_with_address_fields(named, size, &host_b.address, again, sizeof again, &again_length, &fields));
    add(s, again, again_length);
    CALL(s, IS_ICE_OK, is_ice_line_fields(text, length, again, sizeof again, &again_length, &fields));
    add(s, &fields.priority, sizeof fields.priority);
    CALL(s, IS_ICE_OK, is_ice_candidate_fields(&host_a, text, sizeof text, &length, &fields));
    add(s, &fields.priority, sizeof fields.priority);
    CALL(s, IS_ICE_OK, is_ice_fields_line(&fields, TEXT("1"), text, sizeof text, &length, &again_fields));
    add(s, text, length);
}

static void list_candidates(struct story *s)
{
    is_ice_fields fields;
    uint8_t text[256];
    size_t length;
    CALL(s, IS_ICE_OK, is_ice_remote_candidate(&s->a, 0, text, sizeof text, &length));
    add(s, text, length);
    CALL(s, IS_ICE_OK, is_ice_local_fields(&s->a, 0, text, sizeof text, &length, &fields));
    add(s, text, length);
    CALL(s, IS_ICE_OK, is_ice_remote_fields(&s->a, 0, text, sizeof text, &length, &fields));
    add(s, text, length);
}

/* Messages: none of these calls allocates. */
static void write_messages(void)
{
    static const is_ice_stun_transaction id = {{1, 2, 3}};
    is_ice_stun_message message;
    is_ice_stun_texts texts;
    is_ice_stun_result result;
    uint8_t bytes[128], text[16];
    size_t length, written, receiver;
    uint64_t time;
    memset(&message, 0, sizeof message);
    memset(&texts, 0, sizeof texts);
    QUIET(IS_ICE_OK, is_ice_stun_request(&id, bytes, sizeof bytes, &length));
    QUIET(IS_ICE_NOTHING, is_ice_stun_response(&id, bytes, length, &result));
    QUIET(IS_ICE_OK, is_ice_is_stun(bytes, length));
    QUIET(IS_ICE_NOTHING, is_ice_role(false, false, false));
    QUIET(IS_ICE_OK, is_ice_is_host_address(&host_a.address));
    QUIET(IS_ICE_OK, is_ice_stun_read(bytes, length, &message));
    message.has_integrity = message.priority.is_set = true;
    texts.username.length = 3, texts.username.is_set = true;
    QUIET(IS_ICE_OK, is_ice_stun_write(&message, &texts, TEXT("a:b"), TEXT("key"), bytes, sizeof bytes, &length));
    QUIET(IS_ICE_OK, is_ice_stun_verify(bytes, length, TEXT("key")));
    QUIET(IS_ICE_OK, is_ice_stun_read_strict(bytes, length, &message));
    QUIET(IS_ICE_OK, is_ice_stun_username(bytes, length, text, sizeof text, &written, &receiver));
    QUIET(IS_ICE_OK, is_ice_stun_text(IS_ICE_STUN_USERNAME, bytes, length, text, sizeof text, &length));
    QUIET(IS_ICE_OK, is_ice_username_parts(TEXT("a:b"), &receiver));
    QUIET(IS_ICE_OK, is_ice_hmac_sha1(TEXT("key"), TEXT("text"), bytes, sizeof bytes, &length));
    QUIET(IS_ICE_OK, is_ice_check_text(IS_ICE_TEXT_UFRAG, TEXT("EsAw")));
    QUIET(IS_ICE_OK, is_ice_retransmit_timeout(250000000, UINT64_C(3000000000), 9, &time));
    QUIET(IS_ICE_OK, is_ice_retransmit_delay(250000000, UINT64_C(3000000000), 9, 1, &time));
}

static int32_t next_packet(is_ice_agent *from, uint8_t *bytes, size_t size, is_ice_packet *packet)
{
    const long before = asked;
    const int32_t code = is_ice_poll_transmit(from, bytes, size, packet);
    if (asked != before) fail(__LINE__, "allocations", asked - before);
    return code;
}

static bool is_response(const uint8_t *bytes)
{
    return bytes[0] == 1;
}

static void deliver(struct story *s, is_ice_agent *from, is_ice_agent *to, uint64_t now)
{
    uint8_t bytes[1500];
    is_ice_packet packet;
    int32_t code;
    while ((code = next_packet(from, bytes, sizeof bytes, &packet)) == IS_ICE_OK) {
        add(s, bytes, packet.length);
        bytes[packet.length - 9] ^= 1; /* the last byte of the MAC, before FINGERPRINT */
        QUIET(IS_ICE_NOTHING, is_ice_handle_packet(to, now, packet.protocol, &packet.source, &packet.destination, bytes, packet.length));
        int32_t why = is_response(bytes) ? IS_ICE_REJECTED_REMOTE_PASSWORD : IS_ICE_REJECTED_LOCAL_PASSWORD;
        QUIET(why, is_ice_rejection(to, packet.protocol, &packet.source, &packet.destination, bytes, packet.length));
        bytes[packet.length - 9] ^= 1;
        QUIET(IS_ICE_OK, is_ice_rejection(to, packet.protocol, &packet.source, &packet.destination, bytes, packet.length));
        QUIET(IS_ICE_OK, is_ice_accepts_packet(to, packet.protocol, &packet.source, &packet.destination, bytes, packet.length));
        QUIET(IS_ICE_OK, is_ice_accepts_message(to, bytes, packet.length));
        QUIET(IS_ICE_UNPARSED,
              is_ice_handle_packet(to, now, packet.protocol, &packet.source, &packet.destination, bytes, packet.length - 1));
        CALL(s, IS_ICE_OK, is_ice_handle_packet(to, now, packet.protocol, &packet.source, &packet.destination, bytes, packet.length));
    }
    if (code != IS_ICE_NOTHING) fail(__LINE__, "code", code);
}

static void note(struct story *s, is_ice_agent *agent)
{
    int32_t code;
    is_ice_event event;
    const long before = asked;
    memset(&event, 0, sizeof event);
    while ((code = is_ice_poll_event(agent, &event)) == IS_ICE_OK) {
        add(s, &event.kind, sizeof event.kind);
        add(s, &event.state, sizeof event.state);
        add(s, &event.source.port, sizeof event.source.port);
    }
    if (asked != before) fail(__LINE__, "allocations", asked - before);
    if (code != IS_ICE_NOTHING) fail(__LINE__, "code", code);
}

static void connect(struct story *s)
{
    for (uint64_t round = 0; round < 6; round++) {
        uint64_t now = UINT64_C(60000000000) + round * 300000000, at;
        s->random[0]++;
        TIMED(s, is_ice_handle_timeout(&s->a, now, s->random, IS_ICE_TIMEOUT_RANDOM));
        s->random[0]++;
        TIMED(s, is_ice_handle_timeout(&s->b, now, s->random, IS_ICE_TIMEOUT_RANDOM));
        for (uint64_t ms = 1; ms < 5; ms += 2) {
            deliver(s, &s->a, &s->b, now + ms * 1000000);
            deliver(s, &s->b, &s->a, now + (ms + 1) * 1000000);
        }
        note(s, &s->a);
        note(s, &s->b);
        QUIET(IS_ICE_OK, is_ice_poll_timeout(&s->a, &at));
        add(s, &at, sizeof at);
    }
}

static size_t removed_pairs(is_ice_agent *agent)
{
    size_t count = 0;
    is_ice_removed_pair pair;
    QUIET(IS_ICE_OK, is_ice_removed_count(agent, &count));
    for (size_t i = 0; i < count; i++) QUIET(IS_ICE_OK, is_ice_removed_at(agent, i, &pair));
    return count;
}

static void end(struct story *s)
{
    is_ice_agent_stats stats;
    is_ice_nominated_pair nominated;
    is_ice_media_path path;
    is_ice_agent_status status;
    is_ice_agent_settings settings;
    is_ice_pair pair;
    is_ice_failed_send failed = {0};
    uint8_t text[64];
    uint64_t since = 0;
    size_t length, count;
    QUIET(IS_ICE_OK, is_ice_status(&s->a, &status));
    QUIET(IS_ICE_OK, is_ice_settings(&s->a, &settings));
    QUIET(IS_ICE_OK, is_ice_early_count(&s->a, &count));
    QUIET(IS_ICE_OK, is_ice_pair_count(&s->a, &count));
    QUIET(IS_ICE_OK, is_ice_pair_at(&s->a, 0, &pair));
    CALL(s, IS_ICE_NOTHING, is_ice_find_pair(&s->a, TEXT("candidate:1 1 udp 7 10.0.0.9 9 typ host"), &pair));
    add(s, &pair.responses, sizeof pair.responses);
    QUIET(IS_ICE_OK, is_ice_local_ufrag(&s->a, text, sizeof text, &length));
    QUIET(IS_ICE_OK, is_ice_local_pass(&s->a, text, sizeof text, &length));
    QUIET(IS_ICE_OK, is_ice_remote_ufrag(&s->a, text, sizeof text, &length));
    QUIET(IS_ICE_OK, is_ice_remote_pass(&s->a, text, sizeof text, &length));
    QUIET(IS_ICE_VERSION, (int32_t)is_ice_version());
    QUIET(IS_ICE_OK, is_ice_stats(&s->a, &stats));
    QUIET(IS_ICE_OK, is_ice_nominated(&s->a, &nominated));
    QUIET(IS_ICE_OK, is_ice_valid_path(&s->a, &path));
    QUIET(IS_ICE_OK, is_ice_has_viable_remote(&s->a, &host_b.address));
    QUIET(IS_ICE_OK, is_ice_set_silence(&s->a, IS_ICE_NEVER));
    QUIET(IS_ICE_OK, is_ice_silent_since(&s->a, &since));
    QUIET(IS_ICE_OK, is_ice_path_for_media(&s->a, since, &path));
    QUIET(IS_ICE_OK, is_ice_takes_media_from(&s->a, since, &host_b.address));
    CALL(s, IS_ICE_OK, is_ice_send_failed(&s->a, IS_ICE_UDP, &path.source, &path.destination, 1));
    QUIET(IS_ICE_OK, is_ice_failed_send_count(&s->a, &count));
    QUIET(IS_ICE_OK, is_ice_failed_send_at(&s->a, 0, &failed));
    add(s, &failed.times, sizeof failed.times);
    add(s, &stats, sizeof stats);
    add(s, &nominated.responses, sizeof nominated.responses);
    CALL(s, IS_ICE_OK, is_ice_recreate_pairs(&s->a));
    QUIET(IS_ICE_OK, is_ice_invalidate_local(&s->b, &host_b));
    CALL(s, IS_ICE_NOTHING, is_ice_invalidate(&s->b, TEXT("candidate:1 1 udp 7 10.0.0.9 9 typ host")));
    CALL(s, IS_ICE_OK, is_ice_alike_local(&s->b, &host_b, &count));
    add(s, &count, sizeof count);
    is_ice_event event = {0};
    event.kind = IS_ICE_STATE_CHANGED;
    uint8_t line[256];
    CALL(s, IS_ICE_OK, is_ice_event_line(&s->a, &event, line, sizeof line, &length));
    const is_ice_address *at = &host_b.address;
    CALL(s, IS_ICE_OK, is_ice_packet_line(&s->a, IS_ICE_UDP, at, at, TEXT("no message"), line, sizeof line, &length));
    CALL(s, IS_ICE_OK, is_ice_packet_kind(&s->a, IS_ICE_UDP, at, at, TEXT("no message"), line, sizeof line, &length));
    QUIET(IS_ICE_UNPARSED, is_ice_unserved(&s->a, IS_ICE_UDP, at, at, TEXT("no message")));
    if (removed_pairs(&s->b) > 0) CALL(s, IS_ICE_OK, is_ice_removed_line(&s->b, 0, line, sizeof line, &length));
    s->listed += removed_pairs(&s->a) + removed_pairs(&s->b);
    CALL(s, IS_ICE_OK, is_ice_restart(&s->a, TEXT("CCCC"), TEXT("RRRR"), true));
    note(s, &s->a);
    is_ice_agent_free(&s->a);
    is_ice_agent_free(&s->b);
}

#include "oom_servers.h"
#include "oom_stories.h"

static struct story played(long refused)
{
    struct story s;
    memset(&s, 0, sizeof s);
    left = refused;
    make(&s);
    introduce(&s);
    write_texts(&s);
    read_texts(&s);
    write_messages();
    connect(&s);
    list_candidates(&s);
    have_servers(&s);
    end(&s);
    play_stories(&s);
    left = -1;
    return s;
}

int main(void)
{
    setvbuf(stdout, NULL, _IONBF, 0); /* so that printing does not allocate */
    const long before = live;
    const struct story ample = played(-1);
    const long requests = asked;
    if (live != before) fail(__LINE__, "leaked", live - before);
    if (ample.listed == 0) fail(__LINE__, "no pair was removed", 0);
    for (long n = 0; n < requests; n++) {
        const struct story story = played(n);
        if (story.refused + story.unshrunk != 1) fail(__LINE__, "not one call reported failed allocation", n);
        if (story.listed != ample.listed) fail(__LINE__, "a removed pair is not listed after failed allocation", n);
        if (live != before) fail(__LINE__, "memory leaked after failed allocation", n);
        if (story.sum != ample.sum) fail(__LINE__, "other results after failed allocation", n);
    }
    printf("each of %ld allocations failed once: ok\n", requests);
    return 0;
}
