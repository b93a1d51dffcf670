/* A libFuzzer harness over every call of is_ice.h, for clang: `c/run fuzz`.
 *
 * An input is a list of calls. A byte chooses the call, and the bytes after it its arguments: random ones, or what an honest
 * program would pass, which is then changed in some bytes. That is, candidates as texts and as JSON, packets of the other
 * agent, and messages that is_ice_stun_write writes with the right username and password. Two agents know each other, and a
 * third one has strange credentials or does not exist.
 *
 * The library is not instrumented. So arguments and the library's memory are between pages without access (fences.h), and
 * codes, events, states and pairs count as coverage. After each call:
 * - its code is one that the header names, IS_ICE_NO_AGENT exactly without an agent, and IS_ICE_OUT_OF_MEMORY exactly if an
 *   allocation failed, as the input may demand;
 * - a call that the header says not to allocate did not;
 * - an agent is as before if the code is not IS_ICE_OK, and after each query;
 * - buffers and results have changed as the header says, and texts are UTF-8.
 * No block is left when the agents are freed. */
#define _GNU_SOURCE
#include "fuzz_arguments.h"
#include "fuzz_servers.h"

int LLVMFuzzerTestOneInput(const uint8_t *data, size_t size);

/* ---- the calls, by what they take */

static void make_credentials(void)
{
    struct bytes random = raw();
    size_t ufrag_size = one_in(4) ? below(24) : 16, pass_size = one_in(4) ? below(24) : 22;
    uint8_t *ufrag = argument(ufrag_size), *pass = argument(pass_size);
    on = AGENTS;
    int32_t code = CALL(OK | FEW_RANDOM | TOO_SHORT,
        is_ice_make_credentials(random.bytes, random.length, ufrag, ufrag_size, pass, pass_size));
    if (code != IS_ICE_OK) filled(code, ufrag, ufrag_size), filled(code, pass, pass_size);
}

static void create(void)
{
    struct bytes ufrag = secret(ufrags), pass = secret(passwords);
    size_t agent = on;
    uint64_t tie_breaker = number();
    unsigned allowed = (is_held[agent] ? HAS_AGENT : OK) | NOT_UTF8 | CREDENTIALS;
    on = AGENTS;
    int32_t code = CALL(allowed, is_ice_agent_new(agents[agent], ufrag.bytes, ufrag.length, pass.bytes, pass.length, tie_breaker));
    is_held[agent] |= code == IS_ICE_OK;
}

static void destroy(void)
{
    is_ice_agent_free(agents[on]);
    is_held[on] = false;
    CALL(0, is_ice_pair_count(agents[on], argument(sizeof(size_t))));
}

/* How the agent of the call may end one that gives it this role. */
static unsigned role_codes(bool controlling)
{
    is_ice_agent_status status;
    is_ice_agent_settings settings;
    bool is_kept = controlling && is_ice_status(agents[on], &status) == IS_ICE_OK && status.lite
        && is_ice_settings(agents[on], &settings) == IS_ICE_OK && settings.modern;
    return is_kept ? LITE_STAYS : OK;
}

static void set_bool(void)
{
    static int32_t (*const calls[])(is_ice_agent *, bool) = {is_ice_set_controlling, is_ice_set_lite, is_ice_set_renomination};
    uint8_t kind = take();
    which = kind / 2 % COUNT(calls);
    CALL((which == 0 ? role_codes(kind & 1) : OK) | QUIET, calls[which](agents[on], kind & 1));
}

static void set_number(void)
{
    static int32_t (*const calls[])(is_ice_agent *, uint64_t) = {is_ice_set_lite_timeout, is_ice_set_tie_breaker, is_ice_set_timing_advance,
        is_ice_set_initial_rto, is_ice_set_max_rto, is_ice_skip_pair_ids, is_ice_set_silence};
    which = below(COUNT(calls));
    uint64_t value = number();
    CALL(OK | QUIET, calls[which](agents[on], value));
}

static void set_limit(void)
{
    static int32_t (*const calls[])(is_ice_agent *, size_t) = {is_ice_set_max_pairs, is_ice_set_max_discovered, is_ice_set_max_retransmits,
        is_ice_set_max_candidates};
    which = below(COUNT(calls));
    size_t value = (size_t)number();
    CALL((which == 2 && value == 0 ? BAD_LIMIT : OK) | QUIET, calls[which](agents[on], value));
}

static void set_mtu(void)
{
    size_t mtu = (size_t)number(), warn = (size_t)number();
    CALL((mtu < MTU_FLOOR ? MTU_TOO_SMALL : OK) | QUIET, is_ice_set_mtu(agents[on], mtu, warn));
}

static void set_preference(void)
{
    uint8_t kind = take();
    is_ice_preference_table table;
    uint8_t bytes[sizeof table];
    if (kind % 3 == 0) CALL(OK | QUIET, is_ice_reset_local_preference(agents[on]));
    if (kind % 3 == 1) CALL(OK | QUIET, is_ice_set_local_preference(agents[on], (uint16_t)(take() * 257)));
    if (kind % 3 != 2) return;
    for (size_t i = 0; i < sizeof bytes; i++) bytes[i] = take();
    const is_ice_preference_table *given = (const is_ice_preference_table *)(const void *)argument_of(bytes, sizeof bytes).bytes;
    CALL(OK | QUIET, is_ice_set_preference_table(agents[on], given));
}

/* What is set is read. */
static bool is_read(const is_ice_agent_settings *given, const is_ice_agent_settings *told)
{
    return told->timing_advance == given->timing_advance && told->initial_rto == given->initial_rto && told->max_rto == given->max_rto
        && told->lite_timeout == given->lite_timeout && told->consent_timeout == given->consent_timeout
        && told->max_retransmits == given->max_retransmits && told->max_pairs == given->max_pairs
        && told->max_discovered == given->max_discovered && told->max_candidates == given->max_candidates
        && told->modern == given->modern && told->strict_consent == given->strict_consent && told->renomination == given->renomination;
}

/* Sets the settings of the original, those of a new agent, or each to a value of its own, and reads them. */
static void set_settings(void)
{
    uint8_t kind = take();
    is_ice_agent_settings *given = argument(sizeof *given), *told = argument(sizeof *told);
    size_t agent = on;
    on = AGENTS;
    if (kind % 4 == 0) CALL(OK | QUIET, is_ice_original_settings(given));
    else if (kind % 4 == 1) CALL(OK | QUIET, is_ice_modern_settings(given));
    else {
        given->timing_advance = number(), given->initial_rto = number(), given->max_rto = number();
        given->lite_timeout = number(), given->consent_timeout = number();
        given->max_retransmits = (size_t)number(), given->max_pairs = (size_t)number();
        given->max_discovered = (size_t)number(), given->max_candidates = (size_t)number();
        given->modern = one_in(2), given->strict_consent = one_in(2), given->renomination = one_in(2);
    }
    on = agent;
    if (CALL((given->max_retransmits == 0 ? BAD_LIMIT : OK) | QUIET, is_ice_set_settings(agents[on], given)) != IS_ICE_OK) return;
    if (CALL(OK | QUIET | QUERY, is_ice_settings(agents[on], told)) != IS_ICE_OK || !is_read(given, told))
        stop("settings are read otherwise than they were set");
}

static void set_credentials(void)
{
    static int32_t (*const calls[])(is_ice_agent *, const uint8_t *, size_t, const uint8_t *, size_t) = {is_ice_set_local_credentials,
        is_ice_set_remote_credentials};
    struct bytes ufrag = secret(ufrags), pass = secret(passwords);
    which = below(COUNT(calls));
    CALL(OK | NOT_UTF8 | CREDENTIALS, calls[which](agents[on], ufrag.bytes, ufrag.length, pass.bytes, pass.length));
}

static void restart(void)
{
    struct bytes ufrag = secret(ufrags), pass = secret(passwords);
    bool keep = one_in(2);
    CALL(OK | NOT_UTF8 | CREDENTIALS, is_ice_restart(agents[on], ufrag.bytes, ufrag.length, pass.bytes, pass.length, keep));
}

static void recreate(void)
{
    CALL(OK | NO_IDS | COPES, is_ice_recreate_pairs(agents[on]));
}

/* ---- candidates of an agent */

static void add_local(void)
{
    const is_ice_candidate *candidate = candidate_argument();
    size_t *index = argument(sizeof *index);
    int32_t code = CALL(OK | NOTHING | TOO_MANY | BAD_ADDRESS | BAD_CANDIDATE | PRIORITY | NO_IDS | COPES,
        is_ice_add_local(agents[on], candidate, index));
    if (code < 0) filled(code, index, sizeof *index);
}

static void add_remote(void)
{
    struct bytes text = line();
    size_t *index = argument(sizeof *index);
    int32_t code = CALL(OK | NOTHING | OTHER | TOO_MANY | NOT_UTF8 | BAD_CANDIDATE | NO_IDS | COPES,
        is_ice_add_remote(agents[on], text.bytes, text.length, index));
    if (code < 0) filled(code, index, sizeof *index);
}

static void add_local_line(void)
{
    struct bytes text = line();
    size_t *index = argument(sizeof *index);
    int32_t code = CALL(OK | NOTHING | TOO_MANY | NOT_UTF8 | BAD_CANDIDATE | PRIORITY | NO_IDS | COPES,
        is_ice_add_local_line(agents[on], text.bytes, text.length, index));
    if (code < 0) filled(code, index, sizeof *index);
}

static void invalidate(void)
{
    if (one_in(2)) {
        const is_ice_candidate *candidate = candidate_argument();
        int32_t code = CALL(OK | NOTHING | BAD_ADDRESS | BAD_CANDIDATE, is_ice_invalidate_local(agents[on], candidate));
        if ((code == IS_ICE_OK || code == IS_ICE_NOTHING) && asked != asked_before) stop("is_ice_invalidate_local allocated");
    } else {
        struct bytes text = line();
        CALL(OK | NOTHING | NOT_UTF8 | BAD_CANDIDATE, is_ice_invalidate(agents[on], text.bytes, text.length));
    }
}

static void alike(void)
{
    const is_ice_candidate *candidate = candidate_argument();
    size_t *count = argument(sizeof *count);
    filled(CALL(OK | BAD_ADDRESS | BAD_CANDIDATE | QUERY, is_ice_alike_local(agents[on], candidate, count)), count, sizeof *count);
}

static void list(void)
{
    static int32_t (*const calls[])(is_ice_agent *, size_t, uint8_t *, size_t, size_t *) = {is_ice_local_candidate,
        is_ice_remote_candidate};
    which = below(COUNT(calls));
    size_t index = one_in(8) ? (size_t)number() : below(8);
    struct out o = out();
    written(CALL(OK | NOTHING | TOO_SHORT | QUERY, calls[which](agents[on], index, o.bytes, o.size, o.length)), o, true);
}

/* Alike but for flow information and scope, which no text has. */
static bool is_at(const is_ice_address *a, const is_ice_address *b)
{
    return a->family == b->family && a->port == b->port && memcmp(a->bytes, b->bytes, sizeof a->bytes) == 0;
}

/* The address that was read of a text with this one: of IPv4 only four bytes are written. */
static bool is_read_of(const is_ice_address *read, const is_ice_address *given)
{
    return read->family == given->family && read->port == given->port && memcmp(read->bytes, given->bytes, given->family == 4 ? 4 : 16) == 0;
}

/* The fields of a text that the library wrote. It is a candidate, and reading it again changes nothing. */
static void expect_fields(const uint8_t *text, size_t length, const is_ice_fields *fields, size_t foundation)
{
    static uint8_t again[8 * TEXT_SIZE];
    is_ice_fields read;
    size_t size = 0;
    long kept = left;
    if (foundation > length || IS_ICE_FOUNDATION_START + foundation > length) stop("a foundation ends after its text");
    if (fields->kind > IS_ICE_PEER_REFLEXIVE || fields->protocol > IS_ICE_TLS || fields->tcptype > IS_ICE_TCP_SO)
        stop("there is no such kind");
    if (fields->ufrag_length > length) stop("a username fragment begins before its text");
    left = -1; /* reading again has the memory that it needs */
    memset(&read, FRESH, sizeof read);
    if (is_ice_line_fields(text, length, again, sizeof again, &size, &read) != IS_ICE_OK)
        stop("a text that the library wrote is no candidate");
    if (size != length || memcmp(again, text, length) != 0) stop("a text that the library wrote is read as another one");
    if (read.foundation_length != fields->foundation_length || read.ufrag_length != fields->ufrag_length
        || read.priority != fields->priority || read.component != fields->component || read.kind != fields->kind
        || read.protocol != fields->protocol || read.tcptype != fields->tcptype
        || !is_at(&read.address, &fields->address) || !is_at(&read.related, &fields->related))
        stop("the fields of a text that the library wrote are others");
    left = kept;
}

/* A call wrote a text and its fields, or neither. */
static void written_fields(int32_t code, struct out o, const is_ice_fields *fields)
{
    written(code, o, true);
    filled(code, fields, sizeof *fields);
    if (code == IS_ICE_OK) expect_fields(o.bytes, *o.length, fields, fields->foundation_length);
}

/* Whether the text ends with a username fragment that is a word, or with none. The credentials of an agent may have another one. */
static bool ends_with_word(const uint8_t *text, size_t length, const is_ice_fields *fields)
{
    if (fields->ufrag_length == 0) return text[length - 1] != ' ';
    for (size_t i = length - fields->ufrag_length; i < length; i++)
        if (text[i] <= ' ' || text[i] >= 0x7f) return false;
    return true;
}

static void list_fields(void)
{
    static int32_t (*const calls[])(is_ice_agent *, size_t, uint8_t *, size_t, size_t *, is_ice_fields *) = {is_ice_local_fields,
        is_ice_remote_fields};
    which = below(COUNT(calls));
    size_t index = one_in(8) ? (size_t)number() : below(8);
    struct out o = out();
    is_ice_fields *fields = argument(sizeof *fields);
    int32_t code = CALL(OK | NOTHING | TOO_SHORT | QUERY, calls[which](agents[on], index, o.bytes, o.size, o.length, fields));
    if (code != IS_ICE_OK || ends_with_word(o.bytes, *o.length, fields)) written_fields(code, o, fields);
}

static void find_pair(void)
{
    struct bytes text = line();
    is_ice_pair *pair = argument(sizeof *pair);
    int32_t code = CALL(OK | NOTHING | NOT_UTF8 | BAD_CANDIDATE | QUERY, is_ice_find_pair(agents[on], text.bytes, text.length, pair));
    filled(code, pair, sizeof *pair);
}

/* ---- candidates without an agent */

/* What a call returned as the text of a candidate is one. */
static void read_again(struct out o, is_ice_fields *fields)
{
    static uint8_t again[8 * TEXT_SIZE];
    size_t length;
    long kept = left;
    left = -1;
    if (is_ice_line_fields(o.bytes, *o.length, again, sizeof again, &length, fields) != IS_ICE_OK) stop("a returned text is no candidate");
    left = kept;
}

static void line_texts(void)
{
    struct bytes text = line(), ufrag = secret(ufrags);
    struct out o = out();
    is_ice_fields fields;
    uint8_t kind = take() % 3;
    on = AGENTS;
    int32_t code;
    if (kind == 0)
        code = CALL(OK | NOTHING | NOT_UTF8 | TOO_SHORT, is_ice_line_refusal(text.bytes, text.length, o.bytes, o.size, o.length));
    else if (kind == 1)
        code = CALL(OK | NOT_UTF8 | BAD_CANDIDATE | TOO_SHORT, is_ice_line_to_json(text.bytes, text.length, o.bytes, o.size, o.length));
    else
        code = CALL(OK | NOT_UTF8 | BAD_CANDIDATE | TOO_SHORT,
            is_ice_line_with_ufrag(text.bytes, text.length, ufrag.bytes, ufrag.length, o.bytes, o.size, o.length));
    written(code, o, true);
    if (kind != 2 || code != IS_ICE_OK) return;
    read_again(o, &fields);
    if (fields.ufrag_length != ufrag.length || memcmp(o.bytes + *o.length - ufrag.length, ufrag.bytes, ufrag.length) != 0)
        stop("a text has another username fragment");
}

/* The fields of a text: the agent takes the text as a candidate exactly if this call does. */
static void line_fields(void)
{
    struct bytes text = line();
    struct out o = out();
    is_ice_fields *fields = argument(sizeof *fields);
    size_t agent = on, *index = argument(sizeof *index);
    on = AGENTS;
    int32_t code = CALL(OK | NOT_UTF8 | BAD_CANDIDATE | TOO_SHORT,
        is_ice_line_fields(text.bytes, text.length, o.bytes, o.size, o.length, fields));
    written_fields(code, o, fields);
    on = agent;
    int32_t added = CALL(OK | NOTHING | OTHER | TOO_MANY | NOT_UTF8 | BAD_CANDIDATE | NO_IDS | COPES,
        is_ice_add_remote(agents[on], text.bytes, text.length, index));
    if (code == IS_ICE_OUT_OF_MEMORY || added == IS_ICE_OUT_OF_MEMORY || added == IS_ICE_NO_AGENT) return;
    bool is_candidate = code == IS_ICE_OK || code == IS_ICE_BUFFER_TOO_SHORT;
    if (is_candidate == (added == IS_ICE_BAD_CANDIDATE || added == IS_ICE_NOT_UTF8))
        stop("the agent reads another text than is_ice_line_fields");
}

/* The text of any fields, and what is read from it. */
static void fields_line(void)
{
    const is_ice_address *address = address_argument(), *related = address_argument();
    is_ice_fields *given = argument(sizeof *given), *fields = argument(sizeof *fields);
    struct bytes foundation = secret(ufrags);
    struct out o = out();
    memset(given, 0, sizeof *given);
    given->address = *address;
    if (one_in(2)) given->related = *related;
    given->priority = (uint32_t)number(), given->component = (uint16_t)number();
    given->kind = (uint8_t)below(5), given->protocol = (uint8_t)below(5), given->tcptype = (uint8_t)below(5);
    on = AGENTS;
    int32_t code = CALL(OK | NOT_UTF8 | BAD_ADDRESS | BAD_CANDIDATE | TOO_SHORT,
        is_ice_fields_line(given, foundation.bytes, foundation.length, o.bytes, o.size, o.length, fields));
    written_fields(code, o, fields);
    if (code == IS_ICE_OK && (fields->priority != given->priority || !is_read_of(&fields->address, address))) stop("the fields are others");
}

/* A text with another part, and its fields. */
static void line_with_fields(void)
{
    struct bytes text = line(), ufrag = secret(ufrags);
    const is_ice_address *ip = address_argument();
    struct out o = out();
    is_ice_fields *fields = argument(sizeof *fields);
    on = AGENTS;
    int32_t code = one_in(2)
        ? CALL(OK | NOT_UTF8 | BAD_ADDRESS | BAD_CANDIDATE | TOO_SHORT,
              is_ice_line_with_address_fields(text.bytes, text.length, ip, o.bytes, o.size, o.length, fields))
        : CALL(OK | NOT_UTF8 | BAD_CANDIDATE | TOO_SHORT,
              is_ice_line_with_ufrag_fields(text.bytes, text.length, ufrag.bytes, ufrag.length, o.bytes, o.size, o.length, fields));
    written_fields(code, o, fields);
}

static void line_parts(void)
{
    struct bytes text = line();
    const is_ice_address *ip = address_argument();
    struct out o = out();
    on = AGENTS;
    bool is_name = one_in(2);
    int32_t code = is_name
        ? CALL(OK | NOTHING | NOT_UTF8 | TOO_SHORT | QUIET, is_ice_line_name(text.bytes, text.length, o.bytes, o.size, o.length))
        : CALL(OK | NOT_UTF8 | BAD_ADDRESS | BAD_CANDIDATE | TOO_SHORT,
              is_ice_line_with_address(text.bytes, text.length, ip, o.bytes, o.size, o.length));
    written(code, o, true);
}

static void json_texts(void)
{
    struct bytes text = text_of(add_json);
    struct out o = out();
    on = AGENTS;
    bool is_refusal = one_in(2);
    is_ice_fields fields;
    int32_t code = is_refusal
        ? CALL(OK | NOTHING | NOT_UTF8 | TOO_SHORT, is_ice_json_refusal(text.bytes, text.length, o.bytes, o.size, o.length))
        : CALL(OK | NOT_UTF8 | BAD_CANDIDATE | TOO_SHORT, is_ice_line_from_json(text.bytes, text.length, o.bytes, o.size, o.length));
    written(code, o, true);
    if (!is_refusal && code == IS_ICE_OK) read_again(o, &fields);
}

static void json_fields(void)
{
    struct bytes text = text_of(add_json);
    struct out o = out();
    is_ice_fields *fields = argument(sizeof *fields);
    on = AGENTS;
    int32_t code = CALL(OK | NOT_UTF8 | BAD_CANDIDATE | TOO_SHORT,
        is_ice_json_fields(text.bytes, text.length, o.bytes, o.size, o.length, fields));
    written_fields(code, o, fields);
}

static void candidate_texts(void)
{
    const is_ice_candidate *candidate = candidate_argument();
    struct out o = out();
    on = AGENTS;
    int32_t code = one_in(2)
        ? CALL(OK | NOTHING | BAD_ADDRESS | TOO_SHORT, is_ice_candidate_refusal(candidate, o.bytes, o.size, o.length))
        : CALL(OK | BAD_ADDRESS | BAD_CANDIDATE | TOO_SHORT, is_ice_candidate_line(candidate, o.bytes, o.size, o.length));
    written(code, o, true);
}

static void candidate_fields(void)
{
    const is_ice_candidate *candidate = candidate_argument();
    struct out o = out();
    is_ice_fields *fields = argument(sizeof *fields);
    on = AGENTS;
    int32_t code = CALL(OK | BAD_ADDRESS | BAD_CANDIDATE | TOO_SHORT,
        is_ice_candidate_fields(candidate, o.bytes, o.size, o.length, fields));
    written_fields(code, o, fields);
}

static void preferences(void)
{
    uint32_t *preference = argument(sizeof *preference);
    size_t same_kind = (size_t)number();
    bool is_text = one_in(2);
    struct bytes text = line();
    const is_ice_candidate *candidate = candidate_argument();
    on = AGENTS;
    int32_t code = is_text ? CALL(OK | NOT_UTF8 | BAD_CANDIDATE, is_ice_line_preference(text.bytes, text.length, same_kind, preference))
                           : CALL(OK | BAD_ADDRESS | BAD_CANDIDATE, is_ice_candidate_preference(candidate, same_kind, preference));
    if (code == IS_ICE_OK && *preference > 65535) stop("a preference is above 65535");
    filled(code, preference, sizeof *preference);
}

/* ---- packets, events and timeouts */

static void times(void)
{
    uint64_t initial = number(), most = number(), *timeout = argument(sizeof *timeout), *delay = argument(sizeof *delay);
    size_t limit = (size_t)number(), count = (size_t)number();
    on = AGENTS;
    filled(CALL((limit == 0 ? BAD_LIMIT : OK) | QUIET, is_ice_retransmit_timeout(initial, most, limit, timeout)), timeout, sizeof *timeout);
    CALL(OK | QUIET, is_ice_retransmit_delay(initial, most, limit, count, delay));
    if (*delay > most) stop("a delay is above the longest RTO");
}

static void timeout_of(size_t length)
{
    uint8_t *random = argument(length);
    for (size_t i = 0; i < length; i++) random[i] = (uint8_t)((now >> (i % 8 * 8)) + on * 3 + i);
    CALL((length < IS_ICE_TIMEOUT_RANDOM ? FEW_RANDOM : OK | NO_IDS | COPES), is_ice_handle_timeout(agents[on], now, random, length));
}

static void handle_timeout(void)
{
    if (one_in(4)) now += number() % (30 * SECOND);
    if (one_in(64)) now = number();
    timeout_of(one_in(8) ? below(40) : 12);
}

static void packet_in(int32_t code, int32_t would)
{
    bool is_taken = code == IS_ICE_OK || code == IS_ICE_OUT_OF_MEMORY || code == IS_ICE_PAIR_IDS_EXHAUSTED;
    if (is_taken != (would == IS_ICE_OK) || (!is_taken && code != would))
        stop("is_ice_accepts_packet is not what is_ice_handle_packet does");
}

/* Asks whether the agent would take the datagram, and passes it on. */
static void receive(uint8_t protocol, const is_ice_address *source, const is_ice_address *destination, const uint8_t *bytes, size_t length)
{
    int32_t would = CALL(OK | NOTHING | UNPARSED | BAD_ADDRESS | QUIET | QUERY,
        is_ice_accepts_packet(agents[on], protocol, source, destination, bytes, length));
    int32_t is_for = CALL(OK | NOTHING | UNPARSED | QUIET | QUERY, is_ice_accepts_message(agents[on], bytes, length));
    if (would == IS_ICE_OK && is_for != IS_ICE_OK) stop("is_ice_accepts_message and is_ice_accepts_packet differ");
    int32_t why = CALL(OK | REJECTED | UNPARSED | BAD_ADDRESS | QUIET | QUERY,
        is_ice_rejection(agents[on], protocol, source, destination, bytes, length));
    saw(REASONS, (size_t)why);
    if (why != would && (would != IS_ICE_NOTHING || why < IS_ICE_REJECTED_METHOD)) stop("is_ice_rejection and is_ice_accepts_packet differ");
    int32_t unserved = CALL(OK | UNSERVED | UNPARSED | BAD_ADDRESS | QUIET | QUERY,
        is_ice_unserved(agents[on], protocol, source, destination, bytes, length));
    saw(REASONS, (size_t)unserved);
    if (unserved > 0 && would != IS_ICE_OK) stop("is_ice_unserved says why a datagram that is not accepted gets no response");
    size_t agent = on;
    is_ice_stun_message *read = argument(sizeof *read);
    on = AGENTS;
    int32_t strict = CALL(OK | UNPARSED | QUIET, is_ice_stun_read_strict(bytes, length, read));
    filled(strict, read, sizeof *read);
    on = agent;
    if (is_held[on] && (strict == IS_ICE_UNPARSED) != (is_for == IS_ICE_UNPARSED)) stop("is_ice_stun_read_strict reads another message");
    int32_t code = CALL(OK | NOTHING | UNPARSED | BAD_ADDRESS | NO_IDS,
        is_ice_handle_packet(agents[on], now, protocol, source, destination, bytes, length));
    if (asked != asked_before && code != IS_ICE_OK && code != IS_ICE_OUT_OF_MEMORY && code != IS_ICE_PAIR_IDS_EXHAUSTED)
        stop("a datagram that is not accepted allocated");
    packet_in(code, would);
}

/* The lines for a datagram. */
static void packet_lines(
    uint8_t protocol, const is_ice_address *source, const is_ice_address *destination, const uint8_t *bytes, size_t length)
{
    struct out o = out();
    written(CALL(OK | BAD_ADDRESS | TOO_SHORT | QUERY,
        is_ice_packet_line(agents[on], protocol, source, destination, bytes, length, o.bytes, o.size, o.length)), o, true);
    o = out();
    written(CALL(OK | BAD_ADDRESS | TOO_SHORT | QUERY,
        is_ice_packet_kind(agents[on], protocol, source, destination, bytes, length, o.bytes, o.size, o.length)), o, true);
}

static void handle_packet(void)
{
    struct bytes m = message();
    const is_ice_address *source = address_argument(), *destination = address_argument();
    uint8_t protocol = one_in(16) ? take() : 0;
    packet_lines(protocol, source, destination, m.bytes, m.length);
    receive(protocol, source, destination, m.bytes, m.length);
}

static bool transmit(void)
{
    struct out o = out();
    is_ice_packet *packet = argument(sizeof *packet);
    int32_t code = CALL(OK | NOTHING | TOO_SHORT | QUIET | MOVES, is_ice_poll_transmit(agents[on], o.bytes, o.size, packet));
    size_t length = packet->length;
    if (code == IS_ICE_OK && length > LONGEST) stop("a packet has more than 596 bytes");
    if (code == IS_ICE_BUFFER_TOO_SHORT && length <= o.size) stop("the buffer is long enough");
    if (code == IS_ICE_NOTHING || code == IS_ICE_NO_AGENT) filled(code, packet, sizeof *packet);
    size_t kept = code == IS_ICE_OK ? length : 0;
    all_are(o.bytes + kept, o.size - kept, FRESH, "a buffer was written past the packet, or without one");
    if (code != IS_ICE_OK) return false;
    struct wire *w = &wires[sent++ % WIRE];
    memcpy(w->bytes, o.bytes, length);
    memcpy(&w->packet, packet, sizeof *packet);
    return true;
}

static void poll_transmit(void)
{
    transmit();
}

static void poll_event(void)
{
    is_ice_event *event = argument(sizeof *event);
    int32_t code = CALL(OK | NOTHING | QUIET, is_ice_poll_event(agents[on], event));
    if (code != IS_ICE_OK) filled(code, event, sizeof *event);
    else if (event->kind < IS_ICE_RESTARTED || event->kind > IS_ICE_HEARD) stop("there is no such event");
    else saw(EVENTS, (size_t)event->kind * 8 + (event->kind == IS_ICE_STATE_CHANGED ? (size_t)event->state : 0));
}

/* The lines of a log: of any event, of a removed pair. */
static void log_lines(void)
{
    is_ice_event *event = argument(sizeof *event);
    size_t index = one_in(8) ? (size_t)number() : below(8);
    event->kind = (int32_t)below(8), event->state = (int32_t)below(6);
    event->source = *address_argument(), event->destination = *address_argument();
    struct out o = out();
    written(CALL(OK | BAD_ADDRESS | TOO_SHORT | QUERY, is_ice_event_line(agents[on], event, o.bytes, o.size, o.length)), o, true);
    o = out();
    written(CALL(OK | NOTHING | TOO_SHORT | QUERY, is_ice_removed_line(agents[on], index, o.bytes, o.size, o.length)), o, true);
}

static void poll_timeout(void)
{
    uint64_t *when = argument(sizeof *when);
    int32_t code = CALL(OK | NOTHING | QUIET | QUERY, is_ice_poll_timeout(agents[on], when));
    filled(code, when, sizeof *when);
}

/* Some rounds of an honest session: timeouts, and packets that arrive or are lost. */
static void play(void)
{
    size_t rounds = 1 + below(16), lost = take();
    for (size_t i = 0; i < rounds; i++) {
        now += 50 * MS;
        for (on = 0; on < 2; on++) {
            next_argument = 0;
            timeout_of(IS_ICE_TIMEOUT_RANDOM);
            for (next_argument = 0; transmit(); next_argument = 0) {
                const struct wire *w = &wires[(sent - 1) % WIRE];
                if (lost && (sent * 7 + lost) % 5 == 0) continue;
                next_argument = 0;
                struct bytes m = argument_of(w->bytes, w->packet.length);
                on = 1 - on;
                receive(w->packet.protocol, &w->packet.source, &w->packet.destination, m.bytes, m.length);
                on = 1 - on;
            }
        }
    }
}

/* ---- queries */

static void queries(void)
{
    const unsigned quiet = QUIET | QUERY;
    static const size_t sizes[] = {sizeof(is_ice_agent_status), sizeof(is_ice_agent_stats), sizeof(is_ice_nominated_pair), sizeof(size_t),
        sizeof(is_ice_pair), sizeof(size_t), sizeof(is_ice_agent_settings), sizeof(is_ice_media_path), sizeof(size_t),
        sizeof(is_ice_removed_pair), sizeof(size_t), sizeof(is_ice_media_path), sizeof(size_t), sizeof(uint64_t), sizeof(size_t),
        sizeof(is_ice_failed_send)};
    uint8_t kind = take() % COUNT(sizes);
    void *result = argument(sizes[kind]);
    size_t index = one_in(8) ? (size_t)number() : below(16);
    const is_ice_address *remote = address_argument();
    int32_t code = IS_ICE_OK;
    if (kind == 0) code = CALL(OK | quiet, is_ice_status(agents[on], result));
    if (kind == 1) code = CALL(OK | quiet, is_ice_stats(agents[on], result));
    if (kind == 2) code = CALL(OK | NOTHING | quiet, is_ice_nominated(agents[on], result));
    if (kind == 3) code = CALL(OK | quiet, is_ice_pair_count(agents[on], result));
    if (kind == 4) code = CALL(OK | NOTHING | quiet, is_ice_pair_at(agents[on], index, result));
    if (kind == 5) CALL(OK | NOTHING | BAD_ADDRESS | quiet, is_ice_has_viable_remote(agents[on], remote));
    if (kind == 6) code = CALL(OK | quiet, is_ice_settings(agents[on], result));
    if (kind == 7) code = CALL(OK | NOTHING | quiet, is_ice_valid_path(agents[on], result));
    if (kind == 8) code = CALL(OK | quiet, is_ice_removed_count(agents[on], result));
    if (kind == 9) code = CALL(OK | NOTHING | quiet, is_ice_removed_at(agents[on], index, result));
    if (kind == 10) code = CALL(OK | quiet, is_ice_early_count(agents[on], result));
    if (kind == 11) code = CALL(OK | NOTHING | quiet, is_ice_path_for_media(agents[on], now, result));
    if (kind == 12) CALL(OK | NOTHING | BAD_ADDRESS | quiet, is_ice_takes_media_from(agents[on], now, remote));
    if (kind == 13) code = CALL(OK | NOTHING | quiet, is_ice_silent_since(agents[on], result));
    if (kind == 14) code = CALL(OK | quiet, is_ice_failed_send_count(agents[on], result));
    if (kind == 15) code = CALL(OK | NOTHING | quiet, is_ice_failed_send_at(agents[on], index, result));
    filled(code, result, sizes[kind]);
}

static void send_failed(void)
{
    const is_ice_address *source = address_argument(), *destination = address_argument();
    uint8_t protocol = (uint8_t)below(5);
    CALL(OK | BAD_ADDRESS, is_ice_send_failed(agents[on], protocol, source, destination, (uint32_t)below(40)));
}

static void host_address(void)
{
    const is_ice_address *address = address_argument();
    on = AGENTS;
    CALL(OK | NOTHING | BAD_ADDRESS | QUIET, is_ice_is_host_address(address));
}

static void role(void)
{
    bool made_offer = one_in(2), lite = one_in(2), other = one_in(2);
    on = AGENTS;
    bool here = CALL(OK | NOTHING | QUIET, is_ice_role(made_offer, lite, other)) == IS_ICE_OK;
    bool there = CALL(OK | NOTHING | QUIET, is_ice_role(!made_offer, other, lite)) == IS_ICE_OK;
    if (here == there) stop("both agents have one role");
}

static void grammar(void)
{
    struct bytes text = secret(ufrags);
    on = AGENTS;
    int32_t code = CALL(OK | NOTHING | QUIET, is_ice_check_text((uint8_t)below(4), text.bytes, text.length));
    if (code == IS_ICE_OK && (text.length == 0 || text.length > 256)) stop("a text of this length is in the grammar");
}

static void credentials(void)
{
    static int32_t (*const calls[])(is_ice_agent *, uint8_t *, size_t, size_t *) = {is_ice_local_ufrag, is_ice_local_pass,
        is_ice_remote_ufrag, is_ice_remote_pass};
    which = below(COUNT(calls));
    struct out o = out();
    unsigned allowed = OK | TOO_SHORT | (which < 2 ? 0 : NOTHING) | QUIET | QUERY;
    written(CALL(allowed, calls[which](agents[on], o.bytes, o.size, o.length)), o, true);
}

/* ---- STUN messages */

static void stun_request(void)
{
    struct bytes id = raw();
    struct out o = out();
    is_ice_stun_transaction *given = argument(sizeof *given);
    memcpy(given->bytes, id.bytes, id.length < 12 ? id.length : 12);
    on = AGENTS;
    int32_t code = CALL(OK | TOO_SHORT | QUIET, is_ice_stun_request(given, o.bytes, o.size, o.length));
    if (*o.length != IS_ICE_STUN_REQUEST_LENGTH) stop("a request has not 28 bytes");
    written(code, o, false);
}

static void stun_response(void)
{
    struct bytes m = message();
    is_ice_stun_transaction *id = argument(sizeof *id);
    is_ice_stun_result *result = argument(sizeof *result);
    memset(id->bytes, 7, sizeof id->bytes);
    if (m.length >= 20 && one_in(2)) memcpy(id->bytes, m.bytes + 8, sizeof id->bytes);
    on = AGENTS;
    filled(CALL(OK | NOTHING | UNPARSED | QUIET, is_ice_stun_response(id, m.bytes, m.length, result)), result, sizeof *result);
}

static void stun_text(void)
{
    static const uint16_t kinds[] = {0x0006, 0x0009, 0x0013, 0x0014, 0x0015, 0x0022, 0x8022, 0x0020};
    struct bytes m = message();
    struct out o = out();
    uint16_t kind = kinds[below(COUNT(kinds))];
    on = AGENTS;
    int32_t code = CALL(OK | NOTHING | UNPARSED | TOO_SHORT | QUIET, is_ice_stun_text(kind, m.bytes, m.length, o.bytes, o.size, o.length));
    written(code, o, kind != IS_ICE_STUN_DATA);
}

static void stun_username(void)
{
    struct bytes m = message();
    struct out o = out();
    size_t *receiver = argument(sizeof *receiver), length = 0;
    uint8_t again[600];
    on = AGENTS;
    int32_t code = CALL(OK | NOTHING | UNPARSED | TOO_SHORT | QUIET,
        is_ice_stun_username(m.bytes, m.length, o.bytes, o.size, o.length, receiver));
    written(code, o, true);
    if (code == IS_ICE_BUFFER_TOO_SHORT && *receiver >= *o.length) stop("the username is not in two parts");
    if (code != IS_ICE_OK && code != IS_ICE_BUFFER_TOO_SHORT) filled(code, receiver, sizeof *receiver);
    if (code != IS_ICE_OK) return;
    if (*receiver >= *o.length || o.bytes[*receiver] != ':' || memchr(o.bytes, ':', *receiver)) stop("the username is not in two parts");
    if (is_ice_stun_text(IS_ICE_STUN_USERNAME, m.bytes, m.length, again, sizeof again, &length) != IS_ICE_OK) stop("there is no username");
    if (length != *o.length || memcmp(again, o.bytes, length) != 0) stop("the username is another one");
}

static void username_parts(void)
{
    struct bytes name = secret(ufrags);
    size_t *receiver = argument(sizeof *receiver);
    on = AGENTS;
    int32_t code = CALL(OK | NOTHING | NOT_UTF8 | QUIET, is_ice_username_parts(name.bytes, name.length, receiver));
    filled(code, receiver, sizeof *receiver);
    if (code == IS_ICE_OK && (*receiver + 1 >= name.length || name.bytes[*receiver] != ':')) stop("the username is not in two parts");
}

static void hmac(void)
{
    struct bytes key = secret(passwords), given = raw();
    struct out o = out();
    on = AGENTS;
    int32_t code = CALL(OK | TOO_SHORT | QUIET,
        is_ice_hmac_sha1(key.bytes, key.length, given.bytes, given.length, o.bytes, o.size, o.length));
    if (*o.length != IS_ICE_HMAC_LENGTH) stop("a MAC has not 20 bytes");
    written(code, o, false);
}

static void stun_read(void)
{
    struct bytes m = message(), key = secret(passwords);
    is_ice_stun_message *read = argument(sizeof *read);
    on = AGENTS;
    int32_t begins = CALL(OK | NOTHING | QUIET, is_ice_is_stun(m.bytes, m.length));
    int32_t code = CALL(OK | UNPARSED | QUIET, is_ice_stun_read(m.bytes, m.length, read));
    if (code == IS_ICE_OK && m.bytes[0] < 64 && begins != IS_ICE_OK) stop("a message does not begin as one");
    filled(code, read, sizeof *read);
    int32_t verified = CALL(OK | NOTHING | UNPARSED | QUIET, is_ice_stun_verify(m.bytes, m.length, key.bytes, key.length));
    if ((code == IS_ICE_UNPARSED) != (verified == IS_ICE_UNPARSED)) stop("is_ice_stun_read and is_ice_stun_verify differ");
    if (verified == IS_ICE_OK && !read->has_integrity) stop("a message without MESSAGE-INTEGRITY is verified");
}

static is_ice_stun_span span(size_t length)
{
    is_ice_stun_span made;
    memset(&made, 0, sizeof made);
    made.is_set = one_in(2);
    made.start = one_in(8) ? (size_t)number() : below(8);
    made.length = one_in(8) ? (size_t)number() : length > 8 ? below(length - 8) : 0;
    return made;
}

/* Whether the numbers are alike: also if both are not set. */
static bool is_like(is_ice_stun_number a, is_ice_stun_number b)
{
    return a.is_set == b.is_set && (!a.is_set || a.value == b.value);
}

static void stun_write(void)
{
    is_ice_stun_message m = fields(), again;
    is_ice_stun_texts texts;
    struct bytes given = raw(), key = secret(passwords);
    struct out o = out();
    memset(&texts, 0, sizeof texts);
    texts.username = span(given.length), texts.reason = span(given.length), texts.data = span(given.length);
    texts.realm = span(given.length), texts.nonce = span(given.length), texts.software = span(given.length);
    on = AGENTS;
    int32_t code = CALL(OK | BAD_MESSAGE | BAD_ADDRESS | NOT_UTF8 | TOO_LONG | TOO_SHORT | QUIET,
        is_ice_stun_write(&m, &texts, given.bytes, given.length, key.bytes, key.length, o.bytes, o.size, o.length));
    if (code == IS_ICE_OK) written(code, o, false);
    else filled(code, o.bytes, o.size), filled(code, o.length, sizeof *o.length);
    if (code != IS_ICE_OK) return;
    if (CALL(OK | UNPARSED | QUIET, is_ice_stun_read(o.bytes, *o.length, &again)) != IS_ICE_OK) {
        uint64_t channel = m.channel_number.is_set ? m.channel_number.value : 0x4000;
        if (channel >= 0x4000 && channel <= 0x7fff) stop("a written message is not read");
        return;
    }
    if (again.method != m.method || again.cls != m.cls || again.use_candidate != m.use_candidate || again.has_integrity != m.has_integrity
        || !is_like(again.priority, m.priority) || !is_like(again.controlling, m.controlling) || !is_like(again.controlled, m.controlled)
        || !is_like(again.error_code, m.error_code) || !is_like(again.lifetime, m.lifetime)
        || !is_like(again.nomination, m.nomination) || again.requested_transport != m.requested_transport
        || again.requested_family != m.requested_family || memcmp(&again.id, &m.id, sizeof m.id) != 0)
        stop("a written message is read otherwise");
    if (m.has_integrity && CALL(OK | QUIET, is_ice_stun_verify(o.bytes, *o.length, key.bytes, key.length)) != IS_ICE_OK)
        stop("a written message is not verified");
}

/* ---- a run */

static void fail_next(void)
{
    left = (long)below(8);
}

static void version(void)
{
    on = AGENTS;
    if (is_ice_version() != IS_ICE_VERSION) stop("the header is of another version");
}

static void (*const steps[])(void) = {
    play, handle_packet, handle_packet, add_local, add_remote, handle_timeout, poll_transmit, poll_event, poll_timeout, list, list_fields,
    line_fields, candidate_fields, line_parts, json_texts, line_texts, candidate_texts, preferences, find_pair, invalidate, queries,
    credentials, stun_read, stun_write, stun_text, stun_username, stun_response, stun_request, set_bool, set_number, set_limit, set_mtu,
    set_preference, set_settings, set_credentials, restart, recreate, create, destroy, make_credentials, fail_next, version,
    fields_line, line_with_fields, json_fields, times, grammar, host_address, role, username_parts, hmac, alike, send_failed, log_lines, add_local_line,
    servers, servers, servers};

/* Two agents that know each other's credentials and candidates. */
static void introduce(void)
{
    is_ice_candidate host;
    uint8_t text[256];
    size_t index = 0, length = 0;
    memset(&host, 0, sizeof host);
    for (size_t i = 0; i < 2; i++) {
        if (is_ice_agent_new(agents[i], TEXT(ufrags[i]), TEXT(passwords[i]), i) != IS_ICE_OK) stop("no agent");
        is_held[i] = true;
        if (is_ice_set_controlling(agents[i], i == 0) != IS_ICE_OK) stop("no role");
        if (is_ice_set_remote_credentials(agents[i], TEXT(ufrags[1 - i]), TEXT(passwords[1 - i])) != IS_ICE_OK) stop("no credentials");
        host.address.family = 4, host.address.bytes[0] = 10, host.address.bytes[3] = (uint8_t)(1 + i), host.address.port = 5000;
        if (is_ice_add_local(agents[i], &host, &index) != IS_ICE_OK) stop("no host");
    }
    for (size_t i = 0; i < 2; i++) {
        if (is_ice_local_candidate(agents[i], 0, text, sizeof text, &length) != IS_ICE_OK) stop("no text");
        if (is_ice_add_remote(agents[1 - i], text, length, &index) != IS_ICE_OK) stop("no remote");
    }
}

/* What the agents are like at the end is coverage too. */
static void look(void)
{
    struct view v;
    for (size_t i = 0; i < AGENTS; i++) {
        if (!is_held[i]) continue;
        is_ice_pair pair;
        size_t count = 0;
        view(agents[i], &v);
        saw(STATES + i, (size_t)v.values[0] * 4 + (size_t)v.values[1] * 2 + (size_t)v.values[2]);
        if (is_ice_pair_count(agents[i], &count) != IS_ICE_OK) stop("no count");
        for (size_t k = 0; k < count && k < 40; k++) {
            if (is_ice_pair_at(agents[i], k, &pair) != IS_ICE_OK) stop("no pair");
            if (pair.state < IS_ICE_PAIR_WAITING || pair.state > IS_ICE_PAIR_SUCCEEDED) stop("there is no such state");
            saw(PAIRS + i, (size_t)pair.state * 8 + pair.nominated * 4u + pair.selected * 2u + pair.has_request);
        }
        saw(PAIR_COUNTS + i, count > 30 ? 31 : count);
    }
}

int LLVMFuzzerTestOneInput(const uint8_t *data, size_t size)
{
    at = data, end = data + size;
    now = 60 * SECOND, sent = 0, left = -1;
    for (size_t i = 0; i < AGENTS; i++) {
        if (!agents[i]) agents[i] = (is_ice_agent *)(void *)(fenced_pages(1) + PAGE - sizeof(is_ice_agent));
        memset(agents[i], 0, sizeof(is_ice_agent));
        is_held[i] = false;
    }
    if (!servers_held) servers_held = (is_ice_servers *)(void *)(fenced_pages(1) + PAGE - sizeof *servers_held);
    memset(servers_held, 0, sizeof *servers_held), has_servers = false, memset(&request, 0, sizeof request);
    if (!one_in(8)) introduce();
    while (at < end) {
        uint8_t choice = take();
        on = choice / COUNT(steps) % AGENTS, which = 0, next_argument = 0;
        steps[choice % COUNT(steps)]();
    }
    left = -1;
    look();
    for (size_t i = 0; i < AGENTS; i++) is_ice_agent_free(agents[i]);
    is_ice_servers_free(servers_held);
    if (live != 0) stop("memory is left after all agents are freed");
    return 0;
}
