/* The calls of is_ice.h for C++17: an agent that frees itself, texts as std::string_view and std::string, events as a
 * std::variant, and errors as exceptions. Each function makes the call whose name it has, with the prefix is_ice_,
 * whose comment in is_ice.h says what it does. What may be absent is a std::optional: IS_ICE_NOTHING is std::nullopt or
 * false. In C++20 a datagram may be a std::span, in place of a pointer and a length.
 *
 * The structs are those of is_ice.h under shorter names: is_ice::candidate is is_ice_candidate.
 *
 *     is_ice::agent agent(local, tie_breaker);                                credentials, a random number
 *     agent.handle_timeout(now(), random());                                  starts the session
 *     for (;;) {
 *         auto at = agent.poll_timeout();
 *         while (auto packet = agent.poll_transmit())
 *             send packet->contents from packet->source to packet->destination;
 *         while (auto event = agent.poll_event())
 *             if (auto path = std::get_if<is_ice::nominated_send>(&*event)) use the path;
 *         wait for a datagram, or until the earliest *at since handle_timeout;
 *         a datagram arrived:  agent.handle_packet(now(), IS_ICE_UDP, from, to, data, length);
 *         that has passed:     agent.handle_timeout(now(), random());
 *     }
 *
 * examples/two.cpp is a complete program. An error code is thrown as is_ice::error, and the call that returned it changed
 * nothing. add_local makes two calls: if the second one fails for lack of memory, the candidate was added. Times and
 * durations that functions take and return are std::chrono::nanoseconds, and not negative; those in structs are the
 * numbers of C, which is_ice::duration converts. The rules on threads are those of is_ice.h. */
#ifndef IS_ICE_HPP
#define IS_ICE_HPP

#include "is_ice.h"
#include <array>
#include <chrono>
#include <cstring>
#include <memory>
#include <optional>
#include <stdexcept>
#include <string>
#include <string_view>
#include <utility>
#include <variant>
#include <vector>
#if __cplusplus >= 202002L
#include <span>
#endif

namespace is_ice {

using address = is_ice_address;
using candidate = is_ice_candidate;
using fields = is_ice_fields;
using pair = is_ice_pair;
using settings = is_ice_agent_settings;
using status = is_ice_agent_status;
using counters = is_ice_agent_stats;
using nominated_pair = is_ice_nominated_pair;
using media_path = is_ice_media_path;
using failed_send = is_ice_failed_send;
using preference_table = is_ice_preference_table;
using stun_transaction = is_ice_stun_transaction;
using stun_result = is_ice_stun_result;
using stun_message = is_ice_stun_message;
using stun_texts = is_ice_stun_texts;

/* Since an origin that the caller chooses; or a duration. */
using nanoseconds = std::chrono::nanoseconds;
using timeout_random = std::array<uint8_t, IS_ICE_TIMEOUT_RANDOM>;
using credentials_random = std::array<uint8_t, IS_ICE_CREDENTIALS_RANDOM>;
using servers_random = std::array<uint8_t, IS_ICE_SERVERS_RANDOM>;

#ifdef __cpp_lib_span
/* A datagram or a STUN message, for the functions that take a pointer and a length, too. */
using bytes = std::span<const uint8_t>;
#endif

/* A code below 0 that a call returned. */
class error : public std::runtime_error {
public:
    explicit error(int32_t code) : std::runtime_error(is_ice_code_text(code)), code_(code) {}
    error(int32_t code, const std::string &text) : std::runtime_error(text), code_(code) {}
    int32_t code() const noexcept { return code_; }

private:
    int32_t code_;
};

/* Throws a code below 0 as an error, and returns any other: for calls of is_ice.h on agent::get(). */
inline int32_t checked(int32_t code)
{
    if (code < 0) throw error(code);
    return code;
}

/* A time or a duration of a struct's field, such as pair::due: nanoseconds::max() if it is longer. */
inline nanoseconds duration(uint64_t count)
{
    constexpr auto most = static_cast<uint64_t>(nanoseconds::max().count());
    return count < most ? nanoseconds(static_cast<int64_t>(count)) : nanoseconds::max();
}

struct credentials {
    std::string ufrag;
    std::string pass;
};

enum class connection_state : int32_t {
    created = IS_ICE_NEW,
    checking = IS_ICE_CHECKING,
    connected = IS_ICE_CONNECTED,
    completed = IS_ICE_COMPLETED,
    disconnected = IS_ICE_DISCONNECTED
};

/* The events: see the kinds of events in is_ice.h. */
struct restarted {};
struct state_changed {
    connection_state state;
};
struct discovered_recv {
    uint8_t protocol;
    address source;
};
struct nominated_send {
    uint8_t protocol;
    address source;
    address destination;
};
struct silent {
    uint8_t protocol;
    address source;
    address destination;
};
struct heard {
    uint8_t protocol;
    address source;
    address destination;
};
using event = std::variant<restarted, state_changed, discovered_recv, nominated_send, silent, heard>;

/* Why a pair was removed. */
enum class removal : int32_t {
    no_response = IS_ICE_REMOVED_NO_RESPONSE,
    consent_lost = IS_ICE_REMOVED_CONSENT_LOST,
    peer_silent = IS_ICE_REMOVED_PEER_SILENT,
    evicted = IS_ICE_REMOVED_EVICTED,
    replaced = IS_ICE_REMOVED_REPLACED,
    invalidated = IS_ICE_REMOVED_INVALIDATED
};

/* A pair that was removed: the struct of C, whose `reason` is `why`. */
struct removed_pair : is_ice_removed_pair {
    removal why() const noexcept { return static_cast<removal>(reason); }
};

/* Why a datagram is rejected: see is_ice_rejection. */
enum class rejection : int32_t {
    unparsed = IS_ICE_UNPARSED,
    method = IS_ICE_REJECTED_METHOD,
    message_class = IS_ICE_REJECTED_CLASS,
    local_ufrag = IS_ICE_REJECTED_LOCAL_UFRAG,
    remote_ufrag = IS_ICE_REJECTED_REMOTE_UFRAG,
    local_password = IS_ICE_REJECTED_LOCAL_PASSWORD,
    no_check = IS_ICE_REJECTED_NO_CHECK,
    path = IS_ICE_REJECTED_PATH,
    remote_password = IS_ICE_REJECTED_REMOTE_PASSWORD
};
inline const char *text_of(rejection why) { return is_ice_code_text(static_cast<int32_t>(why)); }

/* Why a request that is accepted gets no response: see is_ice_unserved. */
enum class unserved : int32_t {
    unparsed = IS_ICE_UNPARSED,
    early = IS_ICE_UNSERVED_EARLY,
    destination = IS_ICE_UNSERVED_DESTINATION,
    use_candidate = IS_ICE_UNSERVED_USE_CANDIDATE,
    sender = IS_ICE_UNSERVED_SENDER,
    limit = IS_ICE_UNSERVED_LIMIT,
    local = IS_ICE_UNSERVED_LOCAL
};
inline const char *text_of(unserved why) { return is_ice_code_text(static_cast<int32_t>(why)); }

/* A packet to send. */
struct packet {
    uint8_t protocol;
    address source;
    address destination;
    std::vector<uint8_t> contents;
};

/* What became of a datagram, and of a remote candidate. */
enum class handled : int32_t { accepted = IS_ICE_OK, other_agent = IS_ICE_NOTHING, unparsed = IS_ICE_UNPARSED };
enum class added : int32_t {
    yes = IS_ICE_OK,
    known = IS_ICE_NOTHING,
    other_component = IS_ICE_OTHER_COMPONENT,
    other_ufrag = IS_ICE_OTHER_UFRAG
};

/* What arrived, as the agent takes it: a part of the bytes that were passed to servers::receive. */
struct arrival {
    address source;
    address destination;
    const uint8_t *data;
    size_t length;
};

/* What becomes of a packet that is no packet for a server: see is_ice_servers_outgoing. */
struct as_it_is {};
struct no_relay {};
using outgoing = std::variant<as_it_is, packet, no_relay>;

/* What happened to the client of a server: see is_ice_server_event. No code: none came. */
enum class ending : int32_t { failed = IS_ICE_ENDED_FAILED, lost = IS_ICE_ENDED_LOST, closed = IS_ICE_ENDED_CLOSED };
struct mapped {
    is_ice::address address;
};
struct allocated {
    address relayed;
    std::optional<address> mapped;
};
struct not_permitted {
    address peer;
    std::optional<uint16_t> code;
};
struct ended {
    ending why;
    std::optional<uint16_t> code;
    std::optional<uint16_t> unverified;
};
struct server_event {
    uint8_t protocol;
    address local;
    address server;
    std::variant<mapped, allocated, not_permitted, ended> what;
};

/* What the URL of a server says. */
struct server_url {
    uint8_t scheme;
    uint8_t protocol;
    std::string host;
    uint16_t port;
};

/* The text of a candidate with its fields. */
struct line_and_fields {
    std::string line;
    is_ice::fields fields;
};

/* A USERNAME, and the length of its part before the first colon. */
struct username {
    std::string text;
    size_t receiver;
};

namespace detail {

inline bool done(int32_t code) { return checked(code) == IS_ICE_OK; }

/* A pointer of a call is never null, not even that of an empty text. */
inline const uint8_t *at(const void *data) { return static_cast<const uint8_t *>(data ? data : ""); }
inline const uint8_t *at(std::string_view text) { return at(static_cast<const void *>(text.data())); }

inline uint64_t count(nanoseconds time)
{
    if (time.count() < 0) throw std::invalid_argument("a negative time");
    return static_cast<uint64_t>(time.count());
}

/* The struct of C with the fields of an event. */
inline is_ice_event event_of(const event &of)
{
    is_ice_event it{};
    auto path = [&](int32_t kind, const auto &on) {
        it.kind = kind, it.protocol = on.protocol, it.source = on.source, it.destination = on.destination;
    };
    if (std::get_if<restarted>(&of)) it.kind = IS_ICE_RESTARTED;
    if (auto on = std::get_if<state_changed>(&of)) it.kind = IS_ICE_STATE_CHANGED, it.state = static_cast<int32_t>(on->state);
    if (auto on = std::get_if<discovered_recv>(&of)) it.kind = IS_ICE_DISCOVERED_RECV, it.protocol = on->protocol, it.source = on->source;
    if (auto on = std::get_if<nominated_send>(&of)) path(IS_ICE_NOMINATED_SEND, *on);
    if (auto on = std::get_if<silent>(&of)) path(IS_ICE_SILENT, *on);
    if (auto on = std::get_if<heard>(&of)) path(IS_ICE_HEARD, *on);
    return it;
}

/* The struct of C with the fields of an event of a client, and back. 0 is no code. */
inline is_ice_server_event server_event_of(const server_event &of)
{
    is_ice_server_event it{};
    it.protocol = of.protocol, it.local = of.local, it.server = of.server;
    if (auto on = std::get_if<mapped>(&of.what)) it.kind = IS_ICE_SERVER_MAPPED, it.mapped = on->address;
    if (auto on = std::get_if<allocated>(&of.what)) {
        it.kind = IS_ICE_SERVER_ALLOCATED, it.relayed = on->relayed, it.has_mapped = on->mapped.has_value();
        if (on->mapped) it.mapped = *on->mapped;
    }
    if (auto on = std::get_if<not_permitted>(&of.what))
        it.kind = IS_ICE_SERVER_NOT_PERMITTED, it.peer = on->peer, it.code = on->code.value_or(0);
    if (auto on = std::get_if<ended>(&of.what)) {
        it.kind = IS_ICE_SERVER_ENDED, it.why = static_cast<int32_t>(on->why);
        it.code = on->code.value_or(0), it.unverified = on->unverified.value_or(0);
    }
    return it;
}

inline std::optional<uint16_t> code_of(uint16_t number) { return number ? std::optional(number) : std::nullopt; }

inline server_event server_event_from(const is_ice_server_event &it)
{
    server_event of{it.protocol, it.local, it.server, mapped{it.mapped}};
    switch (it.kind) {
    case IS_ICE_SERVER_MAPPED: return of;
    case IS_ICE_SERVER_ALLOCATED:
        of.what = allocated{it.relayed, it.has_mapped ? std::optional(it.mapped) : std::nullopt};
        return of;
    case IS_ICE_SERVER_NOT_PERMITTED: of.what = not_permitted{it.peer, code_of(it.code)}; return of;
    case IS_ICE_SERVER_ENDED:
        of.what = ended{static_cast<ending>(it.why), code_of(it.code), code_of(it.unverified)};
        return of;
    default: throw std::logic_error("an event of an unknown kind");
    }
}

/* What a call writes to a buffer, which grows until it is long enough. */
template <class Bytes, class Call> std::optional<Bytes> written(Call call)
{
    Bytes bytes(256, 0);
    for (size_t length = 0;;) {
        int32_t code = call(reinterpret_cast<uint8_t *>(bytes.data()), bytes.size(), &length);
        if (code != IS_ICE_BUFFER_TOO_SHORT && !done(code)) return std::nullopt;
        bytes.resize(length);
        if (code == IS_ICE_OK) return bytes;
    }
}

template <class Call> std::optional<std::string> text(Call call) { return written<std::string>(call); }

template <class Call> std::optional<line_and_fields> line_with_fields(Call call)
{
    is_ice::fields found{};
    auto line = text([&](uint8_t *buffer, size_t size, size_t *length) { return call(buffer, size, length, &found); });
    if (!line) return std::nullopt;
    return line_and_fields{*std::move(line), found};
}

/* Throws the error, for a bad candidate with the explanation that another call returns. A short buffer is no error
 * here. */
template <class Refusal> int32_t explained(int32_t code, Refusal refusal)
{
    if (code == IS_ICE_BUFFER_TOO_SHORT) return code;
    if (code == IS_ICE_BAD_CANDIDATE)
        if (auto why = text(refusal)) throw error(code, *why);
    return checked(code);
}

template <class Struct, class Call> std::optional<Struct> filled(Call call)
{
    Struct result{};
    if (!done(call(&result))) return std::nullopt;
    return result;
}

} // namespace detail

inline address ipv4(std::array<uint8_t, 4> octets, uint16_t port)
{
    address result{4, {}, port, 0, 0};
    std::memcpy(result.bytes, octets.data(), octets.size());
    return result;
}

inline address ipv6(std::array<uint8_t, 16> octets, uint16_t port, uint32_t scope = 0)
{
    address result{6, {}, port, 0, scope};
    std::memcpy(result.bytes, octets.data(), octets.size());
    return result;
}

inline bool is_host_address(const address &of) { return detail::done(is_ice_is_host_address(&of)); }

inline credentials make_credentials(const credentials_random &random)
{
    credentials made{std::string(IS_ICE_UFRAG_LENGTH, '\0'), std::string(IS_ICE_PASS_LENGTH, '\0')};
    checked(is_ice_make_credentials(
        random.data(), random.size(), reinterpret_cast<uint8_t *>(made.ufrag.data()), made.ufrag.size(),
        reinterpret_cast<uint8_t *>(made.pass.data()), made.pass.size()));
    return made;
}

inline bool check_text(uint8_t kind, std::string_view text)
{
    return detail::done(is_ice_check_text(kind, detail::at(text), text.size()));
}

/* Whether the agent is controlling at first. */
inline bool role(bool made_offer, bool lite, bool other_is_lite)
{
    return detail::done(is_ice_role(made_offer, lite, other_is_lite));
}

inline nanoseconds retransmit_timeout(nanoseconds initial_rto, nanoseconds max_rto, size_t max_retransmits)
{
    uint64_t timeout = 0;
    checked(is_ice_retransmit_timeout(
        detail::count(initial_rto), detail::count(max_rto), max_retransmits, &timeout));
    return duration(timeout);
}

inline nanoseconds retransmit_delay(
    nanoseconds initial_rto, nanoseconds max_rto, size_t max_retransmits, size_t sent)
{
    uint64_t delay = 0;
    is_ice_retransmit_delay(detail::count(initial_rto), detail::count(max_rto), max_retransmits, sent, &delay);
    return duration(delay);
}

inline settings modern_settings() { return *detail::filled<settings>(is_ice_modern_settings); }
inline settings original_settings() { return *detail::filled<settings>(is_ice_original_settings); }

/* ---- candidates without an agent: their texts and their JSON */

namespace detail {

inline auto refusal_of(std::string_view line)
{
    return [line](uint8_t *buffer, size_t size, size_t *length) {
        return is_ice_line_refusal(at(line), line.size(), buffer, size, length);
    };
}

inline auto refusal_of(const candidate &from)
{
    return [&from](uint8_t *buffer, size_t size, size_t *length) {
        return is_ice_candidate_refusal(&from, buffer, size, length);
    };
}

inline auto json_refusal_of(std::string_view json)
{
    return [json](uint8_t *buffer, size_t size, size_t *length) {
        return is_ice_json_refusal(at(json), json.size(), buffer, size, length);
    };
}

} // namespace detail

inline std::optional<std::string> line_refusal(std::string_view line) { return detail::text(detail::refusal_of(line)); }
inline std::optional<std::string> candidate_refusal(const candidate &from)
{
    return detail::text(detail::refusal_of(from));
}
inline std::optional<std::string> json_refusal(std::string_view json)
{
    return detail::text(detail::json_refusal_of(json));
}

inline std::string candidate_line(const candidate &from)
{
    return *detail::text([&](uint8_t *buffer, size_t size, size_t *length) {
        return detail::explained(
            is_ice_candidate_line(&from, buffer, size, length), detail::refusal_of(from));
    });
}

inline line_and_fields candidate_fields(const candidate &from)
{
    return *detail::line_with_fields([&](uint8_t *buffer, size_t size, size_t *length, fields *found) {
        return detail::explained(
            is_ice_candidate_fields(&from, buffer, size, length, found), detail::refusal_of(from));
    });
}

inline line_and_fields fields_line(const fields &given, std::string_view foundation)
{
    return *detail::line_with_fields([&](uint8_t *buffer, size_t size, size_t *length, fields *found) {
        return is_ice_fields_line(
            &given, detail::at(foundation), foundation.size(), buffer, size, length, found);
    });
}

inline line_and_fields line_fields(std::string_view line)
{
    return *detail::line_with_fields([&](uint8_t *buffer, size_t size, size_t *length, fields *found) {
        return detail::explained(
            is_ice_line_fields(detail::at(line), line.size(), buffer, size, length, found), detail::refusal_of(line));
    });
}

inline std::optional<std::string> line_name(std::string_view line)
{
    return detail::text([&](uint8_t *buffer, size_t size, size_t *length) {
        return is_ice_line_name(detail::at(line), line.size(), buffer, size, length);
    });
}

inline std::string line_with_address(std::string_view line, const address &ip)
{
    return *detail::text([&](uint8_t *buffer, size_t size, size_t *length) {
        return is_ice_line_with_address(detail::at(line), line.size(), &ip, buffer, size, length);
    });
}

inline std::string line_with_ufrag(std::string_view line, std::string_view ufrag)
{
    return *detail::text([&](uint8_t *buffer, size_t size, size_t *length) {
        return is_ice_line_with_ufrag(
            detail::at(line), line.size(), detail::at(ufrag), ufrag.size(), buffer, size, length);
    });
}

inline line_and_fields line_with_address_fields(std::string_view line, const address &ip)
{
    return *detail::line_with_fields([&](uint8_t *buffer, size_t size, size_t *length, fields *found) {
        return is_ice_line_with_address_fields(detail::at(line), line.size(), &ip, buffer, size, length, found);
    });
}

inline line_and_fields line_with_ufrag_fields(std::string_view line, std::string_view ufrag)
{
    return *detail::line_with_fields([&](uint8_t *buffer, size_t size, size_t *length, fields *found) {
        return is_ice_line_with_ufrag_fields(
            detail::at(line), line.size(), detail::at(ufrag), ufrag.size(), buffer, size, length, found);
    });
}

inline std::string line_to_json(std::string_view line)
{
    return *detail::text([&](uint8_t *buffer, size_t size, size_t *length) {
        return detail::explained(
            is_ice_line_to_json(detail::at(line), line.size(), buffer, size, length), detail::refusal_of(line));
    });
}

inline std::string line_from_json(std::string_view json)
{
    return *detail::text([&](uint8_t *buffer, size_t size, size_t *length) {
        return detail::explained(
            is_ice_line_from_json(detail::at(json), json.size(), buffer, size, length), detail::json_refusal_of(json));
    });
}

inline line_and_fields json_fields(std::string_view json)
{
    return *detail::line_with_fields([&](uint8_t *buffer, size_t size, size_t *length, fields *found) {
        return detail::explained(
            is_ice_json_fields(detail::at(json), json.size(), buffer, size, length, found),
            detail::json_refusal_of(json));
    });
}

inline uint32_t candidate_preference(const candidate &from, size_t same_kind)
{
    uint32_t preference = 0;
    detail::explained(is_ice_candidate_preference(&from, same_kind, &preference), detail::refusal_of(from));
    return preference;
}

inline uint32_t line_preference(std::string_view line, size_t same_kind)
{
    uint32_t preference = 0;
    detail::explained(
        is_ice_line_preference(detail::at(line), line.size(), same_kind, &preference), detail::refusal_of(line));
    return preference;
}

/* ---- an agent */

/* An agent that is freed with this object. It may be moved, not copied; a call on one that was moved from throws
 * IS_ICE_NO_AGENT. */
class agent {
public:
    agent(std::string_view ufrag, std::string_view pass, uint64_t tie_breaker) : held_(new is_ice_agent{})
    {
        if (is_ice_version() != IS_ICE_VERSION) throw std::runtime_error("is_ice.h belongs to another library");
        checked(
            is_ice_agent_new(at(), detail::at(ufrag), ufrag.size(), detail::at(pass), pass.size(), tie_breaker));
    }
    agent(const credentials &local, uint64_t tie_breaker) : agent(local.ufrag, local.pass, tie_breaker) {}

    /* For calls of is_ice.h that are not here. */
    is_ice_agent *get() const noexcept { return held_.get(); }

    void set_controlling(bool controlling) { done(is_ice_set_controlling(at(), controlling)); }
    void set_lite(bool lite) { done(is_ice_set_lite(at(), lite)); }
    void set_renomination(bool enabled) { done(is_ice_set_renomination(at(), enabled)); }
    void set_lite_timeout(nanoseconds time) { done(is_ice_set_lite_timeout(at(), detail::count(time))); }
    void set_tie_breaker(uint64_t tie_breaker) { done(is_ice_set_tie_breaker(at(), tie_breaker)); }
    void set_max_pairs(size_t limit) { done(is_ice_set_max_pairs(at(), limit)); }
    void set_max_discovered(size_t limit) { done(is_ice_set_max_discovered(at(), limit)); }
    void set_max_candidates(size_t limit) { done(is_ice_set_max_candidates(at(), limit)); }
    void set_timing_advance(nanoseconds time) { done(is_ice_set_timing_advance(at(), detail::count(time))); }
    void set_initial_rto(nanoseconds time) { done(is_ice_set_initial_rto(at(), detail::count(time))); }
    void set_max_rto(nanoseconds time) { done(is_ice_set_max_rto(at(), detail::count(time))); }
    void set_max_retransmits(size_t limit) { done(is_ice_set_max_retransmits(at(), limit)); }
    void set_settings(const is_ice::settings &settings) { done(is_ice_set_settings(at(), &settings)); }
    void set_mtu(size_t mtu, size_t warn) { done(is_ice_set_mtu(at(), mtu, warn)); }
    void skip_pair_ids(uint64_t number) { done(is_ice_skip_pair_ids(at(), number)); }
    void set_local_preference(uint16_t preference) { done(is_ice_set_local_preference(at(), preference)); }
    void set_preference_table(const preference_table &table) { done(is_ice_set_preference_table(at(), &table)); }
    /* nanoseconds::max(): never. */
    void set_silence(nanoseconds time)
    {
        done(is_ice_set_silence(at(), time == nanoseconds::max() ? IS_ICE_NEVER : detail::count(time)));
    }
    void reset_local_preference() { done(is_ice_reset_local_preference(at())); }
    void set_local_credentials(std::string_view ufrag, std::string_view pass)
    {
        done(is_ice_set_local_credentials(at(), detail::at(ufrag), ufrag.size(), detail::at(pass), pass.size()));
    }
    void set_remote_credentials(std::string_view ufrag, std::string_view pass)
    {
        done(is_ice_set_remote_credentials(at(), detail::at(ufrag), ufrag.size(), detail::at(pass), pass.size()));
    }

    /* The text of the candidate, for signaling; none if it is redundant. If it throws for lack of memory, the candidate may
     * have been added: local_candidate lists it then. */
    std::optional<std::string> add_local(const candidate &gathered)
    {
        size_t index = 0;
        int32_t code = is_ice_add_local(at(), &gathered, &index);
        if (detail::explained(code, detail::refusal_of(gathered)) != IS_ICE_OK) return std::nullopt;
        return local_candidate(index);
    }
    std::optional<std::string> add_local_line(std::string_view line)
    {
        size_t index = 0;
        int32_t code = is_ice_add_local_line(at(), detail::at(line), line.size(), &index);
        if (detail::explained(code, detail::refusal_of(line)) != IS_ICE_OK) return std::nullopt;
        return local_candidate(index);
    }
    added add_remote(std::string_view line)
    {
        size_t index = 0;
        int32_t code = is_ice_add_remote(at(), detail::at(line), line.size(), &index);
        return static_cast<added>(detail::explained(code, detail::refusal_of(line)));
    }
    bool invalidate(const candidate &gathered)
    {
        return detail::explained(is_ice_invalidate_local(at(), &gathered), detail::refusal_of(gathered)) == IS_ICE_OK;
    }
    bool invalidate(std::string_view line)
    {
        int32_t code = is_ice_invalidate(at(), detail::at(line), line.size());
        return detail::explained(code, detail::refusal_of(line)) == IS_ICE_OK;
    }
    size_t alike_local(const candidate &gathered) const
    {
        return *detail::filled<size_t>([&](size_t *count) {
            return detail::explained(is_ice_alike_local(at(), &gathered, count), detail::refusal_of(gathered));
        });
    }
    std::optional<std::string> local_candidate(size_t index) const { return text(is_ice_local_candidate, index); }
    std::optional<std::string> remote_candidate(size_t index) const { return text(is_ice_remote_candidate, index); }
    std::optional<line_and_fields> local_fields(size_t index) const { return with_fields(is_ice_local_fields, index); }
    std::optional<line_and_fields> remote_fields(size_t index) const
    {
        return with_fields(is_ice_remote_fields, index);
    }

    void handle_timeout(nanoseconds now, const timeout_random &random)
    {
        done(is_ice_handle_timeout(at(), detail::count(now), random.data(), random.size()));
    }
    handled handle_packet(
        nanoseconds now, uint8_t protocol, const address &source, const address &destination, const void *data,
        size_t length)
    {
        return verdict(is_ice_handle_packet(
            at(), detail::count(now), protocol, &source, &destination, detail::at(data), length));
    }
    handled accepts_packet(
        uint8_t protocol, const address &source, const address &destination, const void *data, size_t length) const
    {
        return verdict(is_ice_accepts_packet(at(), protocol, &source, &destination, detail::at(data), length));
    }
    std::optional<is_ice::rejection> rejection(
        uint8_t protocol, const address &source, const address &destination, const void *data, size_t length) const
    {
        int32_t code = is_ice_rejection(at(), protocol, &source, &destination, detail::at(data), length);
        if (code != IS_ICE_UNPARSED && done(code)) return std::nullopt;
        return static_cast<is_ice::rejection>(code);
    }
    std::optional<is_ice::unserved> unserved(
        uint8_t protocol, const address &source, const address &destination, const void *data, size_t length) const
    {
        int32_t code = is_ice_unserved(at(), protocol, &source, &destination, detail::at(data), length);
        if (code != IS_ICE_UNPARSED && done(code)) return std::nullopt;
        return static_cast<is_ice::unserved>(code);
    }
    handled accepts_message(const void *data, size_t length) const
    {
        return verdict(is_ice_accepts_message(at(), detail::at(data), length));
    }
#ifdef __cpp_lib_span
    handled handle_packet(
        nanoseconds now, uint8_t protocol, const address &source, const address &destination, bytes data)
    {
        return handle_packet(now, protocol, source, destination, data.data(), data.size());
    }
    handled accepts_packet(uint8_t protocol, const address &source, const address &destination, bytes data) const
    {
        return accepts_packet(protocol, source, destination, data.data(), data.size());
    }
    std::optional<is_ice::rejection> rejection(
        uint8_t protocol, const address &source, const address &destination, bytes data) const
    {
        return rejection(protocol, source, destination, data.data(), data.size());
    }
    std::optional<is_ice::unserved> unserved(
        uint8_t protocol, const address &source, const address &destination, bytes data) const
    {
        return unserved(protocol, source, destination, data.data(), data.size());
    }
    handled accepts_message(bytes data) const { return accepts_message(data.data(), data.size()); }
#endif
    std::optional<nanoseconds> poll_timeout()
    {
        uint64_t time = 0;
        if (!done(is_ice_poll_timeout(at(), &time))) return std::nullopt;
        return duration(time);
    }
    std::optional<packet> poll_transmit()
    {
        is_ice_packet header{};
        auto contents = detail::written<std::vector<uint8_t>>([&](uint8_t *buffer, size_t size, size_t *length) {
            int32_t code = is_ice_poll_transmit(at(), buffer, size, &header);
            *length = header.length;
            return code;
        });
        if (!contents) return std::nullopt;
        return packet{header.protocol, header.source, header.destination, *std::move(contents)};
    }
    std::optional<event> poll_event()
    {
        is_ice_event it{};
        if (!done(is_ice_poll_event(at(), &it))) return std::nullopt;
        switch (it.kind) {
        case IS_ICE_RESTARTED: return restarted{};
        case IS_ICE_STATE_CHANGED: return state_changed{static_cast<connection_state>(it.state)};
        case IS_ICE_DISCOVERED_RECV: return discovered_recv{it.protocol, it.source};
        case IS_ICE_NOMINATED_SEND: return nominated_send{it.protocol, it.source, it.destination};
        case IS_ICE_SILENT: return silent{it.protocol, it.source, it.destination};
        case IS_ICE_HEARD: return heard{it.protocol, it.source, it.destination};
        default: throw std::logic_error("an event of an unknown kind");
        }
    }
    void restart(std::string_view ufrag, std::string_view pass, bool keep_local_candidates)
    {
        done(is_ice_restart(
            at(), detail::at(ufrag), ufrag.size(), detail::at(pass), pass.size(), keep_local_candidates));
    }
    void recreate_pairs() { done(is_ice_recreate_pairs(at())); }
    void send_failed(uint8_t protocol, const address &source, const address &destination, uint32_t reason)
    {
        done(is_ice_send_failed(at(), protocol, &source, &destination, reason));
    }

    is_ice::status status() const { return *filled<is_ice::status>(is_ice_status); }
    is_ice::settings settings() const { return *filled<is_ice::settings>(is_ice_settings); }
    counters stats() const { return *filled<counters>(is_ice_stats); }
    std::optional<nominated_pair> nominated() const { return filled<nominated_pair>(is_ice_nominated); }
    std::optional<media_path> valid_path() const { return filled<media_path>(is_ice_valid_path); }
    std::optional<media_path> path_for_media(nanoseconds now) const
    {
        return detail::filled<media_path>(
            [&](media_path *path) { return is_ice_path_for_media(at(), detail::count(now), path); });
    }
    bool takes_media_from(nanoseconds now, const address &source) const
    {
        return done(is_ice_takes_media_from(at(), detail::count(now), &source));
    }
    std::optional<nanoseconds> silent_since() const
    {
        auto time = filled<uint64_t>(is_ice_silent_since);
        if (!time) return std::nullopt;
        return duration(*time);
    }
    /* The one that was noted first before the others. */
    std::vector<failed_send> failed_sends() const
    {
        std::vector<failed_send> all(*filled<size_t>(is_ice_failed_send_count));
        for (size_t i = 0; i < all.size(); i++) done(is_ice_failed_send_at(at(), i, &all[i]));
        return all;
    }
    size_t early_count() const { return *filled<size_t>(is_ice_early_count); }
    size_t pair_count() const { return *filled<size_t>(is_ice_pair_count); }
    std::optional<pair> pair_at(size_t index) const
    {
        return detail::filled<pair>([&](pair *found) { return is_ice_pair_at(at(), index, found); });
    }
    std::optional<pair> find_pair(std::string_view line) const
    {
        return detail::filled<pair>([&](pair *found) {
            return detail::explained(
                is_ice_find_pair(at(), detail::at(line), line.size(), found), detail::refusal_of(line));
        });
    }
    size_t removed_count() const { return *filled<size_t>(is_ice_removed_count); }
    std::optional<removed_pair> removed_at(size_t index) const
    {
        return detail::filled<removed_pair>([&](removed_pair *found) { return is_ice_removed_at(at(), index, found); });
    }
    /* All of them, the one that was removed first before the others. */
    std::vector<removed_pair> removed_pairs() const
    {
        std::vector<removed_pair> all;
        all.reserve(removed_count());
        while (auto next = removed_at(all.size())) all.push_back(*next);
        return all;
    }
    /* The lines of a log. No line: the index is past the last removed pair. */
    std::string event_line(const is_ice_event &it) const { return *text(is_ice_event_line, &it); }
    std::string event_line(const event &it) const { return event_line(detail::event_of(it)); }
    std::optional<std::string> removed_line(size_t index) const { return text(is_ice_removed_line, index); }
    std::string packet_line(uint8_t protocol, const address &source, const address &destination, const void *data, size_t length) const
    {
        return *text(is_ice_packet_line, protocol, &source, &destination, detail::at(data), length);
    }
    std::string packet_kind(uint8_t protocol, const address &source, const address &destination, const void *data, size_t length) const
    {
        return *text(is_ice_packet_kind, protocol, &source, &destination, detail::at(data), length);
    }
    bool has_viable_remote(const address &remote) const { return done(is_ice_has_viable_remote(at(), &remote)); }
    credentials local_credentials() const { return {*text(is_ice_local_ufrag), *text(is_ice_local_pass)}; }
    std::optional<credentials> remote_credentials() const
    {
        auto ufrag = text(is_ice_remote_ufrag), pass = text(is_ice_remote_pass);
        if (!ufrag || !pass) return std::nullopt;
        return credentials{*std::move(ufrag), *std::move(pass)};
    }

private:
    struct release {
        void operator()(is_ice_agent *agent) const
        {
            is_ice_agent_free(agent);
            delete agent;
        }
    };
    std::unique_ptr<is_ice_agent, release> held_; /* the struct of C is never copied, so it has a place of its own */

    is_ice_agent *at() const
    {
        if (!held_) throw error(IS_ICE_NO_AGENT);
        return held_.get();
    }
    static bool done(int32_t code) { return detail::done(code); }
    static handled verdict(int32_t code)
    {
        return static_cast<handled>(code == IS_ICE_UNPARSED ? code : checked(code));
    }
    template <class Call, class... Arguments> std::optional<std::string> text(Call call, Arguments... arguments) const
    {
        return detail::text([&](uint8_t *buffer, size_t size, size_t *length) {
            return call(at(), arguments..., buffer, size, length);
        });
    }
    template <class Call> std::optional<line_and_fields> with_fields(Call call, size_t index) const
    {
        return detail::line_with_fields([&](uint8_t *buffer, size_t size, size_t *length, fields *found) {
            return call(at(), index, buffer, size, length, found);
        });
    }
    template <class Struct, class Call> std::optional<Struct> filled(Call call) const
    {
        return detail::filled<Struct>([&](Struct *result) { return call(at(), result); });
    }
};

/* ---- STUN and TURN servers */

/* The clients of servers. They are freed with this object, which may be moved, not copied; a call on one that was moved from
 * throws IS_ICE_NO_SERVERS. */
class servers {
public:
    servers() : held_(new is_ice_servers{})
    {
        if (is_ice_version() != IS_ICE_VERSION) throw std::runtime_error("is_ice.h belongs to another library");
        checked(is_ice_servers_new(at()));
    }

    /* For calls of is_ice.h that are not here. */
    is_ice_servers *get() const noexcept { return held_.get(); }

    void add_stun(nanoseconds now, const address &local, const address &server)
    {
        done(is_ice_servers_add_stun(at(), detail::count(now), &local, &server));
    }
    /* An empty USERNAME: without credentials. `family` 0: the server's default. */
    void add_turn(
        nanoseconds now, uint8_t protocol, const address &local, const address &server, std::string_view username,
        std::string_view password, uint8_t family = 0, size_t places = IS_ICE_SERVERS_PLACES)
    {
        done(is_ice_servers_add_turn(
            at(), detail::count(now), protocol, &local, &server, family, places, detail::at(username), username.size(),
            detail::at(password), password.size()));
    }
    /* None: it was for a client. */
    std::optional<arrival> receive(
        nanoseconds now, uint8_t protocol, const address &source, const address &destination, const void *data,
        size_t length)
    {
        is_ice_datagram it{};
        const uint8_t *first = detail::at(data);
        if (!done(is_ice_servers_receive(at(), detail::count(now), protocol, &source, &destination, first, length, &it)))
            return std::nullopt;
        return arrival{it.source, it.destination, first + it.offset, it.length};
    }
    is_ice::outgoing outgoing(
        nanoseconds now, const address &source, const address &destination, const void *data, size_t length,
        const servers_random &random)
    {
        is_ice_packet it{};
        std::vector<uint8_t> buffer(length + IS_ICE_WRAPPING_LENGTH);
        int32_t code = checked(is_ice_servers_outgoing(
            at(), detail::count(now), &source, &destination, detail::at(data), length, random.data(), random.size(),
            buffer.data(), buffer.size(), &it));
        if (code == IS_ICE_NO_RELAY) return no_relay{};
        if (code != IS_ICE_OK) return as_it_is{};
        return sent(it, std::move(buffer));
    }
#ifdef __cpp_lib_span
    std::optional<arrival> receive(
        nanoseconds now, uint8_t protocol, const address &source, const address &destination, bytes data)
    {
        return receive(now, protocol, source, destination, data.data(), data.size());
    }
    is_ice::outgoing outgoing(
        nanoseconds now, const address &source, const address &destination, bytes data, const servers_random &random)
    {
        return outgoing(now, source, destination, data.data(), data.size(), random);
    }
#endif
    void permit(nanoseconds now, const address &peer) { done(is_ice_servers_permit(at(), detail::count(now), &peer)); }
    void probe(nanoseconds now) { done(is_ice_servers_probe(at(), detail::count(now))); }
    void close(nanoseconds now) { done(is_ice_servers_close(at(), detail::count(now))); }
    void lose(uint8_t protocol, const address &local) { done(is_ice_servers_lose(at(), protocol, &local)); }
    void handle_timeout(nanoseconds now, const servers_random &random)
    {
        done(is_ice_servers_handle_timeout(at(), detail::count(now), random.data(), random.size()));
    }
    std::optional<nanoseconds> poll_timeout() const
    {
        uint64_t time = 0;
        if (!done(is_ice_servers_poll_timeout(at(), &time))) return std::nullopt;
        return duration(time);
    }
    std::optional<packet> poll_transmit()
    {
        is_ice_packet it{};
        std::vector<uint8_t> buffer(IS_ICE_SERVERS_PACKET_LENGTH);
        if (!done(is_ice_servers_poll_transmit(at(), buffer.data(), buffer.size(), &it))) return std::nullopt;
        return sent(it, std::move(buffer));
    }
    std::optional<server_event> poll_event()
    {
        is_ice_server_event it{};
        if (!done(is_ice_servers_poll_event(at(), &it))) return std::nullopt;
        return detail::server_event_from(it);
    }
    bool gathering() const { return done(is_ice_servers_gathering(at())); }

private:
    struct release {
        void operator()(is_ice_servers *held) const
        {
            is_ice_servers_free(held);
            delete held;
        }
    };
    std::unique_ptr<is_ice_servers, release> held_; /* the struct of C is never copied, so it has a place of its own */

    is_ice_servers *at() const
    {
        if (!held_) throw error(IS_ICE_NO_SERVERS);
        return held_.get();
    }
    static bool done(int32_t code) { return detail::done(code); }
    static packet sent(const is_ice_packet &it, std::vector<uint8_t> &&buffer)
    {
        buffer.resize(it.length);
        return packet{it.protocol, it.source, it.destination, std::move(buffer)};
    }
};

inline std::string servers_event_line(const server_event &of)
{
    is_ice_server_event it = detail::server_event_of(of);
    return *detail::text([&](uint8_t *buffer, size_t size, size_t *length) {
        return is_ice_servers_event_line(&it, buffer, size, length);
    });
}

inline server_url server_url_of(std::string_view text)
{
    is_ice_server_url it{};
    checked(is_ice_server_url_of(detail::at(text), text.size(), &it));
    return server_url{it.scheme, it.protocol, std::string(text.substr(it.host_start, it.host_length)), it.port};
}

/* The length of the frame that begins a stream; none: fewer than four bytes are there. */
inline std::optional<size_t> frame_length(const void *data, size_t length)
{
    return detail::filled<size_t>([&](size_t *frame) { return is_ice_frame_length(detail::at(data), length, frame); });
}

/* ---- STUN messages. A message that is not one throws IS_ICE_UNPARSED. */

inline std::vector<uint8_t> stun_request(const stun_transaction &id)
{
    return *detail::written<std::vector<uint8_t>>([&](uint8_t *buffer, size_t size, size_t *length) {
        return is_ice_stun_request(&id, buffer, size, length);
    });
}

inline std::optional<stun_result> stun_response(const stun_transaction &id, const void *data, size_t length)
{
    return detail::filled<stun_result>(
        [&](stun_result *result) { return is_ice_stun_response(&id, detail::at(data), length, result); });
}

inline std::optional<std::string> stun_text(uint16_t attribute, const void *data, size_t length)
{
    return detail::text([&](uint8_t *buffer, size_t size, size_t *written) {
        return is_ice_stun_text(attribute, detail::at(data), length, buffer, size, written);
    });
}

inline bool is_stun(const void *data, size_t length) { return detail::done(is_ice_is_stun(detail::at(data), length)); }

inline stun_message stun_read(const void *data, size_t length)
{
    return *detail::filled<stun_message>(
        [&](stun_message *message) { return is_ice_stun_read(detail::at(data), length, message); });
}

inline stun_message stun_read_strict(const void *data, size_t length)
{
    return *detail::filled<stun_message>(
        [&](stun_message *message) { return is_ice_stun_read_strict(detail::at(data), length, message); });
}

inline std::optional<username> stun_username(const void *data, size_t length)
{
    size_t receiver = 0;
    auto text = detail::text([&](uint8_t *buffer, size_t size, size_t *written) {
        return is_ice_stun_username(detail::at(data), length, buffer, size, written, &receiver);
    });
    if (!text) return std::nullopt;
    return username{*std::move(text), receiver};
}

/* The length of the part before the first colon. */
inline std::optional<size_t> username_parts(std::string_view name)
{
    return detail::filled<size_t>(
        [&](size_t *receiver) { return is_ice_username_parts(detail::at(name), name.size(), receiver); });
}

inline std::vector<uint8_t> hmac_sha1(std::string_view key, const void *data, size_t length)
{
    return *detail::written<std::vector<uint8_t>>([&](uint8_t *buffer, size_t size, size_t *written) {
        return is_ice_hmac_sha1(detail::at(key), key.size(), detail::at(data), length, buffer, size, written);
    });
}

inline bool stun_verify(const void *data, size_t length, std::string_view key)
{
    return detail::done(is_ice_stun_verify(detail::at(data), length, detail::at(key), key.size()));
}

/* `texts` says where in `from` each text is. */
inline std::vector<uint8_t> stun_write(
    const stun_message &message, const stun_texts &texts, std::string_view from, std::string_view key)
{
    std::vector<uint8_t> buffer(IS_ICE_STUN_WRITE_LENGTH + from.size() + 8);
    size_t length = 0;
    checked(is_ice_stun_write(
        &message, &texts, detail::at(from), from.size(), detail::at(key), key.size(), buffer.data(), buffer.size(),
        &length));
    buffer.resize(length);
    return buffer;
}

#ifdef __cpp_lib_span
inline std::optional<stun_result> stun_response(const stun_transaction &id, bytes data)
{
    return stun_response(id, data.data(), data.size());
}
inline std::optional<std::string> stun_text(uint16_t attribute, bytes data)
{
    return stun_text(attribute, data.data(), data.size());
}
inline stun_message stun_read(bytes data) { return stun_read(data.data(), data.size()); }
inline stun_message stun_read_strict(bytes data) { return stun_read_strict(data.data(), data.size()); }
inline std::optional<username> stun_username(bytes data) { return stun_username(data.data(), data.size()); }
inline bool stun_verify(bytes data, std::string_view key) { return stun_verify(data.data(), data.size(), key); }
inline std::optional<size_t> frame_length(bytes data) { return frame_length(data.data(), data.size()); }
#endif

} // namespace is_ice

#endif
