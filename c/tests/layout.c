/* Tests each field of each struct: what the program writes, the library reads, and the reverse. On 64-bit targets sizes and offsets
 * are those that c/abi/make wrote for the other languages. */
#include "layout.h"
#include <stdio.h>
#include <stdlib.h>

#define TEXT(text) (const uint8_t *)text, sizeof text - 1
#define HOLD(fact) hold(__LINE__, #fact, fact)

static const is_ice_address v4 = {4, {10, 0, 0, 1}, 1000, 0, 0}, seen4 = {4, {192, 0, 2, 1}, 2000, 0, 0};
static const is_ice_address v6 = {6, {0x20, 1, 0xd, 0xb8, 0, 0, 0, 0, 0, 0, 0, 0, 0, 0, 0, 1}, 3000, 0, 0};
static const is_ice_address seen6 = {6, {0x20, 1, 0xd, 0xb8, 0, 0, 0, 0, 0, 0, 0, 0, 0, 0, 0, 2}, 4000, 0, 0};
static const is_ice_address scoped = {6, {0xfe, 0x80, 0, 0, 0, 0, 0, 0, 0, 0, 0, 0, 0, 0, 0, 2}, 2000, 0x12345, 3};

static void hold(int line, const char *fact, bool holds)
{
    if (holds) return;
    printf("line %d: %s\n", line, fact);
    exit(1);
}

/* The sizes and offsets that Rust, Python and JavaScript have. */
static void offsets(void)
{
    const char *other = other_layout();
    if (other == NULL) return;
    printf("%s has another layout than in the other languages\n", other);
    exit(1);
}

static is_ice_agent made(void)
{
    is_ice_agent agent = {false, NULL};
    HOLD(is_ice_agent_new(&agent, TEXT("near"), TEXT("nearpass"), 7) == IS_ICE_OK);
    HOLD(is_ice_set_remote_credentials(&agent, TEXT("farr"), TEXT("farpass")) == IS_ICE_OK);
    return agent;
}

/* is_ice_agent_status, from settings. */
static void settings(void)
{
    is_ice_agent agent = made();
    is_ice_agent_status s;
    is_ice_agent_settings modern;
    uint64_t timeout = 0;
    memset(&s, 0xaa, sizeof s);
    HOLD(is_ice_status(&agent, &s) == IS_ICE_OK && is_ice_modern_settings(&modern) == IS_ICE_OK);
    HOLD(is_ice_retransmit_timeout(modern.initial_rto, modern.max_rto, modern.max_retransmits, &timeout) == IS_ICE_OK);
    HOLD(s.state == IS_ICE_NEW && !s.controlling && !s.lite);
    HOLD(s.mtu == 1150 && s.mtu_warn == 1280 && s.ice_timeout == timeout && s.max_candidates == modern.max_candidates);
    HOLD(is_ice_set_controlling(&agent, true) == IS_ICE_OK && is_ice_set_mtu(&agent, 600, 700) == IS_ICE_OK);
    HOLD(is_ice_set_max_retransmits(&agent, 2) == IS_ICE_OK && is_ice_set_max_rto(&agent, 400000000) == IS_ICE_OK);
    HOLD(is_ice_set_initial_rto(&agent, 250000000) == IS_ICE_OK);
    HOLD(is_ice_status(&agent, &s) == IS_ICE_OK);
    HOLD(s.controlling && !s.lite && s.mtu == 600 && s.mtu_warn == 700 && s.ice_timeout == 800000000);
    HOLD(is_ice_set_controlling(&agent, false) == IS_ICE_OK && is_ice_set_lite(&agent, true) == IS_ICE_OK);
    HOLD(is_ice_set_max_candidates(&agent, 5) == IS_ICE_OK);
    HOLD(is_ice_status(&agent, &s) == IS_ICE_OK && !s.controlling && s.lite && s.max_candidates == 5);
    HOLD(is_ice_set_controlling(&agent, true) == IS_ICE_LITE_STAYS_CONTROLLED && is_ice_set_controlling(&agent, false) == IS_ICE_OK);
    HOLD(is_ice_status(&agent, &s) == IS_ICE_OK && !s.controlling);
    is_ice_agent_free(&agent);
}

/* is_ice_agent_free: at a null pointer it does nothing, and neither does it a second time. */
static void freed(void)
{
    is_ice_agent agent = made();
    is_ice_agent_status s;
    is_ice_agent_free(NULL);
    is_ice_agent_free(&agent);
    is_ice_agent_free(&agent);
    HOLD(is_ice_status(&agent, &s) == IS_ICE_NO_AGENT);
}

/* is_ice_agent_settings: what is set is read, and the room is zero. */
static void keeps_settings(is_ice_agent *agent, const is_ice_agent_settings *set)
{
    is_ice_agent_settings s;
    memset(&s, 0xff, sizeof s);
    HOLD(is_ice_set_settings(agent, set) == IS_ICE_OK && is_ice_settings(agent, &s) == IS_ICE_OK && same_agent_settings(&s, set));
    HOLD(s.room[0] == 0 && s.room[1] == 0 && s.room[2] == 0 && s.room[3] == 0);
}

/* Each setter sets its field, and no other one. */
static void setters(void)
{
    is_ice_agent agent = made();
    is_ice_agent_settings expected, s;
    HOLD(is_ice_modern_settings(&expected) == IS_ICE_OK);
    HOLD(is_ice_set_timing_advance(&agent, 1) == IS_ICE_OK && is_ice_set_initial_rto(&agent, 2) == IS_ICE_OK);
    HOLD(is_ice_set_max_rto(&agent, 3) == IS_ICE_OK && is_ice_set_max_retransmits(&agent, 4) == IS_ICE_OK);
    expected.timing_advance = 1, expected.initial_rto = 2, expected.max_rto = 3, expected.max_retransmits = 4;
    HOLD(is_ice_settings(&agent, &s) == IS_ICE_OK && same_agent_settings(&s, &expected));
    HOLD(is_ice_set_lite_timeout(&agent, 5) == IS_ICE_OK && is_ice_set_max_pairs(&agent, 6) == IS_ICE_OK);
    HOLD(is_ice_set_max_discovered(&agent, 7) == IS_ICE_OK && is_ice_set_max_candidates(&agent, 8) == IS_ICE_OK);
    expected.lite_timeout = 5, expected.max_pairs = 6, expected.max_discovered = 7, expected.max_candidates = 8;
    HOLD(is_ice_settings(&agent, &s) == IS_ICE_OK && same_agent_settings(&s, &expected));
    HOLD(is_ice_set_renomination(&agent, true) == IS_ICE_OK);
    expected.renomination = true;
    HOLD(is_ice_settings(&agent, &s) == IS_ICE_OK && same_agent_settings(&s, &expected));
    is_ice_agent_free(&agent);
}

/* is_ice_agent_settings: those of a new agent, those of the original, and each field with a value of its own. Their numbers are in the
 * table "Settings" of docs/API.md, which a test in Python compares with the library. */
static void all_settings(void)
{
    is_ice_agent agent = made();
    is_ice_agent_settings modern, original, s;
    memset(&modern, 0, sizeof modern), memset(&original, 0xff, sizeof original), memset(&s, 0, sizeof s);
    HOLD(is_ice_modern_settings(&modern) == IS_ICE_OK && modern.modern && !modern.strict_consent && !modern.renomination);
    HOLD(modern.consent_timeout == 0 && modern.max_discovered != IS_ICE_NO_LIMIT && modern.max_candidates != IS_ICE_NO_LIMIT);
    HOLD(is_ice_original_settings(&original) == IS_ICE_OK && !original.modern && !original.strict_consent && !original.renomination);
    HOLD(original.consent_timeout == 0 && original.max_discovered == IS_ICE_NO_LIMIT && original.max_candidates == IS_ICE_NO_LIMIT);
    HOLD(is_ice_settings(&agent, &s) == IS_ICE_OK && same_agent_settings(&s, &modern));
    keeps_settings(&agent, &original), keeps_settings(&agent, &modern);
    s = original, s.timing_advance = UINT64_MAX, keeps_settings(&agent, &s);
    s = original, s.initial_rto = UINT64_MAX, keeps_settings(&agent, &s);
    s = original, s.max_rto = UINT64_MAX, keeps_settings(&agent, &s);
    s = original, s.lite_timeout = UINT64_MAX, keeps_settings(&agent, &s);
    s = original, s.consent_timeout = UINT64_MAX, keeps_settings(&agent, &s);
    s = original, s.max_retransmits = SIZE_MAX, keeps_settings(&agent, &s);
    s = original, s.max_pairs = SIZE_MAX, keeps_settings(&agent, &s);
    s = original, s.max_discovered = 0, keeps_settings(&agent, &s);
    s = original, s.max_candidates = 0, keeps_settings(&agent, &s);
    s = original, s.modern = true, keeps_settings(&agent, &s);
    s = original, s.strict_consent = true, keeps_settings(&agent, &s);
    s = original, s.renomination = true, keeps_settings(&agent, &s);
    is_ice_agent_settings kept = s;
    s.max_retransmits = 0;
    HOLD(is_ice_set_settings(&agent, &s) == IS_ICE_BAD_LIMIT && is_ice_settings(&agent, &s) == IS_ICE_OK && same_agent_settings(&s, &kept));
    is_ice_agent_free(&agent);
    s = modern;
    HOLD(is_ice_set_settings(&agent, &original) == IS_ICE_NO_AGENT && is_ice_settings(&agent, &s) == IS_ICE_NO_AGENT);
    HOLD(same_agent_settings(&s, &modern));
}

/* Adds the candidate: its text has this after the foundation. */
static void has_line(is_ice_agent *agent, size_t index, const is_ice_candidate *candidate, const char *rest)
{
    uint8_t line[256];
    size_t length = 0, added = SIZE_MAX;
    HOLD(is_ice_add_local(agent, candidate, &added) == IS_ICE_OK && added == index);
    HOLD(is_ice_local_candidate(agent, index, line, sizeof line - 1, &length) == IS_ICE_OK);
    line[length] = '\0';
    const char *blank = strchr((const char *)line, ' ');
    if (blank && strncmp(blank, rest, strlen(rest)) == 0) return;
    printf("%s: expected %s\n", (const char *)line, rest);
    exit(1);
}

/* is_ice_candidate, of each kind and family, and is_ice_preference_table, whose values are in the middle of the priority. */
static void candidates(void)
{
    static const is_ice_preference_table table = {{1, 2, 3, 4}, {5, 6, 7, 8}};
    const is_ice_candidate all[] = {
        {v4, v4, IS_ICE_HOST, IS_ICE_UDP, IS_ICE_TCP_UNSTATED},
        {seen4, v4, IS_ICE_SERVER_REFLEXIVE, IS_ICE_UDP, IS_ICE_TCP_UNSTATED},
        {seen4, v4, IS_ICE_RELAYED, IS_ICE_TCP, IS_ICE_TCP_UNSTATED},
        {v6, v6, IS_ICE_HOST, IS_ICE_SSL_TCP, IS_ICE_TCP_PASSIVE},
        {seen6, v6, IS_ICE_SERVER_REFLEXIVE, IS_ICE_TLS, IS_ICE_TCP_SO},
        {seen6, v6, IS_ICE_RELAYED, IS_ICE_UDP, IS_ICE_TCP_UNSTATED},
    };
    is_ice_agent agent = made();
    HOLD(is_ice_set_preference_table(&agent, &table) == IS_ICE_OK);
    has_line(&agent, 0, &all[0], " 1 udp 2113929727 10.0.0.1 1000 typ host");
    has_line(&agent, 1, &all[1], " 1 udp 1677722623 192.0.2.1 2000 typ srflx raddr 0.0.0.0 rport 0");
    has_line(&agent, 2, &all[2], " 1 tcp 16778495 192.0.2.1 2000 typ relay raddr 0.0.0.0 rport 0");
    has_line(&agent, 3, &all[3], " 1 ssltcp 1509950975 2001:db8::1 3000 typ host tcptype passive");
    has_line(&agent, 4, &all[4], " 1 tls 1677723647 2001:db8::2 4000 typ srflx raddr :: rport 0 tcptype so");
    has_line(&agent, 5, &all[5], " 1 udp 33556735 2001:db8::2 4000 typ relay raddr :: rport 0");
    HOLD(is_ice_invalidate_local(&agent, &all[1]) == IS_ICE_OK && is_ice_invalidate_local(&agent, &all[1]) == IS_ICE_NOTHING);
    is_ice_agent_free(&agent);
}

/* is_ice_alike_local: of each kind and IP version. Those that were removed count. */
static void alike(void)
{
    const is_ice_candidate host = {v4, v4, IS_ICE_HOST, IS_ICE_UDP, 0}, host6 = {v6, v6, IS_ICE_HOST, IS_ICE_UDP, 0};
    const is_ice_candidate reflexive = {seen4, v4, IS_ICE_SERVER_REFLEXIVE, IS_ICE_UDP, 0}, relayed = {seen4, v4, IS_ICE_RELAYED, IS_ICE_UDP, 0};
    const is_ice_candidate other = {seen4, seen4, IS_ICE_HOST, IS_ICE_TCP, 0};
    is_ice_candidate bad = host;
    is_ice_agent agent = made();
    size_t count = 7, index;
    HOLD(is_ice_alike_local(&agent, &host, &count) == IS_ICE_OK && count == 0);
    HOLD(is_ice_add_local(&agent, &host, &index) == IS_ICE_OK && is_ice_add_local(&agent, &reflexive, &index) == IS_ICE_OK);
    HOLD(is_ice_alike_local(&agent, &host, &count) == IS_ICE_OK && count == 1);
    HOLD(is_ice_alike_local(&agent, &host6, &count) == IS_ICE_OK && count == 0);
    HOLD(is_ice_alike_local(&agent, &reflexive, &count) == IS_ICE_OK && count == 1);
    HOLD(is_ice_alike_local(&agent, &relayed, &count) == IS_ICE_OK && count == 0);
    HOLD(is_ice_add_local(&agent, &other, &index) == IS_ICE_OK && is_ice_invalidate_local(&agent, &host) == IS_ICE_OK);
    HOLD(is_ice_alike_local(&agent, &other, &count) == IS_ICE_OK && count == 2);
    bad.kind = 3;
    HOLD(is_ice_alike_local(&agent, &bad, &count) == IS_ICE_BAD_ADDRESS && count == 2);
    bad = host, memset(bad.address.bytes, 0, sizeof bad.address.bytes);
    HOLD(is_ice_alike_local(&agent, &bad, &count) == IS_ICE_BAD_CANDIDATE && count == 2);
    is_ice_agent_free(&agent);
    HOLD(is_ice_alike_local(&agent, &host, &count) == IS_ICE_NO_AGENT && count == 2);
}

static is_ice_agent side(const char *near, const char *far, bool controlling, const is_ice_address *own, const is_ice_address *other)
{
    is_ice_agent agent = {false, NULL};
    char line[128];
    size_t index = SIZE_MAX;
    const is_ice_candidate host = {*own, *own, IS_ICE_HOST, IS_ICE_UDP, 0};
    int length = snprintf(line, sizeof line, "candidate:1 1 udp 7 2001:db8::%u %u typ host", other->bytes[15], other->port);
    HOLD(is_ice_agent_new(&agent, (const uint8_t *)near, 4, (const uint8_t *)near, 4, controlling) == IS_ICE_OK);
    HOLD(is_ice_set_remote_credentials(&agent, (const uint8_t *)far, 4, (const uint8_t *)far, 4) == IS_ICE_OK);
    HOLD(is_ice_set_controlling(&agent, controlling) == IS_ICE_OK && is_ice_add_local(&agent, &host, &index) == IS_ICE_OK);
    HOLD(is_ice_add_remote(&agent, (const uint8_t *)line, (size_t)length, &index) == IS_ICE_OK && index == 0);
    return agent;
}

/* Delivers a packet, and tests its addresses and its length. */
static void carry(
    is_ice_agent *from, is_ice_agent *to, const is_ice_address *source, const is_ice_address *destination, size_t length, uint64_t now)
{
    uint8_t bytes[1500];
    is_ice_packet packet;
    memset(&packet, 0xaa, sizeof packet);
    HOLD(is_ice_poll_transmit(from, bytes, sizeof bytes, &packet) == IS_ICE_OK);
    HOLD(same_address(&packet.source, source) && same_address(&packet.destination, destination));
    HOLD(packet.length == length && packet.protocol == IS_ICE_UDP);
    HOLD(is_ice_handle_packet(to, now, packet.protocol, &packet.source, &packet.destination, bytes, packet.length) == IS_ICE_OK);
}

/* is_ice_packet, is_ice_event, is_ice_agent_stats and is_ice_nominated_pair, from a session over IPv6. */
static void session(void)
{
    const is_ice_address at_a = v6, at_b = seen6;
    is_ice_agent a = side("aaaa", "bbbb", true, &at_a, &at_b), b = side("bbbb", "aaaa", false, &at_b, &at_a);
    is_ice_event e;
    is_ice_agent_stats stats;
    is_ice_nominated_pair path;
    is_ice_pair pair;
    size_t count = 0;
    memset(&e, 0xaa, sizeof e);
    HOLD(is_ice_nominated(&a, &path) == IS_ICE_NOTHING && is_ice_has_viable_remote(&a, &at_b) == IS_ICE_NOTHING);
    HOLD(is_ice_handle_timeout(&a, UINT64_C(60000000000), TEXT("twelve bytes")) == IS_ICE_OK);
    carry(&a, &b, &at_a, &at_b, 88, UINT64_C(60010000000));
    carry(&b, &a, &at_b, &at_a, 76, UINT64_C(60030000000));
    HOLD(is_ice_poll_event(&a, &e) == IS_ICE_OK && e.kind == IS_ICE_RESTARTED);
    HOLD(is_ice_poll_event(&a, &e) == IS_ICE_OK && e.kind == IS_ICE_STATE_CHANGED && e.state == IS_ICE_CHECKING);
    HOLD(is_ice_poll_event(&a, &e) == IS_ICE_OK && e.kind == IS_ICE_NOMINATED_SEND && e.protocol == IS_ICE_UDP);
    HOLD(same_address(&e.source, &at_a) && same_address(&e.destination, &at_b));
    HOLD(is_ice_poll_event(&a, &e) == IS_ICE_OK && e.kind == IS_ICE_STATE_CHANGED && e.state == IS_ICE_COMPLETED);
    HOLD(is_ice_poll_event(&a, &e) == IS_ICE_OK && e.kind == IS_ICE_DISCOVERED_RECV && same_address(&e.source, &at_b));
    HOLD(is_ice_poll_event(&a, &e) == IS_ICE_NOTHING && is_ice_has_viable_remote(&a, &at_b) == IS_ICE_OK);
    HOLD(is_ice_stats(&a, &stats) == IS_ICE_OK && stats.bind_request_sent == 1 && stats.bind_success_recv == 1);
    HOLD(stats.bind_request_recv == 0 && stats.discovered_recv_count == 1 && stats.nomination_send_count == 1);
    HOLD(is_ice_stats(&b, &stats) == IS_ICE_OK && stats.bind_request_sent == 0 && stats.bind_request_recv == 1);
    memset(&path, 0xaa, sizeof path);
    HOLD(is_ice_nominated(&a, &path) == IS_ICE_OK && path.responses == 1 && path.protocol == IS_ICE_UDP);
    HOLD(same_address(&path.source, &at_a) && same_address(&path.destination, &at_b));
    HOLD(path.total_rtt == 30000000 && path.rtt == 30000000 && path.has_rtt);
    memset(&pair, 0xaa, sizeof pair);
    HOLD(is_ice_pair_count(&a, &count) == IS_ICE_OK && count == 1 && is_ice_pair_at(&a, 1, &pair) == IS_ICE_NOTHING);
    HOLD(is_ice_pair_at(&a, 0, &pair) == IS_ICE_OK && pair.local == 0 && pair.remote == 0 && pair.state == IS_ICE_PAIR_SUCCEEDED);
    HOLD(pair.nominated && pair.selected && pair.responses == 1 && pair.total_rtt == 30000000 && pair.rtt == 30000000);
    HOLD(pair.has_rtt && !pair.has_request && pair.has_due);
    HOLD(is_ice_pair_at(&b, 0, &pair) == IS_ICE_OK && pair.state == IS_ICE_PAIR_WAITING && pair.has_request);
    HOLD(pair.last_request == UINT64_C(60010000000) && !pair.selected && pair.responses == 0 && !pair.has_rtt && !pair.has_due);
    is_ice_agent_free(&a);
    is_ice_agent_free(&b);
}

/* Flow and scope of is_ice_address: the response has both of the address that the request came from. */
static void flow_and_scope(void)
{
    const is_ice_address at_b = scoped, at_a = v6;
    is_ice_agent a = side("aaaa", "bbbb", true, &at_a, &at_b), b = side("bbbb", "aaaa", false, &at_b, &at_a);
    is_ice_packet packet;
    is_ice_event e;
    uint8_t bytes[1500];
    HOLD(is_ice_handle_timeout(&b, UINT64_C(60000000000), TEXT("twelve bytes")) == IS_ICE_OK);
    HOLD(is_ice_poll_transmit(&b, bytes, sizeof bytes, &packet) == IS_ICE_OK && same_address(&packet.source, &at_b));
    HOLD(is_ice_handle_packet(&a, UINT64_C(60000000000), IS_ICE_UDP, &at_b, &at_a, bytes, packet.length) == IS_ICE_OK);
    HOLD(is_ice_poll_transmit(&a, bytes, sizeof bytes, &packet) == IS_ICE_OK);
    HOLD(same_address(&packet.source, &at_a) && same_address(&packet.destination, &at_b));
    HOLD(is_ice_poll_event(&a, &e) == IS_ICE_OK && e.kind == IS_ICE_DISCOVERED_RECV && same_address(&e.source, &at_b));
    is_ice_agent_free(&a);
    is_ice_agent_free(&b);
}

/* is_ice_media_path: the pair of the controlled agent is valid before the other one nominates it. The clock starts at 0. */
static void valid_path(void)
{
    const is_ice_address at_a = v6, at_b = seen6;
    is_ice_agent a = side("aaaa", "bbbb", true, &at_a, &at_b), b = side("bbbb", "aaaa", false, &at_b, &at_a);
    is_ice_nominated_pair nominated;
    is_ice_media_path path, unchanged;
    is_ice_pair pair;
    memset(&path, 0xaa, sizeof path), memset(&unchanged, 0xaa, sizeof unchanged);
    HOLD(is_ice_valid_path(&b, &path) == IS_ICE_NOTHING && memcmp(&path, &unchanged, sizeof path) == 0);
    HOLD(is_ice_handle_timeout(&b, 0, TEXT("twelve bytes")) == IS_ICE_OK);
    carry(&b, &a, &at_b, &at_a, 88, 10000000);
    HOLD(is_ice_valid_path(&a, &path) == IS_ICE_NOTHING && is_ice_valid_path(&b, &path) == IS_ICE_NOTHING);
    HOLD(is_ice_pair_at(&a, 0, &pair) == IS_ICE_OK && pair.has_request && pair.last_request == 10000000);
    carry(&a, &b, &at_a, &at_b, 76, 30000000);
    HOLD(is_ice_valid_path(&b, &path) == IS_ICE_OK && is_ice_nominated(&b, &nominated) == IS_ICE_NOTHING);
    HOLD(same_address(&path.source, &at_b) && same_address(&path.destination, &at_a) && path.protocol == IS_ICE_UDP);
    is_ice_agent_free(&a);
    is_ice_agent_free(&b);
    HOLD(is_ice_valid_path(&b, &path) == IS_ICE_NO_AGENT && same_address(&path.source, &at_b));
}

/* is_ice_removed_pair: of a session, as a candidate is invalidated. */
static void removed(void)
{
    const is_ice_address at_a = v6, at_b = seen6;
    is_ice_agent a = side("aaaa", "bbbb", true, &at_a, &at_b), b = side("bbbb", "aaaa", false, &at_b, &at_a);
    const is_ice_candidate host = {at_a, at_a, IS_ICE_HOST, IS_ICE_UDP, 0};
    is_ice_removed_pair gone, unchanged;
    is_ice_pair pair;
    size_t count = SIZE_MAX;
    memset(&gone, 0xaa, sizeof gone), memset(&unchanged, 0xaa, sizeof unchanged);
    HOLD(is_ice_removed_count(&a, &count) == IS_ICE_OK && count == 0);
    HOLD(is_ice_removed_at(&a, 0, &gone) == IS_ICE_NOTHING && memcmp(&gone, &unchanged, sizeof gone) == 0);
    HOLD(is_ice_handle_timeout(&a, UINT64_C(60000000000), TEXT("twelve bytes")) == IS_ICE_OK);
    carry(&a, &b, &at_a, &at_b, 88, UINT64_C(60010000000));
    carry(&b, &a, &at_b, &at_a, 76, UINT64_C(60030000000));
    HOLD(is_ice_pair_at(&a, 0, &pair) == IS_ICE_OK && is_ice_invalidate_local(&a, &host) == IS_ICE_OK);
    HOLD(is_ice_removed_count(&a, &count) == IS_ICE_OK && count == 1 && is_ice_removed_at(&a, 0, &gone) == IS_ICE_OK);
    HOLD(gone.priority == pair.priority && gone.checks_sent == 1 && gone.responses == 1 && gone.state == IS_ICE_PAIR_SUCCEEDED);
    HOLD(gone.reason == IS_ICE_REMOVED_INVALIDATED && gone.error == 0 && gone.has_path && gone.path.protocol == IS_ICE_UDP);
    HOLD(same_address(&gone.path.source, &at_a) && same_address(&gone.path.destination, &at_b));
    HOLD(is_ice_removed_at(&a, 1, &gone) == IS_ICE_NOTHING);
    is_ice_agent_free(&a);
    is_ice_agent_free(&b);
    HOLD(is_ice_removed_count(&a, &count) == IS_ICE_NO_AGENT && is_ice_removed_at(&a, 0, &gone) == IS_ICE_NO_AGENT && count == 1);
}

/* is_ice_early_count and is_ice_poll_timeout: a check arrives before the credentials, and is served after them. */
static void early(void)
{
    const is_ice_address at_a = v6, at_b = seen6;
    const is_ice_candidate host = {at_b, at_b, IS_ICE_HOST, IS_ICE_UDP, 0};
    is_ice_agent a = side("aaaa", "bbbb", true, &at_a, &at_b), b = {false, NULL};
    uint64_t at = 7;
    size_t count = 7, index;
    HOLD(is_ice_early_count(&b, &count) == IS_ICE_NO_AGENT && is_ice_poll_timeout(&b, &at) == IS_ICE_NO_AGENT && count == 7);
    HOLD(is_ice_agent_new(&b, TEXT("bbbb"), TEXT("bbbb"), 0) == IS_ICE_OK && is_ice_add_local(&b, &host, &index) == IS_ICE_OK);
    HOLD(is_ice_poll_timeout(&b, &at) == IS_ICE_NOTHING && at == 7);
    HOLD(is_ice_early_count(&b, &count) == IS_ICE_OK && count == 0);
    HOLD(is_ice_handle_timeout(&a, 0, TEXT("twelve bytes")) == IS_ICE_OK);
    HOLD(is_ice_poll_timeout(&a, &at) == IS_ICE_OK && at == 100000000);
    HOLD(is_ice_poll_timeout(&a, &at) == IS_ICE_OK && at == 100000000);
    carry(&a, &b, &at_a, &at_b, 88, 10000000);
    HOLD(is_ice_early_count(&b, &count) == IS_ICE_OK && count == 1);
    HOLD(is_ice_set_remote_credentials(&b, TEXT("aaaa"), TEXT("aaaa")) == IS_ICE_OK);
    HOLD(is_ice_handle_timeout(&b, 20000000, TEXT("twelve bytes")) == IS_ICE_OK);
    HOLD(is_ice_early_count(&b, &count) == IS_ICE_OK && count == 0);
    HOLD(is_ice_poll_timeout(&b, &at) == IS_ICE_OK && at == 25000000);
    carry(&b, &a, &at_b, &at_a, 76, 30000000);
    is_ice_agent_free(&a);
    is_ice_agent_free(&b);
}

int main(void)
{
    offsets();
    settings();
    freed();
    setters();
    all_settings();
    candidates();
    alike();
    session();
    flow_and_scope();
    valid_path();
    removed();
    early();
    return 0;
}
