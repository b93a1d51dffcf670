// Tests is_ice.hpp: an agent that is moved and freed, errors as exceptions, what may be absent, events, texts and STUN messages; as C++20
// also datagrams as spans.
// The status is 0, or the program names the first value that is not as expected.
#include "is_ice.hpp"
#include <algorithm>
#include <cstdio>
#include <cstdlib>
#include <type_traits>

using namespace std::chrono_literals;

static_assert(!std::is_copy_constructible_v<is_ice::agent> && std::is_nothrow_move_constructible_v<is_ice::agent>);

#define HOLD(it) hold(it, #it)

static void hold(bool holds, const char *what)
{
    if (holds) return;
    std::fprintf(stderr, "%s does not hold\n", what);
    std::exit(1);
}

template <class Call> static is_ice::error thrown(Call call)
{
    try {
        call();
    } catch (const is_ice::error &why) {
        return why;
    }
    return is_ice::error(IS_ICE_OK);
}

static is_ice::candidate host(uint8_t last)
{
    is_ice::candidate made{};
    made.address = is_ice::ipv4({10, 0, 0, last}, 5000);
    return made;
}

static const is_ice::timeout_random NONE{};

static void owns_an_agent()
{
    is_ice::agent first(is_ice::make_credentials({}), 1);
    HOLD(first.local_credentials().ufrag.size() == IS_ICE_UFRAG_LENGTH);
    HOLD(!first.remote_credentials());
    is_ice::agent second = std::move(first);
    HOLD(thrown([&] { first.pair_count(); }).code() == IS_ICE_NO_AGENT);
    HOLD(second.pair_count() == 0);
    first = is_ice::agent("ufrag", "pass", 2);
    HOLD(first.local_credentials().pass == "pass");
}

static void reports_errors()
{
    is_ice::agent agent("ufrag", "pass", 1);
    HOLD(thrown([] { is_ice::agent("\xff", "pass", 1); }).code() == IS_ICE_NOT_UTF8);
    HOLD(thrown([&] { agent.set_max_retransmits(0); }).code() == IS_ICE_BAD_LIMIT);
    auto why = thrown([&] { agent.add_remote("candidate:1 1 udp 1 nowhere 2000 typ host"); });
    HOLD(why.code() == IS_ICE_BAD_CANDIDATE && std::string_view(why.what()) != is_ice_code_text(IS_ICE_BAD_CANDIDATE));
    HOLD(is_ice::line_refusal("") && !is_ice::candidate_refusal(host(1)));
    bool is_negative = false;
    try {
        agent.handle_timeout(-1ns, NONE);
    } catch (const std::invalid_argument &) {
        is_negative = true;
    }
    HOLD(is_negative);
}

static void reads_and_writes_texts()
{
    std::string line = is_ice::candidate_line(host(1));
    HOLD(is_ice::line_fields(line).fields.priority == is_ice::candidate_fields(host(1)).fields.priority);
    std::string with = is_ice::line_with_ufrag(line, "abcd");
    HOLD(is_ice::line_from_json(is_ice::line_to_json(with)) == with);
    HOLD(is_ice::json_refusal("{}") && !is_ice::line_name(line));
    std::string hidden = "candidate:1 1 udp 1 3f2b8c1e.local 2000 typ host";
    HOLD(is_ice::line_name(hidden) == "3f2b8c1e.local");
    HOLD(is_ice::line_with_address(hidden, is_ice::ipv4({10, 0, 0, 9}, 0)).find(" 10.0.0.9 2000 ") != std::string::npos);
    HOLD(is_ice::candidate_preference(host(1), 0) == is_ice::line_preference(line, 0));
    std::string many(1000, 'f'); // longer than the first buffer
    HOLD(is_ice::line_with_ufrag(line, many).size() > many.size());
}

/* What an odd text says is what is_ice.h says of it: white space of Unicode and of others, line ends, repeated keys, a zero byte, no UTF-8. */
static void reads_what_the_library_reads()
{
    static const std::string_view texts[] = {
        "candidate:1\xc2\xa0" "1\xc2\xa0udp\xc2\xa0" "1\xc2\xa0" "10.0.0.1\xc2\xa0" "80\xc2\xa0typ\xc2\xa0host 1 udp 1 9.9.9.9 5 typ host x",
        "candidate:a\x1c" "1\x1cudp\x1c" "1\x1c" "9.9.9.9\x1c" "5\x1ctyp\x1chost 1 udp 1 10.0.0.1 80 typ host",
        "candidate:1 1 udp 1 10.0.0.1 80 typ host\r\na=candidate:2 1 udp 1 9.9.9.9 5 typ host\r\n",
        "candidate:1 1 udp 1 10.0.0.1 80 typ srflx raddr 0.0.0.0 rport 1 rport 2 ufrag gone ufrag farr",
        {"candidate:\0 1 udp 1 10.0.0.1 80 typ host", 40}, "candidate:\xed\xa0\x80 1 udp 1 10.0.0.1 80 typ host", "candidate:", ""};
    for (std::string_view text : texts) {
        uint8_t buffer[256];
        size_t length = 0;
        is_ice::fields wanted{};
        int32_t code = is_ice_line_fields(is_ice::detail::at(text), text.size(), buffer, sizeof buffer, &length, &wanted);
        is_ice::line_and_fields read{};
        HOLD(thrown([&] { read = is_ice::line_fields(text); }).code() == code);
        HOLD(read.line == std::string_view(reinterpret_cast<char *>(buffer), length) && read.fields.priority == wanted.priority);
        HOLD(std::memcmp(&read.fields.address, &wanted.address, sizeof wanted.address) == 0);
        is_ice::agent agent("ufrag", "pass", 1);
        HOLD(thrown([&] { agent.add_remote(text); }).code() == code);
        HOLD(code != IS_ICE_OK || agent.remote_fields(0)->fields.address.port == wanted.address.port);
    }
}

static void settings_are_kept()
{
    is_ice::agent agent("ufrag", "pass", 1);
    agent.set_controlling(true);
    agent.set_mtu(1200, 1300);
    HOLD(agent.status().controlling && agent.status().mtu == 1200 && !agent.status().lite);
    is_ice::settings modern = is_ice::modern_settings(), original = is_ice::original_settings();
    agent.set_settings(original);
    HOLD(agent.settings().modern == original.modern && modern.modern != original.modern);
    agent.set_preference_table({{1, 2, 3, 4}, {5, 6, 7, 8}});
    agent.reset_local_preference();
    agent.set_lite_timeout(30s);
    agent.set_max_discovered(IS_ICE_NO_LIMIT);
    agent.set_max_candidates(5);
    HOLD(agent.status().max_candidates == 5);
}

static void has_a_session()
{
    is_ice::agent agent("ufrag", "pass", 1);
    HOLD(!agent.poll_timeout() && !agent.poll_transmit() && !agent.poll_event());
    agent.set_remote_credentials("peer", "password");
    HOLD(agent.remote_credentials()->ufrag == "peer");
    auto line = agent.add_local(host(1));
    HOLD(line && !agent.add_local(host(1)) && agent.local_candidate(0) == line && !agent.local_candidate(1));
    HOLD(agent.local_fields(0)->line == *line && !agent.remote_fields(0));
    std::string remote = is_ice::candidate_line(host(2));
    HOLD(agent.add_remote(remote) == is_ice::added::yes && agent.add_remote(remote) == is_ice::added::known);
    HOLD(agent.add_remote("candidate:1 2 udp 1 10.0.0.3 1 typ host") == is_ice::added::other_component);
    agent.handle_timeout(60s, NONE);
    HOLD(agent.poll_timeout() == 60100ms && agent.poll_timeout() == 60100ms && agent.early_count() == 0);
    HOLD(std::holds_alternative<is_ice::restarted>(*agent.poll_event()));
    auto changed = agent.poll_event();
    HOLD(std::get<is_ice::state_changed>(*changed).state == is_ice::connection_state::checking);
    auto check = agent.poll_transmit();
    HOLD(check && check->destination.bytes[3] == 2 && !agent.poll_transmit());
    auto data = check->contents.data();
    auto size = check->contents.size();
    HOLD(is_ice::stun_username(data, size)->receiver == 4 && is_ice::stun_verify(data, size, "password"));
    HOLD(is_ice::stun_read_strict(data, size).has_fingerprint);
    HOLD(agent.accepts_message(data, size) == is_ice::handled::other_agent);
    HOLD(agent.handle_packet(60s, IS_ICE_UDP, host(2).address, host(1).address, "media", 5) == is_ice::handled::unparsed);
    HOLD(agent.accepts_packet(IS_ICE_UDP, host(2).address, host(1).address, nullptr, 0) == is_ice::handled::unparsed);
    HOLD(agent.pair_count() == 1 && agent.pair_at(0)->checks_sent == 1 && !agent.pair_at(1) && agent.find_pair(remote));
    HOLD(!agent.nominated() && !agent.valid_path() && !agent.has_viable_remote(host(2).address) && agent.stats().bind_request_sent == 1);
    HOLD(!agent.path_for_media(60s) && !agent.takes_media_from(60s, host(2).address) && !agent.silent_since());
    agent.set_silence(3s);
    agent.set_silence(is_ice::nanoseconds::max());
    HOLD(thrown([&] { agent.send_failed(9, host(1).address, host(2).address, 1); }).code() == IS_ICE_BAD_ADDRESS);
    HOLD(agent.failed_sends().empty());
    agent.send_failed(IS_ICE_UDP, host(1).address, host(2).address, 101);
    agent.send_failed(IS_ICE_UDP, host(1).address, host(2).address, 101);
    auto failed = agent.failed_sends();
    HOLD(failed.size() == 1 && failed[0].times == 2 && failed[0].reason == 101 && failed[0].destination.bytes[3] == 2);
    agent.recreate_pairs();
    HOLD(agent.invalidate(host(1)) && agent.invalidate(remote) && !agent.invalidate(remote));
    HOLD(agent.removed_count() == 1 && agent.alike_local(host(3)) == 1);
    agent.restart("again", "pass", false);
    HOLD(agent.local_credentials().ufrag == "again" && agent.removed_pairs().empty());
}

static void says_why_a_datagram_is_rejected()
{
    is_ice::agent asks("ufrag", "password of one", 1), responds("peer", "password", 2), other("other", "password", 3);
    asks.set_remote_credentials("peer", "a wrong password");
    HOLD(asks.add_local(host(1)) && asks.add_remote(is_ice::candidate_line(host(2))) == is_ice::added::yes);
    asks.handle_timeout(1s, NONE);
    auto check = *asks.poll_transmit();
    auto why = [&](const is_ice::agent &agent, size_t length) {
        return agent.rejection(IS_ICE_UDP, check.source, check.destination, check.contents.data(), length);
    };
    HOLD(why(responds, check.contents.size()) == is_ice::rejection::local_password);
    HOLD(why(other, check.contents.size()) == is_ice::rejection::local_ufrag);
    HOLD(why(responds, 3) == is_ice::rejection::unparsed);
    HOLD(std::string(is_ice::text_of(is_ice::rejection::local_password)) == is_ice_code_text(IS_ICE_REJECTED_LOCAL_PASSWORD));
    auto line = responds.packet_line(IS_ICE_UDP, check.source, check.destination, check.contents.data(), check.contents.size());
    HOLD(line == "peer: discarded Binding request (request signed with another password than the agent's)"
                 " from 10.0.0.1:5000 at 10.0.0.2:5000");
    responds.set_local_credentials("peer", "a wrong password");
    HOLD(!why(responds, check.contents.size()));
    auto unserved = responds.unserved(IS_ICE_UDP, check.source, check.destination, check.contents.data(), check.contents.size());
    HOLD(unserved == is_ice::unserved::early && is_ice::text_of(*unserved) == std::string(is_ice_code_text(IS_ICE_UNSERVED_EARLY)));
    auto kind = responds.packet_kind(IS_ICE_UDP, check.source, check.destination, check.contents.data(), check.contents.size());
    HOLD(kind == "Binding request (request before the peer's credentials are set)");
    responds.set_remote_credentials("ufrag", "password of one");
    unserved = responds.unserved(IS_ICE_UDP, check.source, check.destination, check.contents.data(), check.contents.size());
    HOLD(unserved == is_ice::unserved::destination && responds.add_local(host(2)));
    HOLD(!responds.unserved(IS_ICE_UDP, check.source, check.destination, check.contents.data(), check.contents.size()));
    HOLD(thrown([&] { responds.rejection(9, check.source, check.destination, "", 0); }).code() == IS_ICE_BAD_ADDRESS);
}

static void says_why_a_pair_was_removed()
{
    is_ice::agent agent("ufrag", "pass", 1);
    HOLD(agent.removed_count() == 0 && agent.removed_pairs().empty() && !agent.removed_at(0));
    agent.set_remote_credentials("peer", "password");
    agent.set_max_pairs(1);
    HOLD(agent.add_local(host(1)) && agent.add_remote("candidate:1 1 udp 1 10.0.0.2 5000 typ host") == is_ice::added::yes);
    HOLD(agent.add_remote(is_ice::candidate_line(host(3))) == is_ice::added::yes && agent.invalidate(host(1)));
    auto removed = agent.removed_pairs();
    HOLD(removed.size() == 2 && agent.removed_count() == 2 && agent.removed_at(1)->priority == removed[1].priority);
    HOLD(removed[0].why() == is_ice::removal::evicted && removed[1].why() == is_ice::removal::invalidated);
    HOLD(removed[0].state == IS_ICE_PAIR_WAITING && removed[0].checks_sent == 0 && removed[0].error == 0);
    HOLD(removed[0].has_path && removed[0].path.source.bytes[3] == 1 && removed[0].path.destination.bytes[3] == 2);
    HOLD(removed[1].path.destination.bytes[3] == 3);
    HOLD(agent.removed_line(0) == "ufrag: removed 10.0.0.1:5000 -> 10.0.0.2:5000 waiting, 0 checks sent, 0 answered: evicted");
    HOLD(!agent.removed_line(2) && agent.event_line(is_ice::state_changed{is_ice::connection_state::checking}) == "ufrag: state Checking");
    auto line = agent.event_line(is_ice::heard{IS_ICE_UDP, host(1).address, host(2).address});
    HOLD(line == "ufrag: heard again 10.0.0.1:5000 -> 10.0.0.2:5000");
}

static void has_stun_messages()
{
    is_ice::stun_transaction id{{1, 2, 3}};
    auto request = is_ice::stun_request(id);
    HOLD(request.size() == IS_ICE_STUN_REQUEST_LENGTH && !is_ice::stun_response(id, request.data(), request.size()));
    auto message = is_ice::stun_read(request.data(), request.size());
    HOLD(message.method == IS_ICE_STUN_BINDING && !is_ice::stun_text(IS_ICE_STUN_SOFTWARE, request.data(), request.size()));
    is_ice::stun_texts texts{};
    texts.software = {0, 4, true};
    auto written = is_ice::stun_write(message, texts, "peer", "");
    HOLD(is_ice::stun_text(IS_ICE_STUN_SOFTWARE, written.data(), written.size()) == "peer");
    HOLD(thrown([] { is_ice::stun_read("media", 5); }).code() == IS_ICE_UNPARSED);
    message.nomination = {258, true};
    written = is_ice::stun_write(message, {}, "", "");
    HOLD(std::string(written.begin() + 20, written.begin() + 28) == std::string("\xc0\1\0\4\0\0\1\2", 8));
    auto number = is_ice::stun_read(written.data(), written.size()).nomination;
    HOLD(number.is_set && number.value == 258);
}

static void passes_codes_on()
{
    HOLD(thrown([] { is_ice::checked(IS_ICE_NO_AGENT); }).code() == IS_ICE_NO_AGENT && is_ice::checked(IS_ICE_NOTHING) == IS_ICE_NOTHING);
    is_ice::agent agent("ufrag", "pass", 1);
    HOLD(is_ice::checked(is_ice_set_lite(agent.get(), true)) == IS_ICE_OK && agent.status().lite);
}

#if __cplusplus >= 202002L
/* A span is passed on as its pointer and its length, whatever it views, and an empty one too. */
static void takes_spans()
{
    is_ice::agent asks("ufrag", "password of one", 1), responds("peer", "password", 2);
    asks.set_remote_credentials("peer", "password");
    responds.set_remote_credentials("ufrag", "password of one");
    HOLD(asks.add_local(host(1)) && responds.add_local(host(2)) && asks.add_remote(is_ice::candidate_line(host(2))) == is_ice::added::yes);
    asks.handle_timeout(1s, NONE);
    auto check = *asks.poll_transmit();
    auto longer = check.contents;
    longer.push_back(0);
    is_ice::bytes all(longer), sent = all.first(check.contents.size());
    HOLD(responds.accepts_message(sent) == is_ice::handled::accepted && responds.accepts_message(all) == is_ice::handled::unparsed);
    HOLD(responds.accepts_packet(IS_ICE_UDP, check.source, check.destination, sent) == is_ice::handled::accepted);
    HOLD(!responds.rejection(IS_ICE_UDP, check.source, check.destination, sent));
    HOLD(responds.handle_packet(1s, IS_ICE_UDP, check.source, check.destination, {}) == is_ice::handled::unparsed);
    HOLD(responds.handle_packet(1s, IS_ICE_UDP, check.source, check.destination, check.contents) == is_ice::handled::accepted);
    HOLD(is_ice::stun_read_strict(sent).has_fingerprint && is_ice::stun_read(sent).method == IS_ICE_STUN_BINDING);
    HOLD(is_ice::stun_username(sent)->text == "peer:ufrag" && is_ice::stun_verify(sent, "password") && !is_ice::stun_verify(sent, "other"));
    HOLD(!is_ice::stun_text(IS_ICE_STUN_SOFTWARE, sent) && thrown([&] { is_ice::stun_read(all); }).code() == IS_ICE_UNPARSED);
    std::array<uint8_t, IS_ICE_STUN_REQUEST_LENGTH> query{};
    auto written = is_ice::stun_request({{1, 2, 3}});
    std::copy(written.begin(), written.end(), query.begin());
    HOLD(is_ice::stun_read(query).method == IS_ICE_STUN_BINDING && !is_ice::stun_response({{1, 2, 3}}, query));
}
#endif

static is_ice::address at(uint8_t last, uint16_t port) { return is_ice::ipv4({10, 0, 0, last}, port); }

/* A STUN client of 10.0.0.1:1000 at 10.0.0.9:3478 learns its mapped address. */
static void has_a_stun_server()
{
    is_ice::servers servers;
    HOLD(!servers.gathering() && !servers.poll_timeout() && !servers.poll_event() && !servers.poll_transmit());
    servers.add_stun(0ns, at(1, 1000), at(9, 3478));
    HOLD(servers.gathering() && servers.poll_timeout() == 0ns);
    servers.handle_timeout(0ns, {});
    auto request = servers.poll_transmit();
    HOLD(request && request->contents.size() == IS_ICE_STUN_REQUEST_LENGTH && request->destination.port == 3478);
    is_ice::stun_message response{};
    response.method = IS_ICE_STUN_BINDING, response.cls = IS_ICE_STUN_SUCCESS, response.mapped = at(77, 7);
    auto data = is_ice::stun_write(response, {}, "", "");
    HOLD(!servers.receive(1ms, IS_ICE_UDP, at(9, 3478), at(1, 1000), data.data(), data.size()));
    auto event = servers.poll_event();
    HOLD(event && event->local.port == 1000 && std::get<is_ice::mapped>(event->what).address.port == 7);
    HOLD(is_ice::servers_event_line(*event) == "server 10.0.0.9:3478 udp 10.0.0.1:1000: mapped 10.0.0.77:7");
    servers.lose(IS_ICE_UDP, at(1, 1000));
    auto gone = servers.poll_event();
    HOLD(std::get<is_ice::ended>(gone->what).why == is_ice::ending::lost && !std::get<is_ice::ended>(gone->what).code);
}

/* A TURN client without credentials gets the relayed address 10.0.0.9:5000, and a peer its data. */
static void has_a_turn_server()
{
    is_ice::servers servers;
    servers.add_turn(0ns, IS_ICE_UDP, at(1, 1000), at(9, 3478), "", "");
    servers.handle_timeout(0ns, {});
    HOLD(servers.poll_transmit().has_value());
    is_ice::stun_message response{};
    response.method = IS_ICE_STUN_ALLOCATE, response.cls = IS_ICE_STUN_SUCCESS;
    response.lifetime = {600, true}, response.relayed = at(9, 5000), response.mapped = at(77, 7);
    auto data = is_ice::stun_write(response, {}, "", "");
    HOLD(!servers.receive(1ms, IS_ICE_UDP, at(9, 3478), at(1, 1000), data.data(), data.size()));
    auto event = servers.poll_event();
    auto made = std::get<is_ice::allocated>(event->what);
    HOLD(made.relayed.port == 5000 && made.mapped->port == 7);
    HOLD(is_ice::servers_event_line(*event).find(": allocated 10.0.0.9:5000, mapped 10.0.0.77:7") != std::string::npos);
    servers.permit(2ms, at(2, 2000));
    auto wrapped = servers.outgoing(3ms, at(9, 5000), at(2, 2000), "\x80", 1, {});
    HOLD(std::get<is_ice::packet>(wrapped).destination.port == 3478 && std::get<is_ice::packet>(wrapped).contents.size() == 48);
    HOLD(std::holds_alternative<is_ice::as_it_is>(servers.outgoing(3ms, at(1, 1000), at(2, 2000), "\x80", 1, {})));
    auto direct = servers.receive(4ms, IS_ICE_UDP, at(2, 2000), at(1, 1000), "\x80x", 2);
    HOLD(direct && direct->length == 2 && direct->data[1] == 'x' && direct->source.port == 2000);
    servers.probe(5ms);
    servers.close(6ms);
    HOLD(servers.poll_timeout().has_value());
    servers.lose(IS_ICE_UDP, at(1, 1000));
    auto dropped = servers.outgoing(7ms, at(9, 5000), at(2, 2000), "\x80", 1, {});
    HOLD(std::holds_alternative<is_ice::no_relay>(dropped));
}

static void owns_its_servers()
{
    is_ice::servers first;
    is_ice::servers second = std::move(first);
    HOLD(thrown([&] { first.gathering(); }).code() == IS_ICE_NO_SERVERS);
    HOLD(thrown([&] { second.add_stun(0ns, {}, at(9, 1)); }).code() == IS_ICE_BAD_ADDRESS);
    std::string many(509, 'u');
    auto turn = [&](std::string_view name) { second.add_turn(0ns, IS_ICE_TCP, at(1, 1), at(9, 1), name, "pass", 4); };
    HOLD(thrown([&] { turn(many); }).code() == IS_ICE_CREDENTIALS_TOO_LONG);
    turn("user");
    HOLD(second.gathering());
}

static void reads_urls_and_frames()
{
    auto url = is_ice::server_url_of("turns:turn.example.org:443");
    HOLD(url.host == "turn.example.org" && url.port == 443 && url.scheme == IS_ICE_TURN && url.protocol == IS_ICE_TLS);
    HOLD(is_ice::server_url_of("stun:[2001:db8::1]").host == "2001:db8::1");
    HOLD(thrown([] { is_ice::server_url_of("http://turn.example.org"); }).code() == IS_ICE_BAD_URL);
    HOLD(is_ice::frame_length("\x40\0\0\x05", 4) == 12 && !is_ice::frame_length("\x40", 1));
    HOLD(thrown([] { (void)is_ice::frame_length("\xff\0\0\0", 4); }).code() == IS_ICE_UNPARSED);
}

int main()
{
    owns_an_agent();
    reports_errors();
    reads_and_writes_texts();
    reads_what_the_library_reads();
    settings_are_kept();
    has_a_session();
    says_why_a_datagram_is_rejected();
    says_why_a_pair_was_removed();
    has_stun_messages();
    passes_codes_on();
    has_a_stun_server();
    has_a_turn_server();
    owns_its_servers();
    reads_urls_and_frames();
#if __cplusplus >= 202002L
    takes_spans();
#endif
}
