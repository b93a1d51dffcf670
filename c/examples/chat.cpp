// A chat over UDP. Run it on two machines, paste the line `signal ..` of each into the other, and type. It makes an ICE restart if
// the peer is lost, and says why, if the network changes, and at /restart: paste the new lines then. /quit ends it. With -t it also
// connects two machines behind NATs that no other path gets through. Clock, sockets, servers and signaling are those of peer_net.c,
// peer_servers.c and peer_signal.c.
//
// usage: chat controlling|controlled [-l] [-s URL].. [-t URL].. [-u USER] [-w PASSWORD]
//   -l   at 127.0.0.1 only
//   -s   a STUN server, as stun:stun.example.org
//   -t   a TURN server, as turn:turn.example.org or turn:192.0.2.1:3478?transport=tcp, with this user name and password,
//        or turns:turn.example.org, over TLS, if it is built with -DPEER_TLS -lssl -lcrypto
#include "is_ice.hpp"
#include "peer.h"
#include <algorithm>
#include <iostream>
#include <unistd.h>

static const char *const states[] = {"New", "Checking", "Connected", "Completed", "Disconnected"};
static net sockets;
static servers relays;
static is_ice_counts counts;
static uint64_t signal_by; // the signal is printed once the servers have answered, and by then at the latest; 0: it was
static const char *only;   // the one address at which to bind, or null: each of the interfaces
static void print(void *, const char *line) { std::cout << line << std::endl; }
static const is_ice_log lines = {print, nullptr};

static constexpr is_ice::nanoseconds look(SECOND); // for other addresses
static is_ice::nanoseconds now() { return is_ice::nanoseconds(net_now()); }
static bool ok(int32_t code) { return is_ice::checked(code) == IS_ICE_OK; }

template <class Bytes> static Bytes randomized()
{
    Bytes bytes{};
    if (!net_random(bytes.data(), sizeof bytes)) throw std::runtime_error("no random bytes");
    return bytes;
}

static void report(is_ice::agent &agent)
{
    char from[IS_ICE_ADDRESS_TEXT], to[IS_ICE_ADDRESS_TEXT];
    while (auto event = agent.poll_event()) {
        auto stats = agent.stats();
        if (auto path = std::get_if<is_ice::nominated_send>(&*event))
            std::cout << "path " << is_ice_address_text(&path->source, from) << " -> " << is_ice_address_text(&path->destination, to)
                      << std::endl;
        if (std::holds_alternative<is_ice::silent>(*event)) print(nullptr, "silent no packet for 2 s");
        if (std::holds_alternative<is_ice::heard>(*event)) print(nullptr, "again a packet came");
        auto changed = std::get_if<is_ice::state_changed>(&*event);
        if (!changed) continue;
        std::cout << "state " << states[static_cast<int>(changed->state)] << ": " << stats.bind_success_recv << " of "
                  << stats.bind_request_sent << " checks answered" << std::endl;
        if (changed->state != is_ice::connection_state::disconnected) continue;
        is_ice_log_removed(&lines, agent.get(), 0); // those since the last restart, and what could not be sent
        is_ice_log_failed_sends(&lines, agent.get());
        ok(is_ice_servers_probe(&relays.clients, net_now()));              // a relayed address may be gone
        if (stats.nomination_send_count > 0) ok(signal_restart(agent.get())); // else the peer may not have this side's line yet
    }
}

static void gathered(is_ice::agent &agent) // what the servers say; a candidate that comes late prints the signal again
{
    is_ice_gathered got;
    uint64_t time = net_now();
    while (ok(is_ice_gather_event(&relays.gather, time, &got)))
        if (ok(got.failed) && got.count > 0 && signal_by == 0) signal_by = time + SECOND;
    if (signal_by == 0 || (signal_by > time && ok(is_ice_servers_gathering(&relays.clients)))) return;
    ok(signal_print(agent.get()));
    signal_by = 0;
}

static void take(
    is_ice::agent &agent, uint8_t protocol, const is_ice::address &from, const is_ice::address &to, uint8_t *bytes, size_t length)
{
    is_ice_datagram media;
    int32_t code = is_ice_gather_packet(&relays.gather, net_now(), protocol, &from, &to, bytes, length, &media);
    if (code != IS_ICE_UNPARSED) ok(code);
    else if (agent.takes_media_from(now(), media.source))
        std::cout << "heard " << std::string_view(net_printable(bytes + media.offset, media.length), media.length) << std::endl;
}

static void take_from_stream(void *agent, const is_ice_address *from, const is_ice_address *to, uint8_t *bytes, size_t length)
{
    take(*static_cast<is_ice::agent *>(agent), IS_ICE_TCP, *from, *to, bytes, length);
}

static void receive(is_ice::agent &agent, size_t i)
{
    uint8_t bytes[1600];
    is_ice::address from{};
    ssize_t got = net_receive(&sockets, i, bytes, sizeof bytes, &from);
    if (got >= 0) take(agent, IS_ICE_UDP, from, sockets.addresses[i], bytes, static_cast<size_t>(got));
}

static bool take_line(is_ice::agent &agent) // false: it was the last one
{
    char bytes[4096];
    std::array<uint8_t, sizeof bytes + IS_ICE_WRAPPING_LENGTH> buffer;
    is_ice_packet packet;
    if (!net_line(bytes, sizeof bytes)) return false;
    std::string_view line = bytes;
    auto random = randomized<is_ice::servers_random>();
    auto text = reinterpret_cast<const uint8_t *>(bytes);
    if (line == "/quit") return false;
    if (line.rfind("signal ", 0) == 0) ok(signal_take(&relays.gather, &bytes[7])); // makes a restart if the peer did
    else if (line == "/restart") ok(signal_restart(agent.get()));
    else if (ok(is_ice_gather_media(&relays.gather, net_now(), random.data(), text, line.size(), buffer.data(), buffer.size(), &packet)))
        net_send_packet(&sockets, &packet, buffer.data());
    else print(nullptr, "error there is no path");
    return true;
}

static void send_all(is_ice::agent &agent)
{
    std::array<uint8_t, IS_ICE_GATHER_BUFFER> buffer;
    is_ice_packet packet;
    auto random = [] { return randomized<is_ice::servers_random>(); };
    while (ok(is_ice_gather_transmit(&relays.gather, net_now(), random().data(), buffer.data(), buffer.size(), &packet)))
        if (!net_send_packet(&sockets, &packet, buffer.data()))
            agent.send_failed(packet.protocol, packet.source, packet.destination, static_cast<uint32_t>(sockets.lost_why));
}

static bool read_options(int argc, char **argv)
{
    const char *why = "usage: chat controlling|controlled [-l] [-s URL].. [-t URL].. [-u USER] [-w PASSWORD]";
    bool is_good = argc > 1;
    for (int option; is_good && (option = getopt(argc - 1, argv + 1, "ls:t:u:w:")) != -1;) {
        if (option == 's' || option == 't') is_good = servers_add(&relays, optarg, &why);
        else if (option == 'u') relays.username = optarg;
        else if (option == 'w') relays.password = optarg;
        else is_good = option == 'l', only = "127.0.0.1";
    }
    if (!is_good) std::cerr << "chat: " << why << std::endl;
    return is_good;
}

static bool turn(is_ice::agent &agent, is_ice::nanoseconds &timeout) // one iteration of the loop; false: the chat is over
{
    bool ready[NET_SOCKETS + 1];
    uint64_t time = net_now();
    if (net_move(&sockets, time, only) && ok(signal_renew(agent.get(), &sockets)) && ok(servers_bind(&relays, &sockets)))
        signal_by = time + 5 * SECOND;
    if (now() >= timeout)
        ok(is_ice_gather_timeout(&relays.gather, time, randomized<std::array<uint8_t, IS_ICE_GATHER_RANDOM>>().data()));
    gathered(agent);
    send_all(agent);
    report(agent);
    uint64_t at = IS_ICE_NEVER;
    ok(is_ice_gather_poll_timeout(&relays.gather, &at));
    timeout = std::min(is_ice::duration(at), now() + look);
    bool goes_on = net_wait(&sockets, true, static_cast<uint64_t>(timeout.count()), ready);
    for (size_t i = 0; i < sockets.count; i++)
        if (ready[i]) receive(agent, i);
    servers_read(&relays, take_from_stream, &agent);
    return ready[sockets.count] ? take_line(agent) : goes_on;
}

int main(int argc, char **argv)
{
    if (!read_options(argc, argv)) return 1;
    is_ice::agent agent(is_ice::make_credentials(randomized<is_ice::credentials_random>()), randomized<std::array<uint64_t, 1>>()[0]);
    ok(servers_begin(&relays, agent.get(), &sockets));
    relays.gather.log = &lines, relays.gather.counts = &counts; // why a datagram gets no response, if it gets none
    auto settings = agent.settings();
    settings.consent_timeout = 5 * SECOND, settings.strict_consent = true; // a lost peer is noticed after 5 s, and not after 30 s,
    agent.set_settings(settings);
    agent.set_silence(is_ice::nanoseconds(2 * SECOND));
    agent.set_max_rto(is_ice::nanoseconds(SECOND)); // as the path is checked each second
    agent.set_controlling(std::string_view(argv[1]) == "controlling");
    is_ice::nanoseconds timeout{};
    for (bool goes_on = true; goes_on;) try {
            goes_on = turn(agent, timeout);
        } catch (const is_ice::error &error) { // the agent is as it was, and the chat goes on
            std::cout << "error " << error.what() << std::endl;
        }
    servers_end(&relays, &sockets);
}
