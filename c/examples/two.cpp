// Two ICE agents in one process find a path. No sockets: packets are handed over. It is two.c in C++17, over is_ice.hpp.
#include "is_ice.hpp"
#include <algorithm>
#include <cstdio>
#include <exception>
#include <random>

using namespace std::chrono_literals;

// std::random_device reads the system's random source on Linux.
template <class Bytes> static Bytes randomized()
{
    static std::random_device source;
    Bytes bytes{};
    std::generate(bytes.begin(), bytes.end(), [] { return static_cast<uint8_t>(source()); });
    return bytes;
}

static is_ice::agent made()
{
    auto number = randomized<std::array<uint8_t, 8>>();
    uint64_t tie_breaker;
    std::memcpy(&tie_breaker, number.data(), sizeof tie_breaker);
    return is_ice::agent(is_ice::make_credentials(randomized<is_ice::credentials_random>()), tie_breaker);
}

static void connect()
{
    std::array<is_ice::agent, 2> agents{made(), made()};
    std::array<bool, 2> found{};

    agents[0].set_controlling(true); // the side that made the offer
    for (size_t i = 0; i < 2; i++) { // signaling: credentials first
        auto [ufrag, pass] = agents[i].local_credentials();
        agents[1 - i].set_remote_credentials(ufrag, pass);
    }
    for (size_t i = 0; i < 2; i++) { // signaling: then each candidate
        is_ice::candidate host{};
        host.address = is_ice::ipv4({10, 0, 0, static_cast<uint8_t>(i + 1)}, 5000);
        if (auto line = agents[i].add_local(host)) agents[1 - i].add_remote(*line);
    }
    for (is_ice::nanoseconds now = 0s; !found[0] || !found[1]; now += 50ms)
        for (size_t i = 0; i < 2; i++) {
            agents[i].handle_timeout(now, randomized<is_ice::timeout_random>());
            while (auto packet = agents[i].poll_transmit())
                agents[1 - i].handle_packet(now, packet->protocol, packet->source, packet->destination,
                                            packet->contents.data(), packet->contents.size());
            while (auto event = agents[i].poll_event())
                if (auto path = std::get_if<is_ice::nominated_send>(&*event)) {
                    found[i] = true;
                    std::printf("10.0.0.%d:%d -> 10.0.0.%d:%d\n", path->source.bytes[3], path->source.port,
                                path->destination.bytes[3], path->destination.port);
                }
        }
}

int main()
{
    try {
        connect();
    } catch (const std::exception &why) {
        std::fprintf(stderr, "%s\n", why.what());
        return 1;
    }
}
