/* One agent, step by step: it receives a Binding request of 100 bytes with MESSAGE-INTEGRITY, and the program prints the
 * response. On the way it shows an error of each kind. The status is 0, or the program names the first unexpected result. */
#include "is_ice.h"
#include <stdio.h>
#include <stdlib.h>
#include <string.h>

static const char request[] =
    "000100502112a4426a756331357578556e6747630006000970394b413a53514174000000c05700040001000a802a00086eeec6e97d18395c"
    "00250000002400046e7f1eff000800145d0425a0207ab1e054102299aaf9839ca076c6d580280004360e219f";
static const char response[] =
    "0101002c2112a4426a756331357578556e67476300200008000126c22b12a440000800144465f0405413b525dd2d5730e3e8c803daecef75"
    "802800044a6e4696";

static const is_ice_address own = {4, {10, 0, 0, 1}, 1000, 0, 0}, peer = {4, {10, 0, 0, 2}, 2000, 0, 0};

static const uint8_t *text(const char *chars)
{
    return (const uint8_t *)chars;
}

static void unhex(const char *digits, uint8_t *out, size_t length)
{
    for (size_t i = 0; i < length; i++) {
        const char byte[3] = {digits[2 * i], digits[2 * i + 1], '\0'};
        out[i] = (uint8_t)strtoul(byte, NULL, 16);
    }
}

static void want(const char *what, int32_t code, int32_t wanted)
{
    if (code == wanted) return;
    fprintf(stderr, "%s: returned %s, expected %s\n", what, is_ice_code_text(code), is_ice_code_text(wanted));
    exit(1);
}

static void hold(const char *what, bool holds)
{
    if (holds) return;
    fprintf(stderr, "%s does not hold\n", what);
    exit(1);
}

/* Creates the agent that the request is addressed to. */
static void make(is_ice_agent *agent)
{
    uint64_t at = 7;
    want("next timeout of no agent", is_ice_poll_timeout(agent, &at), IS_ICE_NO_AGENT);
    want("a password that is not UTF-8", is_ice_agent_new(agent, text("p9KA"), 4, text("\xff"), 1, 1), IS_ICE_NOT_UTF8);
    want("new", is_ice_agent_new(agent, text("p9KA"), 4, text("xJcE9AQAR7kczUDVOXRUCl"), 22, 1), IS_ICE_OK);
    want("new again", is_ice_agent_new(agent, text("p9KA"), 4, text("x"), 1, 1), IS_ICE_HAS_AGENT);
    want("remote credentials", is_ice_set_remote_credentials(agent, text("SQAt"), 4, text("x"), 1), IS_ICE_OK);
    want("no retransmits", is_ice_set_max_retransmits(agent, 0), IS_ICE_BAD_LIMIT);
    want("a short MTU", is_ice_set_mtu(agent, 587, 1280), IS_ICE_MTU_TOO_SMALL);
    want("too few random bytes", is_ice_handle_timeout(agent, 0, text("x"), 1), IS_ICE_TOO_FEW_RANDOM_BYTES);
    want("next timeout before the session", is_ice_poll_timeout(agent, &at), IS_ICE_NOTHING);
    hold("the time is unchanged", at == 7);
}

/* Adds its candidate, and explains the errors of others. */
static void add(is_ice_agent *agent)
{
    uint8_t why[128];
    size_t length = 0, index = 7;
    is_ice_candidate host = {own, own, IS_ICE_HOST, IS_ICE_UDP, 0}, wrong = {own, own, IS_ICE_HOST, 9, 0};
    is_ice_candidate zero = {{4, {0}, 1, 0, 0}, own, IS_ICE_HOST, IS_ICE_UDP, 0};
    want("protocol 9", is_ice_add_local(agent, &wrong, &index), IS_ICE_BAD_ADDRESS);
    hold("the index is unchanged", index == 7);
    want("host", is_ice_add_local(agent, &host, &index), IS_ICE_OK);
    hold("it is the first one", index == 0);
    want("host again", is_ice_add_local(agent, &host, &index), IS_ICE_NOTHING);
    hold("it equals the first one", index == 0);
    want("host 0.0.0.0", is_ice_add_local(agent, &zero, &index), IS_ICE_BAD_CANDIDATE);
    want("why", is_ice_candidate_refusal(&zero, why, sizeof why, &length), IS_ICE_OK);
    hold("there is an explanation", length > 0 && length <= sizeof why);
    want("half a candidate", is_ice_add_remote(agent, text("candidate:1 1"), 13, &index), IS_ICE_BAD_CANDIDATE);
    want("why, into a short buffer", is_ice_line_refusal(text("candidate:1 1"), 13, why, 1, &length), IS_ICE_BUFFER_TOO_SHORT);
    want("why", is_ice_line_refusal(text("candidate:1 1"), 13, why, sizeof why, &length), IS_ICE_OK);
    hold("the explanation begins with the text", length > 13 && memcmp(why, "candidate:1 1", 13) == 0);
}

/* Passes the request to the agent: truncated, forged and intact. */
static void take(is_ice_agent *agent)
{
    uint8_t bytes[100], buffer[64];
    is_ice_packet packet;
    unhex(request, bytes, sizeof bytes);
    want("99 bytes", is_ice_handle_packet(agent, 0, IS_ICE_UDP, &peer, &own, bytes, 99), IS_ICE_UNPARSED);
    bytes[67] ^= 1;
    want("a forged request", is_ice_handle_packet(agent, 0, IS_ICE_UDP, &peer, &own, bytes, 100), IS_ICE_NOTHING);
    want("is it accepted", is_ice_accepts_packet(agent, IS_ICE_UDP, &peer, &own, bytes, 100), IS_ICE_NOTHING);
    want("why not", is_ice_rejection(agent, IS_ICE_UDP, &peer, &own, bytes, 100), IS_ICE_REJECTED_LOCAL_PASSWORD);
    bytes[67] ^= 1;
    want("is it accepted", is_ice_accepts_packet(agent, IS_ICE_UDP, &peer, &own, bytes, 100), IS_ICE_OK);
    want("why not", is_ice_rejection(agent, IS_ICE_UDP, &peer, &own, bytes, 100), IS_ICE_OK);
    want("transmit before", is_ice_poll_transmit(agent, buffer, sizeof buffer, &packet), IS_ICE_NOTHING);
    want("the request", is_ice_handle_packet(agent, 0, IS_ICE_UDP, &peer, &own, bytes, 100), IS_ICE_OK);
}

/* Polls the response and the event. */
static void respond(is_ice_agent *agent)
{
    uint8_t wanted[64], buffer[64];
    is_ice_packet packet;
    is_ice_event event;
    unhex(response, wanted, sizeof wanted);
    want("a short buffer", is_ice_poll_transmit(agent, buffer, 63, &packet), IS_ICE_BUFFER_TOO_SHORT);
    hold("the required length is returned", packet.length == 64);
    want("transmit", is_ice_poll_transmit(agent, buffer, sizeof buffer, &packet), IS_ICE_OK);
    hold("it is sent back", packet.protocol == IS_ICE_UDP && packet.source.port == own.port && packet.destination.port == peer.port &&
                             memcmp(packet.destination.bytes, peer.bytes, 4) == 0);
    hold("the response has the known bytes", packet.length == 64 && memcmp(buffer, wanted, 64) == 0);
    for (size_t i = 0; i < packet.length; i++) printf("%02x", buffer[i]);
    printf("\n");
    want("transmit again", is_ice_poll_transmit(agent, buffer, sizeof buffer, &packet), IS_ICE_NOTHING);
    want("event", is_ice_poll_event(agent, &event), IS_ICE_OK);
    hold("the source is reported", event.kind == IS_ICE_DISCOVERED_RECV && event.source.port == peer.port);
    want("event again", is_ice_poll_event(agent, &event), IS_ICE_NOTHING);
}

int main(void)
{
    is_ice_agent agent = {false, NULL};
    hold("header and library agree", is_ice_version() == IS_ICE_VERSION);
    make(&agent);
    add(&agent);
    take(&agent);
    respond(&agent);
    is_ice_agent_free(&agent);
    hold("nothing is held", !agent.is_held);
    is_ice_agent_free(&agent);
    return 0;
}
