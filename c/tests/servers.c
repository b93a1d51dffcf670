/* Tests the calls on STUN and TURN servers, in simulated time: what is sent, what is taken, errors, and what stays unchanged. */
#include "servers_story.h"

static const is_ice_address other_local = {4, {10, 0, 0, 1}, 1001, 0, 0}, nowhere = {5, {0}, 1, 0, 0};

/* ---- without servers, and without clients */

static void there_may_be_none(void)
{
    is_ice_servers servers = {false, NULL};
    is_ice_packet packet;
    is_ice_datagram datagram;
    is_ice_server_event event;
    uint8_t buffer[100];
    uint64_t at = 5;
    is_ice_servers_free(NULL);
    is_ice_servers_free(&servers);
    TOUCH(packet), TOUCH(datagram), TOUCH(event), TOUCH(buffer);
    HOLD(is_ice_servers_add_stun(&servers, 1, &local, &server) == IS_ICE_NO_SERVERS);
    HOLD(is_ice_servers_add_turn(&servers, 1, IS_ICE_UDP, &local, &server, 0, 9, TEXT("u"), TEXT("p")) == IS_ICE_NO_SERVERS);
    HOLD(is_ice_servers_receive(&servers, 1, IS_ICE_UDP, &server, &local, TEXT("media"), &datagram) == IS_ICE_NO_SERVERS);
    HOLD(is_ice_servers_outgoing(&servers, 1, &local, &peer, TEXT("media"), random_bytes, 12, buffer, sizeof buffer, &packet)
         == IS_ICE_NO_SERVERS);
    HOLD(is_ice_servers_permit(&servers, 1, &peer) == IS_ICE_NO_SERVERS && is_ice_servers_probe(&servers, 1) == IS_ICE_NO_SERVERS);
    HOLD(is_ice_servers_close(&servers, 1) == IS_ICE_NO_SERVERS && is_ice_servers_lose(&servers, IS_ICE_UDP, &local) == IS_ICE_NO_SERVERS);
    HOLD(is_ice_servers_handle_timeout(&servers, 1, random_bytes, 12) == IS_ICE_NO_SERVERS);
    HOLD(is_ice_servers_poll_timeout(&servers, &at) == IS_ICE_NO_SERVERS && at == 5);
    HOLD(is_ice_servers_poll_transmit(&servers, buffer, sizeof buffer, &packet) == IS_ICE_NO_SERVERS);
    HOLD(is_ice_servers_poll_event(&servers, &event) == IS_ICE_NO_SERVERS);
    HOLD(is_ice_servers_gathering(&servers) == IS_ICE_NO_SERVERS);
    UNCHANGED(packet), UNCHANGED(datagram), UNCHANGED(event), UNCHANGED(buffer);
    HOLD(is_ice_servers_new(&servers) == IS_ICE_OK && is_ice_servers_new(&servers) == IS_ICE_HAS_SERVERS);
    HOLD(is_ice_servers_poll_timeout(&servers, &at) == IS_ICE_NOTHING && at == 5 && is_ice_servers_gathering(&servers) == IS_ICE_NOTHING);
    HOLD(is_ice_servers_poll_transmit(&servers, buffer, sizeof buffer, &packet) == IS_ICE_NOTHING);
    HOLD(is_ice_servers_poll_event(&servers, &event) == IS_ICE_NOTHING && is_ice_servers_close(&servers, 1) == IS_ICE_OK);
    UNCHANGED(packet), UNCHANGED(event), UNCHANGED(buffer);
    is_ice_servers_free(&servers);
    HOLD(is_ice_servers_new(&servers) == IS_ICE_OK);
    is_ice_servers_free(&servers);
}

static void refuses_bad_arguments(void)
{
    struct story s;
    is_ice_packet packet;
    is_ice_datagram datagram;
    uint8_t buffer[100], name[1000];
    is_ice_servers *it = &s.servers;
    begin(&s);
    TOUCH(packet), TOUCH(datagram), TOUCH(buffer);
    memset(name, 'n', sizeof name);
    HOLD(is_ice_servers_add_stun(it, 1, &nowhere, &server) == IS_ICE_BAD_ADDRESS);
    HOLD(is_ice_servers_add_stun(it, 1, &local, &nowhere) == IS_ICE_BAD_ADDRESS);
    HOLD(is_ice_servers_add_turn(it, 1, IS_ICE_UDP, &nowhere, &server, 0, 9, TEXT("u"), TEXT("p")) == IS_ICE_BAD_ADDRESS);
    HOLD(is_ice_servers_add_turn(it, 1, IS_ICE_UDP, &local, &nowhere, 0, 9, TEXT("u"), TEXT("p")) == IS_ICE_BAD_ADDRESS);
    HOLD(is_ice_servers_add_turn(it, 1, IS_ICE_TLS, &local, &server, 0, 9, TEXT("u"), TEXT("p")) == IS_ICE_BAD_ADDRESS);
    HOLD(is_ice_servers_add_turn(it, 1, IS_ICE_UDP, &local, &server, 5, 9, TEXT("u"), TEXT("p")) == IS_ICE_BAD_ADDRESS);
    HOLD(is_ice_servers_add_turn(it, 1, IS_ICE_UDP, &local, &server, 0, 9, TEXT("\xff"), TEXT("p")) == IS_ICE_NOT_UTF8);
    HOLD(is_ice_servers_add_turn(it, 1, IS_ICE_UDP, &local, &server, 0, 9, TEXT("u"), TEXT("\xff")) == IS_ICE_NOT_UTF8);
    HOLD(is_ice_servers_add_turn(it, 1, IS_ICE_UDP, &local, &server, 0, 9, name, 509, TEXT("p")) == IS_ICE_CREDENTIALS_TOO_LONG);
    HOLD(is_ice_servers_add_turn(it, 1, IS_ICE_UDP, &local, &server, 0, 9, TEXT("u"), name, 764) == IS_ICE_CREDENTIALS_TOO_LONG);
    HOLD(is_ice_servers_receive(it, 1, IS_ICE_TLS, &server, &local, TEXT("media"), &datagram) == IS_ICE_BAD_ADDRESS);
    HOLD(is_ice_servers_receive(it, 1, IS_ICE_UDP, &nowhere, &local, TEXT("media"), &datagram) == IS_ICE_BAD_ADDRESS);
    HOLD(is_ice_servers_outgoing(it, 1, &nowhere, &peer, TEXT("media"), random_bytes, 12, buffer, sizeof buffer, &packet)
         == IS_ICE_BAD_ADDRESS);
    HOLD(is_ice_servers_outgoing(it, 1, &local, &peer, TEXT("media"), random_bytes, 11, buffer, sizeof buffer, &packet)
         == IS_ICE_TOO_FEW_RANDOM_BYTES);
    HOLD(is_ice_servers_permit(it, 1, &nowhere) == IS_ICE_BAD_ADDRESS);
    HOLD(is_ice_servers_lose(it, IS_ICE_UDP, &nowhere) == IS_ICE_BAD_ADDRESS);
    HOLD(is_ice_servers_lose(it, IS_ICE_TLS, &local) == IS_ICE_BAD_ADDRESS && is_ice_servers_lose(it, IS_ICE_TCP, &local) == IS_ICE_OK);
    HOLD(is_ice_servers_handle_timeout(it, 1, random_bytes, 11) == IS_ICE_TOO_FEW_RANDOM_BYTES);
    UNCHANGED(packet), UNCHANGED(datagram), UNCHANGED(buffer);
    HOLD(is_ice_servers_gathering(it) == IS_ICE_NOTHING);
    HOLD(is_ice_servers_add_turn(it, 1, IS_ICE_UDP, &local, &server, 6, 9, name, 508, name, 763) == IS_ICE_OK);
    HOLD(is_ice_servers_gathering(it) == IS_ICE_OK);
    is_ice_servers_free(it);
}

/* ---- STUN */

static void maps_a_socket(void)
{
    struct story s;
    uint8_t bytes[512], first[12];
    char line[200];
    size_t length = 0;
    is_ice_datagram datagram;
    begin(&s);
    HOLD(is_ice_servers_add_stun(&s.servers, s.now, &local, &server) == IS_ICE_OK);
    HOLD(is_ice_servers_add_stun(&s.servers, s.now, &local, &server) == IS_ICE_OK); /* not twice: see the event below */
    HOLD(is_ice_servers_gathering(&s.servers) == IS_ICE_OK);
    sends_request(&s, IS_ICE_STUN_BINDING, IS_ICE_UDP);
    memcpy(first, s.message.id.bytes, sizeof first);
    uint64_t begun = s.now;
    sends_request(&s, IS_ICE_STUN_BINDING, IS_ICE_UDP);
    HOLD(s.now > begun && memcmp(first, s.message.id.bytes, sizeof first) == 0); /* sent again (RFC 8489, section 6.2.1) */
    size_t size = response(&s, 0, false, bytes, sizeof bytes);
    HOLD(is_ice_servers_receive(&s.servers, s.now, IS_ICE_UDP, &peer, &local, bytes, size, &datagram) == IS_ICE_OK); /* from another */
    HOLD(is_ice_servers_receive(&s.servers, s.now, IS_ICE_UDP, &server, &other_local, bytes, size, &datagram) == IS_ICE_OK);
    HOLD(is_ice_servers_gathering(&s.servers) == IS_ICE_OK);
    responds(&s, 0, false);
    is_ice_server_event event = event_of(&s);
    HOLD(event.kind == IS_ICE_SERVER_MAPPED && is_ice_same_address(&event.mapped, &mapped) && is_ice_same_address(&event.local, &local));
    HOLD(is_ice_same_address(&event.server, &server) && event.protocol == IS_ICE_UDP);
    HOLD(is_ice_servers_gathering(&s.servers) == IS_ICE_NOTHING && is_ice_servers_poll_event(&s.servers, &event) == IS_ICE_NOTHING);
    TOUCH(line);
    HOLD(is_ice_servers_event_line(&event, (uint8_t *)line, 3, &length) == IS_ICE_BUFFER_TOO_SHORT && length > 3 && length < sizeof line);
    UNCHANGED(line);
    HOLD(is_ice_servers_event_line(&event, (uint8_t *)line, sizeof line, &length) == IS_ICE_OK && (uint8_t)line[length] == UNTOUCHED);
    line[length] = '\0';
    HOLD(strstr(line, "192.0.2.1:3478") && strstr(line, "203.0.113.7:61000"));
    event.kind = 0;
    HOLD(is_ice_servers_event_line(&event, (uint8_t *)line, sizeof line, &length) == IS_ICE_BAD_ADDRESS);
    is_ice_servers_free(&s.servers);
}

static void fails_with_the_code_of_the_server(void)
{
    struct story s;
    begin(&s);
    HOLD(is_ice_servers_add_stun(&s.servers, s.now, &local, &server) == IS_ICE_OK);
    sends_request(&s, IS_ICE_STUN_BINDING, IS_ICE_UDP);
    responds(&s, 400, false);
    is_ice_server_event event = event_of(&s);
    HOLD(event.kind == IS_ICE_SERVER_ENDED && event.why == IS_ICE_ENDED_FAILED && event.code == 400);
    HOLD(is_ice_servers_gathering(&s.servers) == IS_ICE_NOTHING && !sends(&s));
    is_ice_servers_free(&s.servers);
}

/* ---- TURN */

static void allocates_with_credentials(void)
{
    struct story s;
    uint8_t bytes[512];
    is_ice_datagram datagram;
    begin(&s);
    HOLD(is_ice_servers_add_turn(&s.servers, s.now, IS_ICE_UDP, &local, &server, 0, 9, TEXT("user"), TEXT("pass")) == IS_ICE_OK);
    sends_request(&s, IS_ICE_STUN_ALLOCATE, IS_ICE_UDP);
    HOLD(s.message.requested_transport == IS_ICE_STUN_UDP && s.message.requested_family == 0 && !s.message.has_integrity);
    responds(&s, 401, false);
    sends_request(&s, IS_ICE_STUN_ALLOCATE, IS_ICE_UDP);
    HOLD(is_ice_stun_verify(s.sent, s.packet.length, key, sizeof key) == IS_ICE_OK);
    size_t size = response(&s, 0, true, bytes, sizeof bytes);
    bytes[size - 9] ^= 1; /* in MESSAGE-INTEGRITY, before FINGERPRINT */
    HOLD(is_ice_servers_receive(&s.servers, s.now, IS_ICE_UDP, &server, &local, bytes, size, &datagram) == IS_ICE_NOTHING);
    HOLD(is_ice_servers_gathering(&s.servers) == IS_ICE_OK);
    responds(&s, 0, true);
    is_ice_server_event event = event_of(&s);
    HOLD(event.kind == IS_ICE_SERVER_ALLOCATED && is_ice_same_address(&event.relayed, &relayed) && event.has_mapped);
    HOLD(is_ice_same_address(&event.mapped, &mapped) && is_ice_servers_gathering(&s.servers) == IS_ICE_NOTHING);
    is_ice_servers_free(&s.servers);
}

/* The server responds 401 to the signed request, too: nobody signed that, so it is a hint for the log. */
static void says_that_the_password_is_wrong(void)
{
    struct story s;
    is_ice_server_event event;
    begin(&s);
    HOLD(is_ice_servers_add_turn(&s.servers, s.now, IS_ICE_UDP, &local, &server, 0, 9, TEXT("user"), TEXT("other")) == IS_ICE_OK);
    sends_request(&s, IS_ICE_STUN_ALLOCATE, IS_ICE_UDP);
    responds(&s, 401, false);
    sends_request(&s, IS_ICE_STUN_ALLOCATE, IS_ICE_UDP);
    HOLD(is_ice_stun_verify(s.sent, s.packet.length, key, sizeof key) == IS_ICE_NOTHING);
    responds(&s, 401, false);
    while (is_ice_servers_gathering(&s.servers) == IS_ICE_OK && s.now < 100 * SECOND && sends(&s)) responds(&s, 401, false);
    event = event_of(&s);
    HOLD(event.kind == IS_ICE_SERVER_ENDED && event.why == IS_ICE_ENDED_FAILED && event.code == 0 && event.unverified == 401);
    is_ice_servers_free(&s.servers);
}

static void requests_a_family(void)
{
    struct story s;
    begin(&s);
    HOLD(is_ice_servers_add_turn(&s.servers, s.now, IS_ICE_UDP, &local, &server, 6, 9, TEXT(""), TEXT("")) == IS_ICE_OK);
    sends_request(&s, IS_ICE_STUN_ALLOCATE, IS_ICE_UDP);
    HOLD(s.message.requested_family == 6);
    responds(&s, 440, false); /* Address Family not Supported (RFC 8656, section 19) */
    while (is_ice_servers_gathering(&s.servers) == IS_ICE_OK && sends(&s)) continue;
    is_ice_server_event event = event_of(&s);
    HOLD(event.kind == IS_ICE_SERVER_ENDED && event.why == IS_ICE_ENDED_FAILED && event.code == 440);
    is_ice_servers_free(&s.servers);
}

/* What goes out of the relayed address, and what a peer sends to it (RFC 8656, sections 11 and 12). */
static void relays_both_ways(void)
{
    static const uint8_t check[28] = {0, 1, 0, 8, 0x21, 0x12, 0xa4, 0x42}; /* as a packet of an agent begins */
    struct story s;
    uint8_t buffer[200], big[70000];
    is_ice_packet packet;
    is_ice_datagram datagram;
    is_ice_stun_message message;
    size_t length = 0;
    begin_allocated(&s, IS_ICE_UDP);
    TOUCH(packet), TOUCH(buffer), memset(big, 0, sizeof big);
    HOLD(is_ice_servers_outgoing(&s.servers, s.now, &local, &peer, check, 28, random_bytes, 12, buffer, sizeof buffer, &packet)
         == IS_ICE_NOTHING);
    HOLD(is_ice_servers_outgoing(&s.servers, s.now, &relayed, &peer, check, 28, random_bytes, 12, buffer, 60, &packet)
         == IS_ICE_BUFFER_TOO_SHORT);
    HOLD(is_ice_servers_outgoing(&s.servers, s.now, &relayed, &peer, big, sizeof big, random_bytes, 12, buffer, sizeof buffer, &packet)
         == IS_ICE_MESSAGE_TOO_LONG);
    UNCHANGED(packet), UNCHANGED(buffer);
    const size_t enough = sizeof check + IS_ICE_WRAPPING_LENGTH;
    HOLD(is_ice_servers_outgoing(&s.servers, s.now, &relayed, &peer, check, 28, random_bytes, 12, buffer, enough, &packet) == IS_ICE_OK);
    HOLD(is_ice_same_address(&packet.source, &local) && is_ice_same_address(&packet.destination, &server) && packet.protocol == IS_ICE_UDP);
    HOLD(is_ice_stun_read(buffer, packet.length, &message) == IS_ICE_OK && message.method == IS_ICE_STUN_SEND);
    HOLD(message.cls == IS_ICE_STUN_INDICATION && is_ice_same_address(&message.peer, &peer));
    HOLD(is_ice_stun_text(IS_ICE_STUN_DATA, buffer, packet.length, big, sizeof big, &length) == IS_ICE_OK);
    HOLD(length == sizeof check && memcmp(big, check, length) == 0 && buffer[packet.length] == UNTOUCHED);
    sends_request(&s, IS_ICE_STUN_CREATE_PERMISSION, IS_ICE_UDP); /* what was sent to is permitted */
    HOLD(memcmp(s.message.peer.bytes, peer.bytes, 4) == 0);
    responds(&s, 0, false);
    HOLD(is_ice_servers_outgoing(&s.servers, s.now, &relayed, &peer, TEXT("media"), random_bytes, 12, buffer, sizeof buffer, &packet)
         == IS_ICE_OK);
    sends_request(&s, IS_ICE_STUN_CHANNEL_BIND, IS_ICE_UDP); /* media makes a channel */
    HOLD(is_ice_same_address(&s.message.peer, &peer) && s.message.channel_number.value >= 0x4000);
    uint16_t number = (uint16_t)s.message.channel_number.value;
    responds(&s, 0, false);
    HOLD(is_ice_servers_outgoing(&s.servers, s.now, &relayed, &peer, TEXT("media"), random_bytes, 12, buffer, sizeof buffer, &packet)
         == IS_ICE_OK);
    HOLD(packet.length == 9 && buffer[0] == number >> 8 && buffer[1] == (number & 0xff) && buffer[2] == 0 && buffer[3] == 5);
    HOLD(memcmp(buffer + 4, "media", 5) == 0);
    HOLD(is_ice_servers_receive(&s.servers, s.now, IS_ICE_UDP, &server, &local, buffer, 9, &datagram) == IS_ICE_OK);
    HOLD(is_ice_same_address(&datagram.source, &peer) && is_ice_same_address(&datagram.destination, &relayed));
    HOLD(datagram.offset == 4 && datagram.length == 5);
    HOLD(is_ice_servers_receive(&s.servers, s.now, IS_ICE_UDP, &peer, &local, buffer, 9, &datagram) == IS_ICE_OK); /* not from the server */
    HOLD(is_ice_same_address(&datagram.source, &peer) && is_ice_same_address(&datagram.destination, &local) && datagram.offset == 0);
    HOLD(datagram.length == 9);
    HOLD(is_ice_servers_lose(&s.servers, IS_ICE_UDP, &local) == IS_ICE_OK);
    is_ice_server_event event = event_of(&s);
    HOLD(event.kind == IS_ICE_SERVER_ENDED && event.why == IS_ICE_ENDED_LOST && is_ice_same_address(&event.local, &local));
    HOLD(is_ice_servers_outgoing(&s.servers, s.now, &relayed, &peer, check, 28, random_bytes, 12, buffer, sizeof buffer, &packet)
         == IS_ICE_NO_RELAY);
    is_ice_servers_free(&s.servers);
}

/* A Data indication of a peer that is permitted is a datagram of it; one of another peer is nobody's. */
static void takes_data_of_permitted_peers_only(void)
{
    struct story s;
    uint8_t bytes[512];
    size_t length = 0;
    is_ice_datagram datagram;
    is_ice_stun_message data;
    is_ice_stun_texts texts;
    begin_allocated(&s, IS_ICE_UDP);
    memset(&data, 0, sizeof data), memset(&texts, 0, sizeof texts);
    data.method = IS_ICE_STUN_DATA_INDICATION, data.cls = IS_ICE_STUN_INDICATION, data.peer = peer;
    texts.data.length = 5, texts.data.is_set = true;
    HOLD(is_ice_stun_write(&data, &texts, TEXT("hello"), TEXT(""), bytes, sizeof bytes, &length) == IS_ICE_OK);
    HOLD(is_ice_servers_receive(&s.servers, s.now, IS_ICE_UDP, &server, &local, bytes, length, &datagram) == IS_ICE_NOTHING);
    HOLD(is_ice_servers_permit(&s.servers, s.now, &peer) == IS_ICE_OK);
    sends_request(&s, IS_ICE_STUN_CREATE_PERMISSION, IS_ICE_UDP);
    responds(&s, 0, false);
    HOLD(is_ice_servers_receive(&s.servers, s.now, IS_ICE_UDP, &server, &local, bytes, length, &datagram) == IS_ICE_OK);
    HOLD(is_ice_same_address(&datagram.source, &peer) && is_ice_same_address(&datagram.destination, &relayed));
    HOLD(datagram.length == 5 && memcmp(bytes + datagram.offset, "hello", 5) == 0);
    is_ice_servers_free(&s.servers);
}

static void says_who_is_not_permitted(void)
{
    struct story s;
    begin_allocated(&s, IS_ICE_UDP);
    HOLD(is_ice_servers_permit(&s.servers, s.now, &peer) == IS_ICE_OK);
    sends_request(&s, IS_ICE_STUN_CREATE_PERMISSION, IS_ICE_UDP);
    responds(&s, 403, false); /* Forbidden (RFC 8656, section 19) */
    is_ice_server_event event = event_of(&s);
    HOLD(event.kind == IS_ICE_SERVER_NOT_PERMITTED && event.code == 403 && memcmp(event.peer.bytes, peer.bytes, 4) == 0);
    is_ice_servers_free(&s.servers);
}

/* Over TCP what goes into the stream is padded to a multiple of four (RFC 8656, section 12.5). */
static void pads_streams(void)
{
    struct story s;
    uint8_t buffer[100];
    is_ice_packet packet;
    is_ice_datagram datagram;
    size_t frame = 0;
    begin_allocated(&s, IS_ICE_TCP);
    HOLD(is_ice_servers_outgoing(&s.servers, s.now, &relayed, &peer, TEXT("media"), random_bytes, 12, buffer, sizeof buffer, &packet)
         == IS_ICE_OK);
    HOLD(packet.protocol == IS_ICE_TCP && packet.length % 4 == 0);
    sends_request(&s, IS_ICE_STUN_CREATE_PERMISSION, IS_ICE_TCP);
    responds(&s, 0, false);
    sends_request(&s, IS_ICE_STUN_CHANNEL_BIND, IS_ICE_TCP);
    responds(&s, 0, false);
    TOUCH(buffer);
    HOLD(is_ice_servers_outgoing(&s.servers, s.now, &relayed, &peer, TEXT("media"), random_bytes, 12, buffer, sizeof buffer, &packet)
         == IS_ICE_OK);
    HOLD(packet.length == 12 && buffer[3] == 5 && buffer[12] == UNTOUCHED);
    HOLD(is_ice_frame_length(buffer, 4, &frame) == IS_ICE_OK && frame == 12);
    HOLD(is_ice_servers_receive(&s.servers, s.now, IS_ICE_TCP, &server, &local, buffer, frame, &datagram) == IS_ICE_OK);
    HOLD(datagram.offset == 4 && datagram.length == 5 && is_ice_same_address(&datagram.destination, &relayed));
    HOLD(is_ice_servers_lose(&s.servers, IS_ICE_UDP, &local) == IS_ICE_OK); /* of a socket: not of this connection */
    is_ice_server_event event;
    HOLD(is_ice_servers_poll_event(&s.servers, &event) == IS_ICE_NOTHING);
    is_ice_servers_free(&s.servers);
}

static void asks_whether_it_stands(void)
{
    struct story s;
    begin_allocated(&s, IS_ICE_UDP);
    HOLD(is_ice_servers_probe(&s.servers, s.now) == IS_ICE_OK);
    sends_request(&s, IS_ICE_STUN_REFRESH, IS_ICE_UDP);
    responds(&s, 437, false); /* Allocation Mismatch (RFC 8656, section 19) */
    is_ice_server_event event = event_of(&s);
    HOLD(event.kind == IS_ICE_SERVER_ENDED && event.why == IS_ICE_ENDED_LOST && event.code == 437);
    is_ice_servers_free(&s.servers);
}

static void frees_its_allocation(void)
{
    struct story s;
    begin_allocated(&s, IS_ICE_UDP);
    HOLD(is_ice_servers_close(&s.servers, s.now) == IS_ICE_OK);
    sends_request(&s, IS_ICE_STUN_REFRESH, IS_ICE_UDP);
    HOLD(s.message.lifetime.is_set && s.message.lifetime.value == 0); /* RFC 8656, section 8 */
    responds(&s, 0, false);
    is_ice_server_event event = event_of(&s);
    uint64_t at;
    HOLD(event.kind == IS_ICE_SERVER_ENDED && event.why == IS_ICE_ENDED_CLOSED);
    HOLD(is_ice_servers_poll_timeout(&s.servers, &at) == IS_ICE_NOTHING);
    is_ice_servers_free(&s.servers);
}

static void keeps_a_packet_that_does_not_fit(void)
{
    struct story s;
    uint8_t buffer[IS_ICE_SERVERS_PACKET_LENGTH];
    begin(&s);
    HOLD(is_ice_servers_add_stun(&s.servers, s.now, &local, &server) == IS_ICE_OK);
    HOLD(is_ice_servers_handle_timeout(&s.servers, s.now, random_bytes, 12) == IS_ICE_OK);
    TOUCH(buffer), TOUCH(s.packet);
    HOLD(is_ice_servers_poll_transmit(&s.servers, buffer, 10, &s.packet) == IS_ICE_BUFFER_TOO_SHORT);
    UNCHANGED(buffer), UNCHANGED(s.packet);
    HOLD(is_ice_servers_poll_transmit(&s.servers, buffer, sizeof buffer, &s.packet) == IS_ICE_OK);
    HOLD(buffer[s.packet.length] == UNTOUCHED && memcmp(buffer + 8, random_bytes, 12) == 0);
    HOLD(is_ice_servers_poll_transmit(&s.servers, buffer, sizeof buffer, &s.packet) == IS_ICE_NOTHING);
    is_ice_servers_free(&s.servers);
}

/* ---- URLs (RFC 7064, RFC 7065) and frames */

static void reads_urls(void)
{
    static const struct {
        const char *text, *host;
        unsigned port, scheme, protocol;
    } good[] = {
        {"stun:example.org", "example.org", 3478, IS_ICE_STUN, IS_ICE_UDP},
        {"stuns:example.org", "example.org", 5349, IS_ICE_STUN, IS_ICE_TLS},
        {"stun:example.org:8000", "example.org", 8000, IS_ICE_STUN, IS_ICE_UDP},
        {"turn:example.org", "example.org", 3478, IS_ICE_TURN, IS_ICE_UDP},
        {"turns:example.org", "example.org", 5349, IS_ICE_TURN, IS_ICE_TLS},
        {"turn:example.org:8000", "example.org", 8000, IS_ICE_TURN, IS_ICE_UDP},
        {"turn:example.org?transport=udp", "example.org", 3478, IS_ICE_TURN, IS_ICE_UDP},
        {"turn:example.org?transport=tcp", "example.org", 3478, IS_ICE_TURN, IS_ICE_TCP},
        {"turns:example.org?transport=tcp", "example.org", 5349, IS_ICE_TURN, IS_ICE_TLS},
        {"turn:192.0.2.1:65535", "192.0.2.1", 65535, IS_ICE_TURN, IS_ICE_UDP},
        {"turn:[2001:db8::1]", "2001:db8::1", 3478, IS_ICE_TURN, IS_ICE_UDP},
        {"stun:[2001:db8::1]:99", "2001:db8::1", 99, IS_ICE_STUN, IS_ICE_UDP}};
    static const char *const bad[] = {"", "turn", "turn:", "http:example.org", "example.org", "turn://example.org", "turn:example.org:0",
                                      "turn:example.org:65536", "turn:example.org:x", "turn:[2001:db8::1", "stun:example.org?transport=tcp",
                                      "turns:example.org?transport=udp", "turn:example.org?transport=sctp", "turn:user@example.org",
                                      "turn:a b"};
    for (size_t i = 0; i < sizeof good / sizeof *good; i++) {
        is_ice_server_url url;
        const char *text = good[i].text;
        if (is_ice_server_url_of((const uint8_t *)text, strlen(text), &url) != IS_ICE_OK) hold(__LINE__, text, false);
        HOLD(url.host_length == strlen(good[i].host) && memcmp(text + url.host_start, good[i].host, url.host_length) == 0);
        if (url.port != good[i].port || url.scheme != good[i].scheme || url.protocol != good[i].protocol) hold(__LINE__, text, false);
    }
    for (size_t i = 0; i < sizeof bad / sizeof *bad; i++) {
        is_ice_server_url url;
        TOUCH(url);
        if (is_ice_server_url_of((const uint8_t *)bad[i], strlen(bad[i]), &url) != IS_ICE_BAD_URL) hold(__LINE__, bad[i], false);
        HOLD(is_ice_server_url_of(TEXT("turn:\xff"), &url) == IS_ICE_NOT_UTF8);
        UNCHANGED(url);
    }
}

static void reads_frames(void)
{
    static const struct {
        uint8_t bytes[4];
        size_t length;
    } frames[] = {{{0, 1, 0, 0}, 20}, {{1, 1, 0, 12}, 32}, {{0x40, 0, 0, 0}, 4}, {{0x40, 0, 0, 1}, 8}, {{0x40, 0, 0, 4}, 8},
                  {{0x4f, 0xff, 0, 5}, 12}, {{0, 0x17, 0xff, 0xff}, 65555}};
    static const uint8_t neither[] = {0x50, 0x80, 0xc0, 0xff};
    size_t frame = 77;
    for (size_t i = 0; i < sizeof frames / sizeof *frames; i++)
        HOLD(is_ice_frame_length(frames[i].bytes, 4, &frame) == IS_ICE_OK && frame == frames[i].length && frame <= IS_ICE_FRAME_LENGTH);
    frame = 77;
    for (size_t i = 0; i < 4; i++) HOLD(is_ice_frame_length(frames[0].bytes, i, &frame) == IS_ICE_NOTHING && frame == 77);
    for (size_t i = 0; i < sizeof neither; i++) {
        const uint8_t bytes[4] = {neither[i], 0, 0, 0};
        HOLD(is_ice_frame_length(bytes, 4, &frame) == IS_ICE_UNPARSED && frame == 77);
    }
}

int main(void)
{
    there_may_be_none();
    refuses_bad_arguments();
    maps_a_socket();
    fails_with_the_code_of_the_server();
    allocates_with_credentials();
    says_that_the_password_is_wrong();
    requests_a_family();
    relays_both_ways();
    takes_data_of_permitted_peers_only();
    says_who_is_not_permitted();
    pads_streams();
    asks_whether_it_stands();
    frees_its_allocation();
    keeps_a_packet_that_does_not_fit();
    reads_urls();
    reads_frames();
}
