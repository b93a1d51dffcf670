/* The part of the story of stack.c that has STUN and TURN servers: clients with long credentials and without, over UDP and TCP, their
 * requests and what the servers return, packets that go out and come in, and each way in which a client ends. */

static const is_ice_address socket_at = {4, {10, 0, 0, 1}, 1000, 0, 0}, stream_at = {4, {10, 0, 0, 1}, 1001, 0, 0};
static const is_ice_address stun_at = {4, {10, 0, 0, 7}, 3478, 0, 0}, turn_at = {4, {10, 0, 0, 8}, 3478, 0, 0};
static const is_ice_address open_at = {4, {10, 0, 0, 9}, 3478, 0, 0}, relay_at = {4, {10, 0, 0, 9}, 5000, 0, 0};
static const is_ice_address peer_at = {4, {10, 0, 0, 2}, 2000, 0, 0}, mapped_at = {4, {10, 0, 0, 77}, 7, 0, 0};

/* The last packet of a client. */
struct sent {
    uint8_t bytes[IS_ICE_SERVERS_PACKET_LENGTH];
    is_ice_packet packet;
};

/* The server's response to the last packet arrives. */
static void respond(is_ice_servers *servers, uint64_t now, const struct sent *request, uint8_t cls)
{
    static uint8_t texts_of[256], bytes[600];
    is_ice_stun_message m;
    is_ice_stun_texts texts = {0};
    is_ice_datagram part;
    size_t length = 0;
    memset(texts_of, 't', sizeof texts_of);
    if (is_ice_stun_read(request->bytes, request->packet.length, &m) != IS_ICE_OK) fail("respond", "no request");
    is_ice_stun_message response = {.method = m.method, .cls = cls, .id = m.id};
    if (cls == IS_ICE_STUN_SUCCESS) {
        response.mapped = mapped_at;
        if (m.method == IS_ICE_STUN_ALLOCATE) response.relayed = relay_at;
        if (m.method != IS_ICE_STUN_BINDING) response.lifetime.is_set = true, response.lifetime.value = 600;
    } else {
        response.error_code.is_set = true, response.error_code.value = 401;
        texts.realm = (is_ice_stun_span){0, 128, true}, texts.nonce = (is_ice_stun_span){128, 128, true};
    }
    CALL(IS_ICE_OK, is_ice_stun_write(&response, &texts, texts_of, sizeof texts_of, TEXT(""), bytes, sizeof bytes, &length));
    CALL(IS_ICE_NOTHING, is_ice_servers_receive(servers, now, request->packet.protocol, &request->packet.destination,
                                                &request->packet.source, bytes, length, &part));
}

/* All that is due by this time, and what the servers return to it: to Allocate requests with long credentials a challenge. */
static void serve(is_ice_servers *servers, uint64_t now, uint8_t *count)
{
    static struct sent sent;
    is_ice_server_event event;
    uint8_t random[IS_ICE_SERVERS_RANDOM] = {0}, line[512];
    uint64_t at = 0;
    size_t length;
    while (CALL(ANY, is_ice_servers_poll_timeout(servers, &at)) == IS_ICE_OK && at <= now) {
        random[0] = ++*count;
        CALL(IS_ICE_OK, is_ice_servers_handle_timeout(servers, now, random, sizeof random));
        CALL(ANY, is_ice_servers_poll_transmit(servers, sent.bytes, 10, &sent.packet));
        while (CALL(ANY, is_ice_servers_poll_transmit(servers, sent.bytes, sizeof sent.bytes, &sent.packet)) == IS_ICE_OK)
            respond(servers, now, &sent, sent.packet.destination.bytes[3] == 8 ? IS_ICE_STUN_FAILURE : IS_ICE_STUN_SUCCESS);
        while (CALL(ANY, is_ice_servers_poll_event(servers, &event)) == IS_ICE_OK)
            CALL(IS_ICE_OK, is_ice_servers_event_line(&event, line, sizeof line, &length));
    }
}

/* Packets of several lengths go out to the peer, and come in from it. */
static void relay(is_ice_servers *servers, uint64_t now, uint8_t first)
{
    static uint8_t bytes[65000], buffer[65000 + IS_ICE_WRAPPING_LENGTH];
    static const size_t lengths[] = {0, 1, 172, 1200, 65000};
    uint8_t random[IS_ICE_SERVERS_RANDOM] = {7};
    is_ice_packet packet;
    is_ice_datagram part;
    for (size_t i = 0; i < sizeof lengths / sizeof *lengths; i++) {
        bytes[0] = first;
        CALL(IS_ICE_OK, is_ice_servers_outgoing(servers, now, &relay_at, &peer_at, bytes, lengths[i], random, sizeof random, buffer,
                                                sizeof buffer, &packet));
        buffer[1] = buffer[0] == 0 ? 0x17 : buffer[1]; /* a Send indication becomes a Data indication */
        CALL(IS_ICE_OK, is_ice_servers_receive(servers, now, packet.protocol, &packet.destination, &packet.source, buffer,
                                               packet.length, &part));
    }
    CALL(IS_ICE_BUFFER_TOO_SHORT, is_ice_servers_outgoing(servers, now, &relay_at, &peer_at, bytes, 9, random, sizeof random, buffer,
                                                          9, &packet));
    CALL(IS_ICE_NOTHING, is_ice_servers_outgoing(servers, now, &socket_at, &peer_at, bytes, 9, random, sizeof random, buffer, 9,
                                                 &packet));
    CALL(IS_ICE_OK, is_ice_servers_receive(servers, now, IS_ICE_UDP, &peer_at, &socket_at, bytes, 9, &part));
}

static void have_servers(void)
{
    static uint8_t username[508], password[763];
    is_ice_servers servers = {0};
    uint8_t count = 0;
    uint64_t now = SECOND;
    memset(username, 'u', sizeof username), memset(password, 'p', sizeof password);
    CALL(IS_ICE_OK, is_ice_servers_new(&servers));
    CALL(IS_ICE_HAS_SERVERS, is_ice_servers_new(&servers));
    CALL(IS_ICE_OK, is_ice_servers_add_stun(&servers, now, &socket_at, &stun_at));
    CALL(IS_ICE_OK, is_ice_servers_add_turn(&servers, now, IS_ICE_UDP, &socket_at, &turn_at, 6, IS_ICE_SERVERS_PLACES, username,
                                            sizeof username, password, sizeof password));
    CALL(IS_ICE_OK, is_ice_servers_add_turn(&servers, now, IS_ICE_TCP, &stream_at, &open_at, 0, IS_ICE_SERVERS_PLACES, TEXT(""),
                                            TEXT("")));
    CALL(IS_ICE_CREDENTIALS_TOO_LONG, is_ice_servers_add_turn(&servers, now, IS_ICE_UDP, &socket_at, &open_at, 4, 1, password,
                                                              sizeof password, password, sizeof password));
    CALL(IS_ICE_OK, is_ice_servers_gathering(&servers));
    serve(&servers, now, &count);
    CALL(IS_ICE_OK, is_ice_servers_permit(&servers, now, &peer_at));
    relay(&servers, now, 0x80); /* media: a channel is requested */
    for (int i = 0; i < 20; i++) serve(&servers, now += 100 * MS, &count);
    relay(&servers, now, 0x80); /* through the channel */
    relay(&servers, now, 0);
    CALL(IS_ICE_OK, is_ice_servers_probe(&servers, now));
    for (int i = 0; i < 20; i++) serve(&servers, now += 60 * SECOND, &count);
    CALL(IS_ICE_OK, is_ice_servers_lose(&servers, IS_ICE_TCP, &stream_at));
    CALL(IS_ICE_OK, is_ice_servers_close(&servers, now));
    serve(&servers, now += SECOND, &count);
    paint();
    is_ice_servers_free(&servers);
    note("is_ice_servers_free(&servers)", IS_ICE_OK, IS_ICE_OK);
}

static void read_servers(void)
{
    is_ice_server_url url;
    size_t frame;
    CALL(IS_ICE_OK, is_ice_server_url_of(TEXT("turns:[2001:db8::1]:5350?transport=tcp"), &url));
    CALL(IS_ICE_OK, is_ice_server_url_of(TEXT("stun:turn.example.org"), &url));
    CALL(IS_ICE_BAD_URL, is_ice_server_url_of(TEXT("turn:turn.example.org?transport=sctp"), &url));
    CALL(IS_ICE_OK, is_ice_frame_length((const uint8_t *)"\x40\x01\x00\x05", 4, &frame));
}
