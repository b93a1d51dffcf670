/* The part of the story of oom.c that has STUN and TURN servers: three clients are made, one gets a relayed address, and all end. */

static const is_ice_address local_at = {4, {10, 0, 0, 1}, 1000, 0, 0}, stun_at = {4, {10, 0, 0, 7}, 3478, 0, 0};
static const is_ice_address turn_at = {4, {10, 0, 0, 9}, 3478, 0, 0}, relay_at = {4, {10, 0, 0, 9}, 5000, 0, 0};

/* What is due; the TURN server without credentials responds to an Allocate request. */
static void ask_servers(struct story *s, is_ice_servers *servers, uint64_t now)
{
    uint8_t bytes[IS_ICE_SERVERS_PACKET_LENGTH], response[200];
    uint64_t at;
    size_t length = 0;
    is_ice_packet packet;
    is_ice_datagram part;
    is_ice_stun_message m;
    const is_ice_stun_texts texts = {0};
    while (is_ice_servers_poll_timeout(servers, &at) == IS_ICE_OK && at <= now) {
        s->random[0]++;
        CALL(s, IS_ICE_OK, is_ice_servers_handle_timeout(servers, now, s->random, IS_ICE_SERVERS_RANDOM));
        if (is_ice_servers_poll_transmit(servers, bytes, sizeof bytes, &packet) != IS_ICE_OK) continue;
        add(s, bytes, packet.length);
        QUIET(IS_ICE_OK, is_ice_stun_read(bytes, packet.length, &m));
        if (m.method != IS_ICE_STUN_ALLOCATE || packet.destination.bytes[3] != 9) continue;
        is_ice_stun_message made = {.method = m.method, .cls = IS_ICE_STUN_SUCCESS, .id = m.id, .relayed = relay_at, .mapped = local_at};
        made.lifetime.is_set = true, made.lifetime.value = 600;
        QUIET(IS_ICE_OK, is_ice_stun_write(&made, &texts, TEXT(""), TEXT(""), response, sizeof response, &length));
        QUIET(IS_ICE_NOTHING, is_ice_servers_receive(servers, now, packet.protocol, &turn_at, &local_at, response, length, &part));
    }
}

static void have_servers(struct story *s)
{
    is_ice_servers servers = {0};
    is_ice_server_event event;
    is_ice_server_url url;
    is_ice_packet packet;
    uint8_t buffer[200];
    size_t length = 0;
    CALL(s, IS_ICE_OK, is_ice_servers_new(&servers));
    CALL(s, IS_ICE_OK, is_ice_servers_add_stun(&servers, 0, &local_at, &stun_at));
    CALL(s, IS_ICE_OK, is_ice_servers_add_turn(&servers, 0, IS_ICE_UDP, &local_at, &turn_at, 0, 4, TEXT(""), TEXT("")));
    CALL(s, IS_ICE_OK, is_ice_servers_add_turn(&servers, 0, IS_ICE_TCP, &local_at, &turn_at, 4, 4, TEXT("user"), TEXT("pass")));
    QUIET(IS_ICE_OK, is_ice_servers_gathering(&servers));
    ask_servers(s, &servers, 0);
    QUIET(IS_ICE_OK, is_ice_servers_poll_event(&servers, &event));
    CALL(s, IS_ICE_OK, is_ice_servers_event_line(&event, buffer, sizeof buffer, &length));
    add(s, buffer, length);
    QUIET(IS_ICE_OK, is_ice_servers_permit(&servers, 0, &host_b.address));
    QUIET(IS_ICE_OK, is_ice_servers_outgoing(&servers, 0, &relay_at, &host_b.address, TEXT("\x80"), s->random, IS_ICE_SERVERS_RANDOM,
                                             buffer, sizeof buffer, &packet));
    add(s, buffer, packet.length);
    QUIET(IS_ICE_OK, is_ice_servers_probe(&servers, 0));
    ask_servers(s, &servers, UINT64_C(1000000000));
    QUIET(IS_ICE_OK, is_ice_servers_lose(&servers, IS_ICE_TCP, &local_at));
    QUIET(IS_ICE_OK, is_ice_servers_close(&servers, UINT64_C(2000000000)));
    QUIET(IS_ICE_OK, is_ice_server_url_of(TEXT("turn:10.0.0.9"), &url));
    QUIET(IS_ICE_OK, is_ice_frame_length(TEXT("\x40\x01\x00\x05"), &length));
    is_ice_servers_free(&servers);
}
