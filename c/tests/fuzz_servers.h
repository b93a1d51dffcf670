/* The part of fuzz.c that calls the clients of STUN and TURN servers: any calls in any order, with responses of their servers among them. */
#ifndef FUZZ_SERVERS_H
#define FUZZ_SERVERS_H

#include "fuzz_arguments.h"

static is_ice_servers *servers_held; /* before a page without access */
static bool has_servers;
static struct {
    uint8_t bytes[IS_ICE_SERVERS_PACKET_LENGTH];
    is_ice_packet packet;
} request; /* the last packet of a client */

/* A call on clients: without them it returns IS_ICE_NO_SERVERS, and nothing else. */
#define SERVERS(allowed, call) CALL(has_servers ? (allowed) : NO_SERVERS | QUIET, call)

static uint8_t transport(void)
{
    return one_in(8) ? take() : (uint8_t)below(2);
}

static void servers_new(void)
{
    int32_t code = CALL(has_servers ? HAS_SERVERS | QUIET : OK, is_ice_servers_new(servers_held));
    has_servers = has_servers || code == IS_ICE_OK;
}

static void servers_free(void)
{
    is_ice_servers_free(servers_held);
    has_servers = false;
}

static void servers_add(void)
{
    const is_ice_address *local = address_argument(), *server = address_argument();
    if (one_in(2)) {
        SERVERS(OK | BAD_ADDRESS, is_ice_servers_add_stun(servers_held, now, local, server));
        return;
    }
    struct bytes username = one_in(2) ? argument_of("", 0) : secret(ufrags), password = secret(passwords);
    uint8_t protocol = transport(), family = (uint8_t)(one_in(8) ? take() : below(4) * 2);
    SERVERS(OK | BAD_ADDRESS | NOT_UTF8 | CREDENTIALS, is_ice_servers_add_turn(servers_held, now, protocol, local, server, family, below(20),
        username.bytes, username.length, password.bytes, password.length));
}

/* A response to the last request, or any message. */
static struct bytes arriving(void)
{
    uint8_t bytes[700];
    is_ice_stun_message m, asked_for;
    const is_ice_stun_texts none = {0};
    size_t length = 0;
    if (one_in(3) || is_ice_stun_read(request.bytes, request.packet.length, &asked_for) != IS_ICE_OK) return one_in(2) ? message() : raw();
    m = fields();
    m.method = asked_for.method, m.cls = one_in(3) ? IS_ICE_STUN_FAILURE : IS_ICE_STUN_SUCCESS, m.id = asked_for.id;
    if (is_ice_stun_write(&m, &none, TEXT(""), TEXT(""), bytes, sizeof bytes, &length) != IS_ICE_OK) length = 0;
    return argument_of(bytes, length);
}

static void servers_receive(void)
{
    struct bytes m = arriving();
    const is_ice_address *source = address_argument(), *destination = address_argument();
    uint8_t protocol = transport();
    if (!one_in(4)) {
        protocol = request.packet.protocol;
        memcpy((void *)(uintptr_t)source, &request.packet.destination, sizeof *source);
        memcpy((void *)(uintptr_t)destination, &request.packet.source, sizeof *destination);
    }
    is_ice_datagram *part = argument(sizeof *part);
    int32_t code = SERVERS(OK | NOTHING | BAD_ADDRESS | QUIET,
        is_ice_servers_receive(servers_held, now, protocol, source, destination, m.bytes, m.length, part));
    filled(code, part, sizeof *part);
    if (code == IS_ICE_OK && (part->offset > m.length || part->length > m.length - part->offset)) stop("it is no part of the datagram");
}

/* The packet that a call wrote, if it returned IS_ICE_OK; else it wrote nothing. */
static void packet_out(int32_t code, const uint8_t *bytes, size_t size, const is_ice_packet *packet)
{
    size_t kept = code == IS_ICE_OK ? packet->length : 0;
    if (kept > size) stop("a packet is longer than its buffer");
    filled(code, packet, sizeof *packet);
    if (code != IS_ICE_OK) all_are(bytes, size, FRESH, "a buffer was written without a packet");
    all_are(bytes + kept, size - kept, FRESH, "a buffer was written past the packet");
}

static void servers_outgoing(void)
{
    static is_ice_address relayed[4];
    struct bytes m = one_in(2) ? message() : raw(), random = {argument(12), 12};
    const is_ice_address *source = address_argument(), *destination = address_argument();
    if (one_in(4)) memcpy(&relayed[below(4)], source, sizeof *source);
    size_t size = one_in(4) ? below(60) : m.length + IS_ICE_WRAPPING_LENGTH, few = one_in(16) ? below(12) : 12;
    uint8_t *buffer = argument(size);
    is_ice_packet *packet = argument(sizeof *packet);
    int32_t code = SERVERS((few < 12 ? FEW_RANDOM : OK | NOTHING | NO_RELAY | BAD_ADDRESS | TOO_SHORT | TOO_LONG) | QUIET,
        is_ice_servers_outgoing(servers_held, now, source, destination, m.bytes, m.length, random.bytes, few, buffer, size, packet));
    packet_out(code, buffer, size, packet);
    if (code == IS_ICE_BUFFER_TOO_SHORT && size >= m.length + IS_ICE_WRAPPING_LENGTH) stop("the buffer is long enough");
}

static void servers_transmit(void)
{
    size_t size = one_in(4) ? below(60) : IS_ICE_SERVERS_PACKET_LENGTH;
    uint8_t *buffer = argument(size);
    is_ice_packet *packet = argument(sizeof *packet);
    int32_t code = SERVERS(OK | NOTHING | TOO_SHORT | QUIET, is_ice_servers_poll_transmit(servers_held, buffer, size, packet));
    packet_out(code, buffer, size, packet);
    if (code == IS_ICE_BUFFER_TOO_SHORT && size == IS_ICE_SERVERS_PACKET_LENGTH) stop("a packet is too long");
    if (code == IS_ICE_OK) memcpy(request.bytes, buffer, packet->length), memcpy(&request.packet, packet, sizeof *packet);
}

static void servers_event(void)
{
    is_ice_server_event *event = argument(sizeof *event);
    int32_t code = SERVERS(OK | NOTHING | QUIET, is_ice_servers_poll_event(servers_held, event));
    filled(code, event, sizeof *event);
    if (one_in(8)) event->kind = (int32_t)below(6), event->why = (int32_t)below(4), event->protocol = take(), event->has_mapped = one_in(2);
    else if (code != IS_ICE_OK) return;
    is_ice_server_event *given = (is_ice_server_event *)(void *)argument_of(event, sizeof *event).bytes;
    struct out o = out();
    written(CALL((code == IS_ICE_OK ? 0 : BAD_ADDRESS) | OK | BAD_ADDRESS | TOO_SHORT,
        is_ice_servers_event_line(given, o.bytes, o.size, o.length)), o, true);
}

static void servers_time(void)
{
    uint64_t *due = argument(sizeof *due);
    int32_t code = SERVERS(OK | NOTHING | QUIET, is_ice_servers_poll_timeout(servers_held, due));
    filled(code, due, sizeof *due);
    if (code == IS_ICE_OK && one_in(2)) now = *due;
    size_t length = one_in(16) ? below(12) : 12;
    uint8_t *random = argument(length);
    for (size_t i = 0; i < length; i++) random[i] = (uint8_t)((now >> (i % 8 * 8)) + i);
    SERVERS((length < IS_ICE_SERVERS_RANDOM ? FEW_RANDOM : OK) | QUIET, is_ice_servers_handle_timeout(servers_held, now, random, length));
}

static void servers_all(void)
{
    const is_ice_address *some = address_argument();
    uint8_t protocol = transport();
    SERVERS(OK | NOTHING | QUIET, is_ice_servers_gathering(servers_held));
    switch (below(8)) {
    case 0: SERVERS(OK | QUIET, is_ice_servers_close(servers_held, now)); return;
    case 1: SERVERS(OK | QUIET, is_ice_servers_probe(servers_held, now)); return;
    case 2: SERVERS(OK | BAD_ADDRESS | QUIET, is_ice_servers_lose(servers_held, protocol, some)); return;
    default: SERVERS(OK | BAD_ADDRESS | QUIET, is_ice_servers_permit(servers_held, now, some));
    }
}

static void urls_and_frames(void)
{
    static const char *const known[] = {"turn:[2001:db8::1]:3478?transport=tcp", "stuns:turn.example.org", "turns:10.0.0.9:443"};
    struct bytes text = secret(known);
    is_ice_server_url *url = argument(sizeof *url);
    size_t *frame = argument(sizeof *frame);
    int32_t code = CALL(OK | BAD_URL | NOT_UTF8 | QUIET, is_ice_server_url_of(text.bytes, text.length, url));
    if (code != IS_ICE_OK) all_are((const uint8_t *)url, sizeof *url, FRESH, "a URL was written after an error");
    else if (url->host_start > text.length || url->host_length > text.length - url->host_start) stop("the host is no part of the text");
    code = CALL(OK | NOTHING | UNPARSED | QUIET, is_ice_frame_length(text.bytes, text.length, frame));
    filled(code, frame, sizeof *frame);
    if (code == IS_ICE_OK && *frame > IS_ICE_FRAME_LENGTH) stop("a frame is too long");
}

static void servers(void)
{
    static void (*const calls[])(void) = {servers_add, servers_add, servers_time, servers_time, servers_transmit, servers_transmit,
        servers_receive, servers_receive, servers_outgoing, servers_event, servers_all, urls_and_frames, servers_new, servers_new};
    on = AGENTS;
    size_t chosen = below(COUNT(calls) * 4 + 1);
    if (chosen == COUNT(calls) * 4) servers_free();
    else calls[chosen % COUNT(calls)]();
}

#endif
