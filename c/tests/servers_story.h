/* What servers.c and gather.c share: a program with clients of servers, in simulated time, and the server that they ask. The server is
 * written here, by the calls for STUN messages. */
#ifndef SERVERS_STORY_H
#define SERVERS_STORY_H

#include "is_ice_gather.h"
#include <stdlib.h>

#define TEXT(text) (const uint8_t *)text, sizeof text - 1
#define HOLD(fact) hold(__LINE__, #fact, fact)
#define SECOND UINT64_C(1000000000) /* times are nanoseconds */

enum { UNTOUCHED = 0xaa };

static const is_ice_address local = {4, {10, 0, 0, 1}, 1000, 0, 0};
static const is_ice_address server = {4, {192, 0, 2, 1}, 3478, 0, 0}, relayed = {4, {192, 0, 2, 1}, 49152, 0, 0};
static const is_ice_address mapped = {4, {203, 0, 113, 7}, 61000, 0, 0}, peer = {4, {198, 51, 100, 9}, 2000, 0, 0};
static const uint8_t random_bytes[IS_ICE_GATHER_RANDOM] = {1, 2, 3, 4, 5, 6, 7, 8, 9, 10, 11, 12, 13};
/* The key of the user "user", the realm "realm" and the password "pass" (RFC 5389, section 15.4). */
static const uint8_t key[16] = {0x84, 0x93, 0xfb, 0xc5, 0x3b, 0xa5, 0x82, 0xfb, 0x4c, 0x04, 0x4c, 0x45, 0x6b, 0xdc, 0x40, 0xeb};

static inline void hold(int line, const char *fact, bool holds)
{
    if (holds) return;
    printf("line %d: %s\n", line, fact);
    exit(1);
}

static inline void all_untouched(int line, const void *at, size_t length)
{
    for (size_t i = 0; i < length; i++)
        if (((const uint8_t *)at)[i] != UNTOUCHED) hold(line, "unchanged", false);
}
#define UNCHANGED(thing) all_untouched(__LINE__, &(thing), sizeof(thing))
#define TOUCH(thing) memset(&(thing), UNTOUCHED, sizeof(thing))

/* ---- a program with clients, and the server that they ask */

struct story {
    is_ice_servers servers;
    uint64_t now;
    is_ice_packet packet; /* the last one that was polled */
    uint8_t sent[IS_ICE_SERVERS_PACKET_LENGTH];
    is_ice_stun_message message; /* what it is */
};

static inline void begin(struct story *s)
{
    memset(s, 0, sizeof *s);
    s->now = SECOND;
    HOLD(is_ice_servers_new(&s->servers) == IS_ICE_OK);
}

/* Passes the time on until a packet is sent, and polls it. False: none is. */
static inline bool sends(struct story *s)
{
    uint64_t at = 0;
    uint8_t random[IS_ICE_SERVERS_RANDOM];
    for (int tries = 0; tries < 9; tries++) { /* a call may only find that it comes before the next packet's turn */
        if (is_ice_servers_poll_timeout(&s->servers, &at) != IS_ICE_OK) return false;
        if (at > s->now) s->now = at;
        for (size_t i = 0; i < sizeof random; i++) random[i] = (uint8_t)rand();
        HOLD(is_ice_servers_handle_timeout(&s->servers, s->now, random, sizeof random) == IS_ICE_OK);
        if (is_ice_servers_poll_transmit(&s->servers, s->sent, sizeof s->sent, &s->packet) != IS_ICE_OK) continue;
        HOLD(is_ice_stun_read(s->sent, s->packet.length, &s->message) == IS_ICE_OK);
        return true;
    }
    return false;
}

/* It sends a request of this method, over this protocol, to the server. */
static inline void sends_request_at(int line, struct story *s, uint16_t method, uint8_t protocol)
{
    hold(line, "sends a packet", sends(s));
    hold(line, "of this method", s->message.method == method && s->message.cls == IS_ICE_STUN_REQUEST);
    hold(line, "over this protocol", s->packet.protocol == protocol);
    HOLD(is_ice_same_address(&s->packet.source, &local) && is_ice_same_address(&s->packet.destination, &server));
}
#define sends_request(s, method, protocol) sends_request_at(__LINE__, s, method, protocol)

/* Writes the response to the last request: a success response, or an error response with this code; signed or not. Returns its length. */
static inline size_t response(const struct story *s, uint64_t code, bool is_signed, uint8_t *bytes, size_t size)
{
    static const char texts[] = "realmnonce";
    is_ice_stun_message answer;
    is_ice_stun_texts at;
    size_t length = 0;
    memset(&answer, 0, sizeof answer), memset(&at, 0, sizeof at);
    answer.id = s->message.id, answer.method = s->message.method, answer.has_integrity = is_signed;
    answer.cls = code ? IS_ICE_STUN_FAILURE : IS_ICE_STUN_SUCCESS;
    answer.error_code.value = code, answer.error_code.is_set = code != 0;
    if (code == 401) at.realm.length = 5, at.realm.is_set = true, at.nonce.start = 5, at.nonce.length = 5, at.nonce.is_set = true;
    if (!code && (answer.method == IS_ICE_STUN_BINDING || answer.method == IS_ICE_STUN_ALLOCATE)) answer.mapped = mapped;
    if (!code && answer.method == IS_ICE_STUN_ALLOCATE) answer.relayed = relayed;
    if (!code && (answer.method == IS_ICE_STUN_ALLOCATE || answer.method == IS_ICE_STUN_REFRESH))
        answer.lifetime.is_set = true, answer.lifetime.value = answer.method == IS_ICE_STUN_ALLOCATE ? 600 : 0;
    HOLD(is_ice_stun_write(&answer, &at, TEXT(texts), key, sizeof key, bytes, size, &length) == IS_ICE_OK);
    return length;
}

/* The server responds so, and the client takes it. */
static inline void responds(struct story *s, uint64_t code, bool is_signed)
{
    uint8_t bytes[512];
    is_ice_datagram datagram;
    size_t length = response(s, code, is_signed, bytes, sizeof bytes);
    TOUCH(datagram);
    HOLD(is_ice_servers_receive(&s->servers, s->now, s->packet.protocol, &server, &local, bytes, length, &datagram) == IS_ICE_NOTHING);
    UNCHANGED(datagram);
}

static inline is_ice_server_event event_of(struct story *s)
{
    is_ice_server_event event;
    memset(&event, 0, sizeof event);
    HOLD(is_ice_servers_poll_event(&s->servers, &event) == IS_ICE_OK);
    return event;
}

/* A TURN client of an open server, which has an allocation. */
static inline void begin_allocated(struct story *s, uint8_t protocol)
{
    begin(s);
    HOLD(is_ice_servers_add_turn(&s->servers, s->now, protocol, &local, &server, 0, 9, TEXT(""), TEXT("")) == IS_ICE_OK);
    sends_request(s, IS_ICE_STUN_ALLOCATE, protocol);
    responds(s, 0, false);
    HOLD(event_of(s).kind == IS_ICE_SERVER_ALLOCATED);
}

#endif
