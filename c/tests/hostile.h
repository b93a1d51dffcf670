/* The agents of hostile.c and hostile_calls.h, the messages that attackers send, and what is polled. */
#ifndef HOSTILE_H
#define HOSTILE_H

#include "measuring.h"
#include "seen.h"

#define COUNT(array) (sizeof(array) / sizeof *(array))
#define FAR_LINE "candidate:1 1 udp 2130706175 10.0.0.2 2000 typ host"
#define THIRD_LINE "candidate:1 1 udp 2130706175 10.0.0.3 2000 typ host"

static const is_ice_address near_at = {4, {10, 0, 0, 1}, 1000, 0, 0}, far_at = {4, {10, 0, 0, 2}, 2000, 0, 0};

/* A Binding request as a browser sends it, which an attacker has seen: USERNAME `p9KA:SQAt`, network cost (1, 10), controlling,
 * USE-CANDIDATE, priority 1853824767, signed with the password. */
static const uint8_t request[100] = {
    0x00, 0x01, 0x00, 0x50, 0x21, 0x12, 0xa4, 0x42, 0x6a, 0x75, 0x63, 0x31, 0x35, 0x75, 0x78, 0x55, 0x6e, 0x67, 0x47, 0x63,
    0x00, 0x06, 0x00, 0x09, 0x70, 0x39, 0x4b, 0x41, 0x3a, 0x53, 0x51, 0x41, 0x74, 0x00, 0x00, 0x00, 0xc0, 0x57, 0x00, 0x04,
    0x00, 0x01, 0x00, 0x0a, 0x80, 0x2a, 0x00, 0x08, 0x6e, 0xee, 0xc6, 0xe9, 0x7d, 0x18, 0x39, 0x5c, 0x00, 0x25, 0x00, 0x00,
    0x00, 0x24, 0x00, 0x04, 0x6e, 0x7f, 0x1e, 0xff, 0x00, 0x08, 0x00, 0x14, 0x5d, 0x04, 0x25, 0xa0, 0x20, 0x7a, 0xb1, 0xe0,
    0x54, 0x10, 0x22, 0x99, 0xaa, 0xf9, 0x83, 0x9c, 0xa0, 0x76, 0xc6, 0xd5, 0x80, 0x28, 0x00, 0x04, 0x36, 0x0e, 0x21, 0x9f};

/* The success response to it from 10.0.0.2:2000, as HMAC-SHA1 and CRC-32 of another library make it. */
static const uint8_t reply[64] = {
    0x01, 0x01, 0x00, 0x2c, 0x21, 0x12, 0xa4, 0x42, 0x6a, 0x75, 0x63, 0x31, 0x35, 0x75, 0x78, 0x55, 0x6e, 0x67, 0x47, 0x63, 0x00, 0x20,
    0x00, 0x08, 0x00, 0x01, 0x26, 0xc2, 0x2b, 0x12, 0xa4, 0x40, 0x00, 0x08, 0x00, 0x14, 0x44, 0x65, 0xf0, 0x40, 0x54, 0x13, 0xb5, 0x25,
    0xdd, 0x2d, 0x57, 0x30, 0xe3, 0xe8, 0xc8, 0x03, 0xda, 0xec, 0xef, 0x75, 0x80, 0x28, 0x00, 0x04, 0x4a, 0x6e, 0x46, 0x96};

/* The credentials of the agent that the request is for, and of its sender. */
static const char *const asked = "p9KA", *const asked_password = "xJcE9AQAR7kczUDVOXRUCl", *const asker = "SQAt";

/* Those of an agent under attack, and of its peer. */
static const char *const near_password = "nearpass", *const far_password = "farpass";

/* ---- agents */

static void host(is_ice_agent *agent, const is_ice_address *at)
{
    const is_ice_candidate candidate = {*at, *at, IS_ICE_HOST, IS_ICE_UDP, IS_ICE_TCP_UNSTATED};
    size_t index;
    must("host", is_ice_add_local(agent, &candidate, &index), IS_ICE_OK);
}

/* A new controlled agent with the host 10.0.0.1:1000. */
static void make(is_ice_agent *agent, const char *ufrag, const char *password)
{
    must("new", is_ice_agent_new(agent, TEXT(ufrag), TEXT(password), 1), IS_ICE_OK);
    host(agent, &near_at);
}

static void set_peer(is_ice_agent *agent, const char *ufrag, const char *password)
{
    must("credentials", is_ice_set_remote_credentials(agent, TEXT(ufrag), TEXT(password)), IS_ICE_OK);
}

static int32_t add_remote(is_ice_agent *agent, const char *line)
{
    size_t index;
    return is_ice_add_remote(agent, TEXT(line), &index);
}

/* A new agent that the request is for. */
static void make_asked(is_ice_agent *agent)
{
    make(agent, asked, asked_password);
    set_peer(agent, asker, "x");
}

static void set_profile(is_ice_agent *agent, bool modern)
{
    is_ice_agent_settings settings;
    must("settings", (modern ? is_ice_modern_settings : is_ice_original_settings)(&settings), IS_ICE_OK);
    must("settings", is_ice_set_settings(agent, &settings), IS_ICE_OK);
}

/* A new agent with one of the profiles. */
static void make_near(is_ice_agent *agent, bool modern)
{
    make(agent, "near", near_password);
    set_profile(agent, modern);
}

/* A new controlling agent with one of the profiles, which has the peer's credentials. */
static void make_peered(is_ice_agent *agent, bool modern)
{
    make_near(agent, modern);
    set_peer(agent, "farr", far_password);
    must("role", is_ice_set_controlling(agent, true), IS_ICE_OK);
}

/* ---- what is polled */

static size_t pairs(is_ice_agent *agent)
{
    size_t count = 0;
    must("pairs", is_ice_pair_count(agent, &count), IS_ICE_OK);
    return count;
}

/* Polls all packets, and returns how many there were. */
static size_t packets(is_ice_agent *agent)
{
    struct message m;
    is_ice_packet packet;
    size_t count = 0;
    while (transmit(agent, &m, &packet)) count++;
    return count;
}

/* Polls all events into a text: R for a restart, the first letter of a state (n, c, o, C, D), S for a source, N for a selected path. */
static const char *events(is_ice_agent *agent)
{
    static char text[64];
    static const char states[] = "ncoCD", kinds[] = "-RsSN--";
    is_ice_event event = {0};
    size_t count = 0;
    while (is_ice_poll_event(agent, &event) == IS_ICE_OK && count + 1 < sizeof text)
        text[count++] = event.kind == IS_ICE_STATE_CHANGED ? states[event.state] : kinds[event.kind];
    text[count] = 0;
    return text;
}

static void expect(const char *what, bool holds)
{
    if (!holds) fail(what, "it does not hold");
}

/* ---- messages */

/* Writes a message that is signed with the password. */
static void sign(const is_ice_stun_message *m, const char *username, const char *password, struct message *written)
{
    is_ice_stun_texts texts = {0};
    texts.username.length = strlen(username), texts.username.is_set = texts.username.length > 0;
    must("message", is_ice_stun_write(m, &texts, TEXT(username), TEXT(password), written->bytes, sizeof written->bytes, &written->length), IS_ICE_OK);
}

/* A response to the check with this transaction ID: a 487, or a success response whose mapped address is the agent's own. */
static void respond(const uint8_t *id, bool is_conflict, const char *password, struct message *response)
{
    is_ice_stun_message m = {0};
    m.method = IS_ICE_STUN_BINDING, m.cls = is_conflict ? IS_ICE_STUN_FAILURE : IS_ICE_STUN_SUCCESS, m.has_integrity = true;
    if (is_conflict) m.error_code.value = 487, m.error_code.is_set = true;
    else m.mapped = near_at;
    memcpy(m.id.bytes, id, sizeof m.id.bytes);
    sign(&m, "", password, response);
}

/* The peer's request of this number, as an agent with tie-breaker 9 sends it. */
static void ask(uint8_t number, bool controlling, struct message *asking)
{
    is_ice_stun_message m = {0};
    m.method = IS_ICE_STUN_BINDING, m.cls = IS_ICE_STUN_REQUEST, m.has_integrity = true;
    m.priority.value = 1862270719, m.priority.is_set = true;
    *(controlling ? &m.controlling : &m.controlled) = (is_ice_stun_number){9, true};
    m.id.bytes[11] = number;
    sign(&m, "near:farr", near_password, asking);
}

static int32_t give(is_ice_agent *agent, uint64_t now, const is_ice_address *from, const is_ice_address *to, const void *bytes, size_t length)
{
    return is_ice_handle_packet(agent, now, IS_ICE_UDP, from, to, bytes, length);
}

#endif
