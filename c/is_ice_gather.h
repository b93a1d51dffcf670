/* STUN and TURN servers around an agent: passes the agent's packets, datagrams, timeouts and media through an is_ice_servers, and adds
 * the candidates that the servers bring. C99 and C++11, static inline functions only. It has no rule of ICE and reads no bytes: agent
 * and servers decide, and this header passes on what they say. The caller has the sockets, resolves names, and opens connections:
 *
 *     struct is_ice_gather gather = {0};                            after is_ice_agent_new and is_ice_servers_new
 *     gather.agent = &agent, gather.servers = &servers;
 *     is_ice_gather_socket(&gather, now, &local, list, count);      for each UDP socket; connections: is_ice_gather_add
 *     is_ice_gather_timeout(&gather, now, random);                  starts the session
 *     for (;;) {
 *         while (is_ice_gather_transmit(&gather, now, random, buffer, sizeof buffer, &packet) == IS_ICE_OK)
 *             send buffer[0 .. packet.length] from packet.source to packet.destination, over packet.protocol;
 *         while (is_ice_gather_event(&gather, now, &gathered) == IS_ICE_OK)
 *             send gathered.lines[0 .. gathered.count] to the peer by signaling;
 *         while (is_ice_poll_event(&agent, &event) == IS_ICE_OK)
 *             use the event;
 *         wait for a datagram, or until the time that is_ice_gather_poll_timeout(&gather, &at) returns, if it returns one;
 *         a datagram arrived:  is_ice_gather_packet(&gather, now, IS_ICE_UDP, &from, &to, bytes, length, &datagram);
 *         a candidate arrived: is_ice_gather_remote(&gather, now, line, length, &index);
 *         that has passed:     is_ice_gather_timeout(&gather, now, random);
 *     }
 *
 * Media goes out by is_ice_gather_media. It comes in by is_ice_gather_packet, which returns IS_ICE_UNPARSED for it.
 *
 * Other calls on agent and servers are made as ever. What the servers brought is reported once: let is_ice_restart keep the local
 * candidates. If a socket or connection is gone, call is_ice_servers_lose. An is_ice_servers that holds none does no harm: all goes as
 * it is. The agent has `modern` of is_ice_set_settings, as a new one has. */
#ifndef IS_ICE_GATHER_H
#define IS_ICE_GATHER_H

#include "is_ice_kit.h"

/* A server, once its name is resolved. What is_ice_server_url_of reads of its URL goes to `scheme` and `protocol`. */
typedef struct is_ice_server {
    is_ice_address address;
    uint8_t scheme;       /* IS_ICE_STUN or IS_ICE_TURN */
    uint8_t protocol;     /* IS_ICE_UDP, IS_ICE_TCP or IS_ICE_TLS */
    const char *username; /* of TURN: zero-terminated, as the password; "": without credentials. Not read of STUN */
    const char *password;
} is_ice_server;

/* A relayed candidate, and the client that it is of. All zero: none. */
struct is_ice_gather_relay {
    is_ice_candidate candidate;
    is_ice_address server;
    uint8_t protocol;
};

enum { IS_ICE_GATHER_RELAYS = 64 };

/* An agent and its servers. The program sets the first two, and the next two if it likes; the rest is zero at first. */
struct is_ice_gather {
    is_ice_agent *agent;
    is_ice_servers *servers;
    const struct is_ice_log *log; /* takes a line for each event of a server, and for datagrams that get no response; may be null */
    is_ice_counts *counts;        /* of such datagrams; may be null */
    struct is_ice_gather_relay relays[IS_ICE_GATHER_RELAYS]; /* of further ones the agent notices by its checks that they are gone */
};

/* ---- clients of servers */

/* is_ice_gather_is_covered - whether this server of a list needs no client of its own, since another one in the list has its address
 * and protocol. A TURN client finds the mapped address too. */
static inline bool is_ice_gather_is_covered(const is_ice_server *list, size_t count, size_t index)
{
    const is_ice_server *one = &list[index];
    for (size_t i = 0; i < count; i++) {
        const is_ice_server *other = &list[i];
        if (i == index || other->protocol != one->protocol || !is_ice_same_address(&other->address, &one->address)) continue;
        if (other->scheme > one->scheme || (other->scheme == one->scheme && i < index)) return true;
    }
    return false;
}

/* is_ice_gather_add - adds the client of a server. `local` is the address of the socket over UDP, or of the connection to this server.
 * The relayed address is of the IP version of `local`.
 *
 * IS_ICE_OK. IS_ICE_NOTHING: socket and server are of two IP versions, or it is a STUN server over TCP or TLS. Else the error of
 * is_ice_servers_add_stun or is_ice_servers_add_turn. */
static inline int32_t is_ice_gather_add(
    struct is_ice_gather *gather, uint64_t now, const is_ice_address *local, const is_ice_server *server)
{
    bool is_udp = server->protocol == IS_ICE_UDP;
    if (local->family != server->address.family || (server->scheme == IS_ICE_STUN && !is_udp)) return IS_ICE_NOTHING;
    if (server->scheme == IS_ICE_STUN) return is_ice_servers_add_stun(gather->servers, now, local, &server->address);
    return is_ice_servers_add_turn(
        gather->servers, now, is_udp ? IS_ICE_UDP : IS_ICE_TCP, local, &server->address, local->family == 6 ? 6 : 0,
        IS_ICE_SERVERS_PLACES, (const uint8_t *)server->username, strlen(server->username), (const uint8_t *)server->password,
        strlen(server->password));
}

/* is_ice_gather_socket - adds the clients of a UDP socket: one for each server over UDP of its IP version. For each server over TCP or
 * TLS open a connection, and pass its address to is_ice_gather_add.
 *
 * IS_ICE_OK. Else the error of is_ice_gather_add: then the servers from there on are left out. */
static inline int32_t is_ice_gather_socket(
    struct is_ice_gather *gather, uint64_t now, const is_ice_address *local, const is_ice_server *list, size_t count)
{
    int32_t code = IS_ICE_OK;
    for (size_t i = 0; i < count && code >= 0; i++)
        if (list[i].protocol == IS_ICE_UDP && !is_ice_gather_is_covered(list, count, i))
            code = is_ice_gather_add(gather, now, local, &list[i]);
    return code < 0 ? code : IS_ICE_OK;
}

/* ---- candidates */

/* Has the servers let in packets of a remote candidate. Returns false if there is none with this index. */
static inline bool is_ice_gather_permit(struct is_ice_gather *gather, uint64_t now, size_t index)
{
    uint8_t text[IS_ICE_LINE];
    size_t length;
    is_ice_fields fields;
    int32_t code = is_ice_remote_fields(gather->agent, index, text, sizeof text, &length, &fields);
    if (code == IS_ICE_OK) (void)!is_ice_servers_permit(gather->servers, now, &fields.address);
    return code == IS_ICE_OK || code == IS_ICE_BUFFER_TOO_SHORT;
}

/* is_ice_gather_remote - adds a candidate of the peer, and permits its address at the TURN servers. The codes, and *index, are those of
 * is_ice_add_remote. */
static inline int32_t is_ice_gather_remote(
    struct is_ice_gather *gather, uint64_t now, const uint8_t *line, size_t length, size_t *index)
{
    int32_t code = is_ice_add_remote(gather->agent, line, length, index);
    if (code >= 0 && *index != IS_ICE_NO_INDEX) is_ice_gather_permit(gather, now, *index);
    return code;
}

/* is_ice_log_server_event - a line for an event of a server. `log` may be null. */
static inline void is_ice_log_server_event(const struct is_ice_log *log, const is_ice_server_event *event)
{
    char line[IS_ICE_LINE];
    size_t length = 0;
    if (!log || !log->line) return;
    int32_t code = is_ice_servers_event_line(event, (uint8_t *)line, sizeof line - 1, &length);
    is_ice_log_line(log, code, line, length);
}

/* What happened to a client of a server, and the candidates that the agent has by it. */
typedef struct is_ice_gathered {
    is_ice_server_event event;
    size_t count;               /* of lines: at most 2 */
    char lines[2][IS_ICE_LINE]; /* local candidates to signal, zero-terminated */
    int32_t failed;             /* IS_ICE_OK, or the error of is_ice_add_local: a candidate was left out */
} is_ice_gathered;

/* Adds a local candidate. It is a line to signal, unless it is redundant. */
static inline void is_ice_gather_local(struct is_ice_gather *gather, const is_ice_candidate *candidate, is_ice_gathered *gathered)
{
    char *line = gathered->lines[gathered->count];
    size_t index = 0, length = 0;
    int32_t code = is_ice_add_local(gather->agent, candidate, &index);
    if (code == IS_ICE_OK) code = is_ice_local_candidate(gather->agent, index, (uint8_t *)line, IS_ICE_LINE - 1, &length);
    if (code < 0) gathered->failed = code;
    if (code != IS_ICE_OK) return;
    line[length] = '\0';
    gathered->count++;
}

/* Finds the relayed candidate of a client, or a free place if `event` is null. Null: there is none. */
static inline struct is_ice_gather_relay *is_ice_gather_relay_of(struct is_ice_gather *gather, const is_ice_server_event *event)
{
    for (size_t i = 0; i < IS_ICE_GATHER_RELAYS; i++) {
        struct is_ice_gather_relay *relay = &gather->relays[i];
        bool is_used = relay->candidate.kind == IS_ICE_RELAYED;
        if (event == NULL && !is_used) return relay;
        if (event != NULL && is_used && relay->protocol == event->protocol && is_ice_same_address(&relay->server, &event->server)
            && is_ice_same_address(&relay->candidate.base, &event->local))
            return relay;
    }
    return NULL;
}

/* A server allocated an address: it is a candidate, and lets in what the peer sends from its candidates. */
static inline void is_ice_gather_allocated(struct is_ice_gather *gather, uint64_t now, is_ice_gathered *gathered)
{
    const is_ice_server_event *event = &gathered->event;
    struct is_ice_gather_relay *relay = is_ice_gather_relay_of(gather, NULL);
    is_ice_candidate candidate;
    memset(&candidate, 0, sizeof candidate);
    candidate.kind = IS_ICE_RELAYED;
    candidate.protocol = IS_ICE_UDP;
    candidate.address = event->relayed;
    candidate.base = event->local;
    if (relay) relay->candidate = candidate, relay->server = event->server, relay->protocol = event->protocol;
    is_ice_gather_local(gather, &candidate, gathered);
    for (size_t i = 0; is_ice_gather_permit(gather, now, i); i++) continue;
}

/* A client ended: its relayed candidate is gone. */
static inline void is_ice_gather_ended(struct is_ice_gather *gather, const is_ice_server_event *event)
{
    struct is_ice_gather_relay *relay = is_ice_gather_relay_of(gather, event);
    if (!relay) return;
    (void)!is_ice_invalidate_local(gather->agent, &relay->candidate);
    memset(relay, 0, sizeof *relay);
}

/* is_ice_gather_event - returns the next event of a server, after the agent has what it brings: the candidates of a mapped or relayed
 * address. If a client ended, its relayed candidate is invalidated.
 *
 * IS_ICE_OK: an event. Signal the lines. IS_ICE_NOTHING: there is none. IS_ICE_NO_SERVERS. */
static inline int32_t is_ice_gather_event(struct is_ice_gather *gather, uint64_t now, is_ice_gathered *gathered)
{
    is_ice_server_event *event = &gathered->event;
    is_ice_candidate mapped;
    memset(event, 0, sizeof *event);
    gathered->count = 0, gathered->failed = IS_ICE_OK;
    int32_t code = is_ice_servers_poll_event(gather->servers, event);
    if (code != IS_ICE_OK) return code;
    is_ice_log_server_event(gather->log, event);
    if (event->kind == IS_ICE_SERVER_ALLOCATED) is_ice_gather_allocated(gather, now, gathered);
    if (event->kind == IS_ICE_SERVER_ENDED) is_ice_gather_ended(gather, event);
    if (event->kind != IS_ICE_SERVER_MAPPED && !(event->kind == IS_ICE_SERVER_ALLOCATED && event->has_mapped)) return IS_ICE_OK;
    memset(&mapped, 0, sizeof mapped);
    mapped.kind = IS_ICE_SERVER_REFLEXIVE;
    mapped.protocol = IS_ICE_UDP;
    mapped.address = event->mapped;
    mapped.base = event->local;
    is_ice_gather_local(gather, &mapped, gathered);
    return IS_ICE_OK;
}

/* ---- datagrams, packets and media */

/* is_ice_gather_packet - passes on a datagram that arrived at a socket, or over IS_ICE_TCP a frame of the connection with the address
 * `destination`: to the client of a server, or to the agent.
 *
 * IS_ICE_OK: one of them took it. IS_ICE_NOTHING: nobody did. IS_ICE_UNPARSED: it is media, as *datagram says: the peer is
 * datagram->source, and the bytes begin at bytes + datagram->offset. is_ice_takes_media_from says whether to take them. Else an error of
 * is_ice_servers_receive or is_ice_handle_packet. */
static inline int32_t is_ice_gather_packet(
    struct is_ice_gather *gather, uint64_t now, uint8_t protocol, const is_ice_address *source, const is_ice_address *destination,
    const uint8_t *bytes, size_t length, is_ice_datagram *datagram)
{
    static const struct is_ice_log no_log = {NULL, NULL};
    int32_t code = is_ice_servers_receive(gather->servers, now, protocol, source, destination, bytes, length, datagram);
    if (code == IS_ICE_NOTHING) return IS_ICE_OK;
    if (code != IS_ICE_OK && code != IS_ICE_NO_SERVERS) return code;
    if (code == IS_ICE_NO_SERVERS) {
        datagram->source = *source;
        datagram->destination = *destination;
        datagram->offset = 0;
        datagram->length = length;
    }
    if (protocol != IS_ICE_UDP && datagram->offset == 0) return IS_ICE_NOTHING; /* its client has ended */
    const uint8_t *part = bytes + datagram->offset; /* a relayed address is one of UDP, whatever leads to its server */
    const is_ice_address *from = &datagram->source, *to = &datagram->destination;
    const struct is_ice_log *log = gather->log ? gather->log : &no_log;
    is_ice_log_packet(log, gather->counts, gather->agent, IS_ICE_UDP, from, to, part, datagram->length);
    return is_ice_handle_packet(gather->agent, now, IS_ICE_UDP, from, to, part, datagram->length);
}

/* is_ice_gather_outgoing - writes a packet as it goes out, from `source` to `destination`, or to the TURN server of `source`. The buffer is
 * longer than the packet by IS_ICE_WRAPPING_LENGTH. `random` is drawn for each call.
 *
 * IS_ICE_OK: send buffer[0 .. packet->length] as *packet says. IS_ICE_NO_RELAY: drop the packet. Else an error of
 * is_ice_servers_outgoing. */
static inline int32_t is_ice_gather_outgoing(
    struct is_ice_gather *gather, uint64_t now, const uint8_t random[IS_ICE_SERVERS_RANDOM], const is_ice_media_path *path,
    const uint8_t *bytes, size_t length, uint8_t *buffer, size_t size, is_ice_packet *packet)
{
    int32_t code = is_ice_servers_outgoing(
        gather->servers, now, &path->source, &path->destination, bytes, length, random, IS_ICE_SERVERS_RANDOM, buffer, size, packet);
    if (code != IS_ICE_NOTHING && code != IS_ICE_NO_SERVERS) return code;
    if (size < length) return IS_ICE_BUFFER_TOO_SHORT;
    memcpy(buffer, bytes, length);
    packet->source = path->source;
    packet->destination = path->destination;
    packet->protocol = path->protocol;
    packet->length = length;
    return IS_ICE_OK;
}

/* is_ice_gather_media - writes media as it goes out now: on the path of is_ice_path_for_media.
 *
 * The buffer and the codes are those of is_ice_gather_outgoing. IS_ICE_NOTHING: there is no path yet, or no longer. */
static inline int32_t is_ice_gather_media(
    struct is_ice_gather *gather, uint64_t now, const uint8_t random[IS_ICE_SERVERS_RANDOM], const uint8_t *bytes, size_t length,
    uint8_t *buffer, size_t size, is_ice_packet *packet)
{
    is_ice_media_path path;
    int32_t code = is_ice_path_for_media(gather->agent, now, &path);
    return code == IS_ICE_OK ? is_ice_gather_outgoing(gather, now, random, &path, bytes, length, buffer, size, packet) : code;
}

/* The longest packet of an agent, and a buffer that is long enough for any packet of is_ice_gather_transmit. */
enum { IS_ICE_GATHER_PACKET = 596, IS_ICE_GATHER_BUFFER = IS_ICE_SERVERS_PACKET_LENGTH };

/* is_ice_gather_transmit - returns the next packet to send: of a client, or of the agent as it goes out. A packet of the agent whose
 * relayed address is gone is left out. The buffer has IS_ICE_GATHER_BUFFER bytes. `random` is drawn for each call.
 *
 * IS_ICE_OK: send buffer[0 .. packet->length] as *packet says; over IS_ICE_TCP put it into the stream of the connection packet->source, or
 * after a redirection into one to packet->destination, as is_ice_servers_poll_transmit says.
 * IS_ICE_NOTHING: there is none. Else an error of is_ice_servers_poll_transmit, is_ice_poll_transmit or is_ice_servers_outgoing. */
static inline int32_t is_ice_gather_transmit(
    struct is_ice_gather *gather, uint64_t now, const uint8_t random[IS_ICE_SERVERS_RANDOM], uint8_t *buffer, size_t size,
    is_ice_packet *packet)
{
    uint8_t bytes[IS_ICE_GATHER_PACKET];
    is_ice_packet polled;
    int32_t code = is_ice_servers_poll_transmit(gather->servers, buffer, size, packet);
    if (code != IS_ICE_NOTHING && code != IS_ICE_NO_SERVERS) return code;
    if (size < IS_ICE_GATHER_BUFFER) return IS_ICE_BUFFER_TOO_SHORT;
    do {
        code = is_ice_poll_transmit(gather->agent, bytes, sizeof bytes, &polled);
        if (code != IS_ICE_OK) return code;
        const is_ice_media_path path = {polled.source, polled.destination, polled.protocol};
        code = is_ice_gather_outgoing(gather, now, random, &path, bytes, polled.length, buffer, size, packet);
    } while (code == IS_ICE_NO_RELAY);
    return code;
}

/* ---- time */

enum { IS_ICE_GATHER_RANDOM = 24 }; /* twelve for each of both */

/* is_ice_gather_timeout - passes the current time to the servers, and to the agent if its time has come. The first call starts the
 * session. `random` is drawn for each call.
 *
 * IS_ICE_OK. Else the error of is_ice_servers_handle_timeout or is_ice_handle_timeout. */
static inline int32_t is_ice_gather_timeout(struct is_ice_gather *gather, uint64_t now, const uint8_t random[IS_ICE_GATHER_RANDOM])
{
    uint64_t at;
    int32_t code = is_ice_servers_handle_timeout(gather->servers, now, random, IS_ICE_SERVERS_RANDOM);
    if (code < 0 && code != IS_ICE_NO_SERVERS) return code;
    if (is_ice_poll_timeout(gather->agent, &at) == IS_ICE_OK && at > now) return IS_ICE_OK;
    return is_ice_handle_timeout(gather->agent, now, random + IS_ICE_SERVERS_RANDOM, IS_ICE_TIMEOUT_RANDOM);
}

/* is_ice_gather_poll_timeout - returns the time at which to call is_ice_gather_timeout next: the earlier one of agent and servers. It
 * is a query.
 *
 * IS_ICE_OK: *at is the time. IS_ICE_NOTHING: there is none. IS_ICE_NO_AGENT. After these two *at is unchanged. */
static inline int32_t is_ice_gather_poll_timeout(struct is_ice_gather *gather, uint64_t *at)
{
    uint64_t of_agent = IS_ICE_NEVER, of_servers = IS_ICE_NEVER;
    int32_t agent = is_ice_poll_timeout(gather->agent, &of_agent), servers = is_ice_servers_poll_timeout(gather->servers, &of_servers);
    if (agent == IS_ICE_OK || servers == IS_ICE_OK) *at = of_agent < of_servers ? of_agent : of_servers;
    return servers == IS_ICE_OK ? IS_ICE_OK : agent;
}

#endif
