/* The STUN and TURN servers of a program: reads their URLs, and makes clients for each socket. What passes between these and the agent is
 * that of is_ice_gather.h. */
#include "peer.h"
#include <string.h>

bool servers_add(struct servers *servers, const char *url, const char **why)
{
    is_ice_server_url read;
    is_ice_address found[2];
    char host[sizeof servers->hosts[0]];
    int32_t code = is_ice_server_url_of((const uint8_t *)url, strlen(url), &read);
    *why = is_ice_code_text(code);
    if (code != IS_ICE_OK) return false;
    *why = "this program has no TLS";
    if (read.protocol == IS_ICE_TLS && !net_has_tls()) return false;
    *why = "there is no STUN over TLS; it maps a connection";
    if (read.protocol == IS_ICE_TLS && read.scheme == IS_ICE_STUN) return false;
    *why = "the name is too long";
    if (read.host_length >= sizeof host) return false;
    memcpy(host, url + read.host_start, read.host_length);
    host[read.host_length] = '\0';
    size_t count = net_resolve(host, read.port, found, why);
    for (size_t i = 0; i < count && servers->count < SERVERS; i++) {
        const is_ice_server one = {found[i], read.scheme, read.protocol, "", ""};
        memcpy(servers->hosts[servers->count], host, read.host_length + 1);
        servers->list[servers->count++] = one;
    }
    return count > 0;
}

int32_t servers_begin(struct servers *servers, is_ice_agent *agent, struct net *net)
{
    for (size_t i = 0; i < servers->count && servers->username; i++) {
        servers->list[i].username = servers->username;
        servers->list[i].password = servers->password ? servers->password : "";
    }
    servers->gather.agent = agent;
    servers->gather.servers = &servers->clients;
    net->streams = servers->streams;
    return is_ice_servers_new(&servers->clients);
}

/* Ends the clients of a connection, and closes it. */
static void close_stream(struct servers *servers, struct stream *stream)
{
    (void)!is_ice_servers_lose(&servers->clients, IS_ICE_TCP, &stream->local);
    net_disconnect(stream);
}

/* Opens the connections from the IP address of a socket, and adds their clients. */
static int32_t connect_from(struct servers *servers, struct net *net, const is_ice_address *local)
{
    int32_t code = IS_ICE_OK;
    for (size_t i = 0; i < servers->count && code >= 0; i++) {
        const is_ice_server *server = &servers->list[i];
        bool is_needed = server->protocol != IS_ICE_UDP && server->address.family == local->family;
        if (!is_needed || is_ice_gather_is_covered(servers->list, servers->count, i)) continue;
        const char *tls_host = server->protocol == IS_ICE_TLS ? servers->hosts[i] : NULL;
        struct stream *stream = net_connect(net, local, &server->address, tls_host);
        if (stream) code = is_ice_gather_add(&servers->gather, net_now(), &stream->local, server);
        else fprintf(stderr, "peer: no connection to a TURN server: %s\n", net_error_text(net_error()));
    }
    return code;
}

int32_t servers_bind(struct servers *servers, struct net *net)
{
    int32_t code = IS_ICE_OK;
    for (size_t i = 0; i < servers->socket_count; i++)
        (void)!is_ice_servers_lose(&servers->clients, IS_ICE_UDP, &servers->sockets[i]);
    for (size_t i = 0; i < NET_STREAMS; i++)
        if (servers->streams[i].is_open) close_stream(servers, &servers->streams[i]);
    memcpy(servers->sockets, net->addresses, sizeof servers->sockets);
    servers->socket_count = net->count;
    for (size_t i = 0; i < net->count && code >= 0; i++) {
        code = is_ice_gather_socket(&servers->gather, net_now(), &net->addresses[i], servers->list, servers->count);
        if (code >= 0) code = connect_from(servers, net, &net->addresses[i]);
    }
    return code;
}

void servers_read(struct servers *servers, take_frame *take, void *user)
{
    for (size_t i = 0; i < NET_STREAMS; i++) {
        struct stream *stream = &servers->streams[i];
        uint8_t *frame;
        size_t length;
        while (stream->is_open && (frame = net_frame(stream, &length)) != NULL) take(user, &stream->server, &stream->local, frame, length);
        if (stream->is_open && stream->is_broken) close_stream(servers, stream);
    }
}

/* A frame of a server that is closed. */
static void drop(void *user, const is_ice_address *from, const is_ice_address *to, uint8_t *bytes, size_t length)
{
    struct servers *servers = (struct servers *)user;
    is_ice_datagram datagram;
    (void)!is_ice_servers_receive(&servers->clients, net_now(), IS_ICE_TCP, from, to, bytes, length, &datagram);
}

/* Passes the time, and what came, to the clients, and sends what they have to send. */
static void end_turn(struct servers *servers, struct net *net, uint64_t until)
{
    uint8_t random[IS_ICE_SERVERS_RANDOM], bytes[IS_ICE_GATHER_BUFFER];
    bool ready[NET_SOCKETS + 1];
    is_ice_packet packet;
    is_ice_datagram datagram;
    is_ice_address from;
    ssize_t got;
    if (net_random(random, sizeof random)) (void)!is_ice_servers_handle_timeout(&servers->clients, net_now(), random, sizeof random);
    while (is_ice_servers_poll_transmit(&servers->clients, bytes, sizeof bytes, &packet) == IS_ICE_OK) net_send_packet(net, &packet, bytes);
    if (!net_wait(net, false, until, ready)) return;
    for (size_t i = 0; i < net->count; i++)
        while (ready[i] && (got = net_receive(net, i, bytes, sizeof bytes, &from)) >= 0)
            (void)!is_ice_servers_receive(
                &servers->clients, net_now(), IS_ICE_UDP, &from, &net->addresses[i], bytes, (size_t)got, &datagram);
    servers_read(servers, drop, servers);
}

void servers_end(struct servers *servers, struct net *net)
{
    uint64_t end = net_now() + SECOND / 2, at;
    (void)!is_ice_servers_close(&servers->clients, net_now());
    while (net_now() < end && is_ice_servers_poll_timeout(&servers->clients, &at) == IS_ICE_OK)
        end_turn(servers, net, at < end ? at : end);
    for (size_t i = 0; i < NET_STREAMS; i++) net_disconnect(&servers->streams[i]);
    is_ice_servers_free(&servers->clients);
}
