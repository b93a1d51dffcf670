/* Clock, random bytes, sockets, addresses and standard input of the machine. What differs between systems is in sockets.h. */
#define _DEFAULT_SOURCE
#include "peer.h"
#include "sockets.h"
#include "tls.h"
#include <limits.h>
#include <stdio.h>
#include <stdlib.h>
#include <string.h>

uint64_t net_now(void)
{
    return system_now();
}

bool net_random(void *bytes, size_t length)
{
    return system_random(bytes, length);
}

int net_error(void)
{
    return system_error();
}

const char *net_error_text(int error)
{
    return system_error_text(error);
}

/* ---- texts */

const char *net_printable(uint8_t *bytes, size_t length)
{
    for (size_t i = 0; i < length; i++)
        if (bytes[i] < ' ' || bytes[i] == 127) bytes[i] = '?';
    return (const char *)bytes;
}

size_t net_resolve(const char *host, uint16_t port, is_ice_address found[2], const char **why)
{
    struct addrinfo hints = {0}, *list = NULL;
    hints.ai_socktype = SOCK_DGRAM;
    *why = "this system has no sockets";
    if (!sockets_begin()) return 0;
    int error = getaddrinfo(host, NULL, &hints, &list);
    *why = gai_strerror(error);
    if (error != 0) return 0;
    size_t count = 0;
    for (const struct addrinfo *at = list; at && count < 2; at = at->ai_next) {
        bool is_one = is_ice_from_sockaddr(at->ai_addr, &found[count]) && (count == 0 || found[0].family != found[1].family);
        found[count].port = port;
        if (is_one) count++;
    }
    freeaddrinfo(list);
    *why = "it has neither an IPv4 nor an IPv6 address";
    return count;
}

/* ---- sockets */

/* A socket of this type at this IP address; the system chooses the port. *bound is its address. Below 0: there is none. */
static intptr_t open_at(const is_ice_address *address, int type, is_ice_address *bound)
{
    struct sockaddr_storage own;
    socklen_t size = is_ice_to_sockaddr(address, &own);
    const int on = 1;
    intptr_t s = socket_open(own.ss_family, type);
    if (s < 0) return s;
    bool ok = own.ss_family != AF_INET6 || setsockopt(s, IPPROTO_IPV6, IPV6_V6ONLY, (const char *)&on, sizeof on) == 0;
    ok = ok && bind(s, (struct sockaddr *)&own, size) == 0 && getsockname(s, (struct sockaddr *)&own, &size) == 0;
    if (ok && is_ice_from_sockaddr((struct sockaddr *)&own, bound)) return s;
    socket_close(s);
    return -1;
}

/* Binds a socket at this address; the system chooses the port. */
static bool bind_at(struct net *net, const is_ice_address *address)
{
    if (net->count == NET_SOCKETS) return false;
    intptr_t s = open_at(address, SOCK_DGRAM, &net->addresses[net->count]);
    if (s >= 0) net->sockets[net->count++] = s;
    return s >= 0;
}

/* 0.0.0.0 or ::, which stands for all addresses and so is none that the other peer can reach. */
static bool is_unspecified(const is_ice_address *a)
{
    static const uint8_t zeros[16] = {0};
    return memcmp(a->bytes, zeros, a->family == 4 ? 4 : 16) == 0;
}

bool net_bind(struct net *net, const char *address, const char **why)
{
    struct addrinfo hints = {0}, *list = NULL;
    is_ice_address own;
    hints.ai_socktype = SOCK_DGRAM;
    hints.ai_flags = AI_NUMERICHOST;
    *why = "this system has no sockets";
    if (!sockets_begin()) return false;
    *why = "not an IP address; names are not resolved";
    if (getaddrinfo(address, "0", &hints, &list) != 0) return false;
    bool ok = is_ice_from_sockaddr(list->ai_addr, &own);
    freeaddrinfo(list);
    if (!ok) return false;
    *why = "the unspecified address cannot be a candidate; without -a each interface's address is used";
    if (is_unspecified(&own)) return false;
    ok = bind_at(net, &own);
    *why = net_error_text(net_error());
    return ok;
}

static void bind_loopback_too(struct net *net, const struct sockaddr *address, bool is_loopback)
{
    char text[IS_ICE_ADDRESS_TEXT];
    is_ice_address own;
    if (!is_ice_from_sockaddr(address, &own) || (!is_loopback && is_ice_is_host_address(&own) != IS_ICE_OK)) return;
    if (bind_at(net, &own)) return;
    const char *why = net->count == NET_SOCKETS ? "too many addresses" : net_error_text(net_error());
    fprintf(stderr, "peer: %s: %s\n", is_ice_address_text(&own, text), why);
}

static void bind_others(struct net *net, const struct sockaddr *address, bool is_loopback)
{
    if (!is_loopback) bind_loopback_too(net, address, false);
}

void net_bind_all(struct net *net, bool loopback)
{
    if (!sockets_begin() || !each_address(net, loopback ? bind_loopback_too : bind_others))
        fprintf(stderr, "peer: interfaces: %s\n", net_error_text(net_error()));
}

void net_close(struct net *net)
{
    while (net->count > 0) socket_close(net->sockets[--net->count]);
}

bool net_move(struct net *net, uint64_t now, const char *only)
{
    struct net found = {0};
    const char *why;
    size_t same = 0;
    if (now < net->look) return false;
    net->look = now + 2 * SECOND;
    if (!only) net_bind_all(&found, false);
    else if (!net_bind(&found, only, &why)) fprintf(stderr, "peer: %s: %s\n", only, why);
    while (same < found.count && same < net->count && memcmp(found.addresses[same].bytes, net->addresses[same].bytes, 16) == 0) same++;
    bool has_moved = found.count > 0 && (same < found.count || same < net->count);
    net_close(has_moved ? net : &found);
    if (!has_moved) return false;
    net->count = found.count;
    memcpy(net->sockets, found.sockets, sizeof net->sockets);
    memcpy(net->addresses, found.addresses, sizeof net->addresses);
    return true;
}

bool net_wait(const struct net *net, bool input, uint64_t until, bool ready[NET_SOCKETS + 1])
{
    uint64_t now = net_now(), left = until > now ? (until - now + MILLISECOND - 1) / MILLISECOND : 0;
    intptr_t all[NET_ALL];
    bool writes[NET_ALL] = {false}, some[NET_ALL + 1];
    size_t count = net->count;
    memcpy(all, net->sockets, sizeof net->sockets);
    for (size_t i = 0; net->streams && i < NET_STREAMS; i++) {
        if (!net->streams[i].is_open) continue;
        writes[count] = net->streams[i].out_end > 0 && !net->streams[i].waits_for_input;
        all[count++] = net->streams[i].socket;
    }
    if (!system_wait(all, writes, count, input, left < INT_MAX ? (int)left : INT_MAX, some)) return false;
    memcpy(ready, some, net->count);
    ready[net->count] = some[count];
    return true;
}

ssize_t net_input(void *bytes, size_t size)
{
    return system_input(bytes, size);
}

bool net_line(char *line, size_t size)
{
    size_t length = 0;
    char next = 0;
    ssize_t got;
    while ((got = net_input(&next, 1)) != 0 && (got < 0 || next != '\n'))
        if (got > 0 && next != '\r' && length + 1 < size) line[length++] = next;
    line[length] = '\0';
    return got != 0 || length > 0;
}

bool net_send(struct net *net, const is_ice_address *from, const is_ice_address *to, const void *bytes, size_t length)
{
    struct sockaddr_storage name;
    socklen_t size = is_ice_to_sockaddr(to, &name);
    size_t i = 0;
    while (i < net->count && !is_ice_same_address(&net->addresses[i], from)) i++;
    bool is_sent = i < net->count && sendto(net->sockets[i], (const char *)bytes, length, 0, (struct sockaddr *)&name, size) >= 0;
    if (is_sent) pcap_write(&net->pcap, from, to, bytes, length);
    else net->lost++, net->lost_why = net_error();
    return is_sent;
}

ssize_t net_receive(struct net *net, size_t index, void *bytes, size_t size, is_ice_address *from)
{
    struct sockaddr_storage name;
    memset(&name, 0, sizeof name);
    socklen_t length = sizeof name;
    ssize_t got = recvfrom(net->sockets[index], (char *)bytes, size, 0, (struct sockaddr *)&name, &length);
    if (got < 0 || !is_ice_from_sockaddr((struct sockaddr *)&name, from)) return -1;
    pcap_write(&net->pcap, from, &net->addresses[index], bytes, (size_t)got);
    return got;
}

/* ---- connections */

bool net_has_tls(void)
{
    return tls_is_there();
}

/* Begins to connect to a server, from an IP address. Returns the socket and its address, or a negative number, with an error. */
static intptr_t connect_at(const is_ice_address *ip, const is_ice_address *server, is_ice_address *local)
{
    struct sockaddr_storage name;
    socklen_t size = is_ice_to_sockaddr(server, &name);
    is_ice_address own = *ip;
    own.port = 0;
    intptr_t socket = open_at(&own, SOCK_STREAM, local);
    if (socket < 0 || connect(socket, (struct sockaddr *)&name, size) == 0 || socket_waits()) return socket;
    socket_close(socket);
    return -1;
}

struct stream *net_connect(struct net *net, const is_ice_address *local, const is_ice_address *server, const char *tls_host)
{
    struct stream *stream = net->streams;
    while (stream < net->streams + NET_STREAMS && stream->is_open) stream++;
    if (stream == net->streams + NET_STREAMS) return NULL;
    memset(stream, 0, sizeof *stream);
    stream->socket = connect_at(local, server, &stream->local);
    if (stream->socket < 0) return NULL;
    stream->is_open = true;
    stream->server = *server;
    stream->in = (uint8_t *)malloc(STREAM_ROOM), stream->out = (uint8_t *)malloc(STREAM_ROOM);
    stream->tls_host = tls_host;
    if (stream->in && stream->out && (!tls_host || tls_begin(stream, tls_host))) return stream;
    net_disconnect(stream);
    return NULL;
}

void net_disconnect(struct stream *stream)
{
    if (stream->tls) tls_end(stream);
    if (stream->is_open) socket_close(stream->socket);
    free(stream->in), free(stream->out);
    memset(stream, 0, sizeof *stream);
}

/* Sends what the connection takes now. */
static void flush(struct stream *stream)
{
    if (stream->out_end == 0) return;
    ssize_t sent = stream->tls ? tls_send(stream, stream->out, stream->out_end)
                               : send(stream->socket, (const char *)stream->out, stream->out_end, NO_SIGNAL);
    if (sent < 0 && (stream->tls || !socket_waits())) stream->is_broken = true;
    if (sent <= 0) return;
    stream->out_end -= (size_t)sent;
    memmove(stream->out, stream->out + sent, stream->out_end);
}

/* After a redirection (RFC 8489, section 10) the client goes on at another server: over a connection to that one, which it knows by the
 * address of the one before. */
static void follow(struct stream *stream, const is_ice_address *server)
{
    is_ice_address local;
    intptr_t socket = connect_at(&stream->local, server, &local);
    if (socket < 0) {
        stream->is_broken = true;
        return;
    }
    if (stream->tls) tls_end(stream);
    socket_close(stream->socket);
    stream->socket = socket;
    stream->server = *server;
    stream->in_start = stream->in_end = stream->out_end = 0;
    stream->waits_for_input = false;
    if (stream->tls_host && !tls_begin(stream, stream->tls_host)) stream->is_broken = true;
}

bool net_send_packet(struct net *net, const is_ice_packet *packet, const void *bytes)
{
    if (packet->protocol == IS_ICE_UDP) return net_send(net, &packet->source, &packet->destination, bytes, packet->length);
    struct stream *stream = net->streams, *end = net->streams ? net->streams + NET_STREAMS : NULL;
    while (stream < end && !(stream->is_open && is_ice_same_address(&stream->local, &packet->source))) stream++;
    if (stream == end || stream->out_end + packet->length > STREAM_ROOM) return net->lost++, false; /* as a full buffer over UDP */
    if (!is_ice_same_address(&stream->server, &packet->destination)) follow(stream, &packet->destination);
    if (stream->is_broken) return net->lost++, false;
    memcpy(stream->out + stream->out_end, bytes, packet->length);
    stream->out_end += packet->length;
    flush(stream);
    return true;
}

/* Reads what has come. Returns its length, or 0 if nothing has. */
static size_t read_more(struct stream *stream, uint8_t *bytes, size_t size)
{
    ssize_t got = stream->tls ? tls_receive(stream, bytes, size) : recv(stream->socket, (char *)bytes, size, 0);
    bool has_ended = stream->tls ? got < 0 : got == 0 || (got < 0 && !socket_waits());
    if (has_ended) stream->is_broken = true;
    return got > 0 ? (size_t)got : 0;
}

uint8_t *net_frame(struct stream *stream, size_t *length)
{
    flush(stream);
    for (;;) {
        uint8_t *start = stream->in + stream->in_start;
        size_t there = stream->in_end - stream->in_start;
        int32_t code = is_ice_frame_length(start, there, length);
        if (code == IS_ICE_UNPARSED) stream->is_broken = true;
        if (stream->is_broken) return NULL;
        if (code == IS_ICE_OK && *length <= there) return stream->in_start += *length, start;
        memmove(stream->in, start, there);
        stream->in_start = 0, stream->in_end = there;
        size_t got = read_more(stream, stream->in + there, STREAM_ROOM - there);
        if (got == 0) return NULL;
        stream->in_end += got;
    }
}
