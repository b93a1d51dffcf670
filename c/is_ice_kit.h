/* What most programs write around is_ice.h: addresses of sockets, a log, and counts of the packets that are not taken. C99 and
 * C++11, static inline functions only. It has no rule of ICE, and reads no bytes: the library says what happened, and this
 * header puts it into words.
 *
 * Include it in any number of source files. On Windows link with ws2_32. */
#ifndef IS_ICE_KIT_H
#define IS_ICE_KIT_H

#include "is_ice.h"
#include <stdio.h>
#include <string.h>
#ifdef _WIN32
#include <winsock2.h>
#include <ws2tcpip.h>
#else
#include <arpa/inet.h>
#include <netinet/in.h>
#include <sys/socket.h>
#endif

/* ---- addresses of sockets */

/* is_ice_from_sockaddr - writes the address that recvfrom, getsockname or getaddrinfo returned. An IPv4-mapped one of family 6
 * (RFC 4291, section 2.5.5.2), as a socket for both IP versions returns them, becomes the IPv4 address that it stands for: no
 * candidate is an IPv4-mapped address. Returns false, and writes an address of family 0, if it is neither IPv4 nor IPv6. */
static inline bool is_ice_from_sockaddr(const struct sockaddr *from, is_ice_address *address)
{
    static const uint8_t mapped[12] = {0, 0, 0, 0, 0, 0, 0, 0, 0, 0, 0xff, 0xff};
    struct sockaddr_in v4;
    struct sockaddr_in6 v6;
    memset(address, 0, sizeof *address);
    if (from->sa_family == AF_INET) {
        memcpy(&v4, from, sizeof v4);
        address->family = 4;
        memcpy(address->bytes, &v4.sin_addr, 4);
        address->port = ntohs(v4.sin_port);
    } else if (from->sa_family == AF_INET6) {
        memcpy(&v6, from, sizeof v6);
        bool is_mapped = memcmp(&v6.sin6_addr, mapped, sizeof mapped) == 0;
        address->family = is_mapped ? 4 : 6;
        address->port = ntohs(v6.sin6_port);
        if (is_mapped) {
            memcpy(address->bytes, (const uint8_t *)&v6.sin6_addr + sizeof mapped, 4);
        } else {
            memcpy(address->bytes, &v6.sin6_addr, 16);
            address->flow = ntohl(v6.sin6_flowinfo);
            address->scope = v6.sin6_scope_id;
        }
    }
    return address->family != 0;
}

/* is_ice_to_sockaddr6 - writes the address for a socket of family AF_INET6: an IPv4 address as IPv4-mapped, for a socket of both
 * IP versions (IPV6_V6ONLY is off). Returns its size. */
static inline socklen_t is_ice_to_sockaddr6(const is_ice_address *address, struct sockaddr_storage *to)
{
    struct sockaddr_in6 v6;
    uint8_t *bytes = (uint8_t *)&v6.sin6_addr;
    memset(&v6, 0, sizeof v6);
    v6.sin6_family = AF_INET6;
    v6.sin6_port = htons(address->port);
    if (address->family == 4) {
        bytes[10] = bytes[11] = 0xff;
        memcpy(bytes + 12, address->bytes, 4);
    } else {
        memcpy(bytes, address->bytes, 16);
        v6.sin6_flowinfo = htonl(address->flow);
        v6.sin6_scope_id = address->scope;
    }
    memset(to, 0, sizeof *to);
    memcpy(to, &v6, sizeof v6);
    return sizeof v6;
}

/* is_ice_to_sockaddr - writes the address for a socket of its own IP version, as bind and sendto take it. Returns its size. */
static inline socklen_t is_ice_to_sockaddr(const is_ice_address *address, struct sockaddr_storage *to)
{
    struct sockaddr_in v4;
    if (address->family != 4) return is_ice_to_sockaddr6(address, to);
    memset(&v4, 0, sizeof v4);
    v4.sin_family = AF_INET;
    memcpy(&v4.sin_addr, address->bytes, 4);
    v4.sin_port = htons(address->port);
    memset(to, 0, sizeof *to);
    memcpy(to, &v4, sizeof v4);
    return sizeof v4;
}

/* is_ice_same_address - whether IP address and port are the same. Flow and scope are not compared. */
static inline bool is_ice_same_address(const is_ice_address *a, const is_ice_address *b)
{
    return a->family == b->family && a->port == b->port && memcmp(a->bytes, b->bytes, a->family == 4 ? 4 : 16) == 0;
}

/* is_ice_address_text - writes the address as "192.0.2.1:1000" or "[2001:db8::1]:1000", and returns the text. */
enum { IS_ICE_ADDRESS_TEXT = 80 };
static inline const char *is_ice_address_text(const is_ice_address *address, char text[IS_ICE_ADDRESS_TEXT])
{
    char ip[INET6_ADDRSTRLEN] = "?";
    inet_ntop(address->family == 4 ? AF_INET : AF_INET6, address->bytes, ip, sizeof ip);
    snprintf(text, IS_ICE_ADDRESS_TEXT, address->family == 4 ? "%s:%u" : "[%s]:%u", ip, (unsigned)address->port);
    return text;
}

/* ---- counts of datagrams that get no response, by the codes of is_ice_rejection and is_ice_unserved. The program has them: one for
 * each agent, or one for all. All zero at first. No counter goes beyond its greatest value. */

enum { IS_ICE_COUNTED = 64, IS_ICE_COUNTED_FROM = -32 };
typedef struct is_ice_counts {
    uint32_t of[IS_ICE_COUNTED]; /* by code, from IS_ICE_COUNTED_FROM on; the last one is that of all other codes */
} is_ice_counts;

/* is_ice_counted - returns how often this code was counted. */
static inline uint32_t is_ice_counted(const is_ice_counts *counts, int32_t code)
{
    bool is_known = code >= IS_ICE_COUNTED_FROM && code < IS_ICE_COUNTED_FROM + IS_ICE_COUNTED - 1;
    return counts->of[is_known ? code - IS_ICE_COUNTED_FROM : IS_ICE_COUNTED - 1];
}

/* is_ice_count - counts a code, and returns how often it was counted. */
static inline uint32_t is_ice_count(is_ice_counts *counts, int32_t code)
{
    bool is_known = code >= IS_ICE_COUNTED_FROM && code < IS_ICE_COUNTED_FROM + IS_ICE_COUNTED - 1;
    uint32_t *of = &counts->of[is_known ? code - IS_ICE_COUNTED_FROM : IS_ICE_COUNTED - 1];
    if (*of < UINT32_MAX) ++*of;
    return *of;
}

/* ---- a log: the program sets a function that takes lines. Without it, each of these does nothing, and calls nothing. */

struct is_ice_log {
    void (*line)(void *user, const char *line); /* zero-terminated, without a line end; only during the call */
    void *user;
};

enum { IS_ICE_LINE = 1024 };

/* What a call that writes a line returned. */
static inline void is_ice_log_line(const struct is_ice_log *log, int32_t code, char line[IS_ICE_LINE], size_t length)
{
    if (code != IS_ICE_OK || length >= IS_ICE_LINE) return;
    line[length] = '\0';
    log->line(log->user, line);
}

/* is_ice_log_event - a line for an event. */
static inline void is_ice_log_event(const struct is_ice_log *log, is_ice_agent *agent, const is_ice_event *event)
{
    char line[IS_ICE_LINE];
    size_t length = 0;
    if (!log->line) return;
    int32_t code = is_ice_event_line(agent, event, (uint8_t *)line, sizeof line - 1, &length);
    is_ice_log_line(log, code, line, length);
}

/* is_ice_log_removed - a line for each removed pair that is listed, from this index on: 0 for all since the last restart. Returns the
 * index for the next call, if the list has not become shorter and no longer than 32 pairs. */
static inline size_t is_ice_log_removed(const struct is_ice_log *log, is_ice_agent *agent, size_t from)
{
    char line[IS_ICE_LINE];
    size_t length = 0;
    int32_t code = IS_ICE_OK;
    for (; log->line && code == IS_ICE_OK; from += code == IS_ICE_OK) {
        code = is_ice_removed_line(agent, from, (uint8_t *)line, sizeof line - 1, &length);
        is_ice_log_line(log, code, line, length);
    }
    return from;
}

/* is_ice_log_failed_sends - a line for each path and error of is_ice_send_failed. */
static inline void is_ice_log_failed_sends(const struct is_ice_log *log, is_ice_agent *agent)
{
    char line[IS_ICE_LINE], from[IS_ICE_ADDRESS_TEXT], to[IS_ICE_ADDRESS_TEXT];
    is_ice_failed_send failed;
    for (size_t i = 0; log->line && is_ice_failed_send_at(agent, i, &failed) == IS_ICE_OK; i++) {
        is_ice_address_text(&failed.source, from), is_ice_address_text(&failed.destination, to);
        snprintf(line, sizeof line, "not sent %s -> %s: error %u, %llu packets", from, to, (unsigned)failed.reason,
                 (unsigned long long)failed.times);
        log->line(log->user, line);
    }
}

/* is_ice_log_packet - before is_ice_handle_packet, with its arguments: if the agent would not accept the datagram, or would send no
 * response to it, counts the reason, and logs it the 1st, 2nd, 4th, 8th .. time, so that a flood writes few lines. `counts` may be null:
 * then nothing is counted, and each such datagram is logged. One that is no STUN message, as media, is left out. Show the reason, and end
 * no session for it: anybody can send such a datagram. */
static inline void is_ice_log_packet(
    const struct is_ice_log *log, is_ice_counts *counts, is_ice_agent *agent, uint8_t protocol, const is_ice_address *source,
    const is_ice_address *destination, const uint8_t *bytes, size_t length)
{
    char line[IS_ICE_LINE];
    size_t size = 0;
    if ((!log->line && !counts) || is_ice_is_stun(bytes, length) != IS_ICE_OK) return;
    int32_t why = is_ice_rejection(agent, protocol, source, destination, bytes, length);
    if (why == IS_ICE_OK) why = is_ice_unserved(agent, protocol, source, destination, bytes, length);
    if (why == IS_ICE_OK || why == IS_ICE_NO_AGENT) return;
    uint32_t times = counts ? is_ice_count(counts, why) : 1;
    if (!log->line || (times & (times - 1)) != 0) return;
    int32_t code = is_ice_packet_line(agent, protocol, source, destination, bytes, length, (uint8_t *)line, sizeof line - 1, &size);
    is_ice_log_line(log, code, line, size);
}

/* is_ice_log_counts - a line for each code that was counted. */
static inline void is_ice_log_counts(const struct is_ice_log *log, const is_ice_counts *counts)
{
    char line[IS_ICE_LINE];
    for (int32_t i = 0; log->line && i < IS_ICE_COUNTED; i++) {
        if (counts->of[i] == 0) continue;
        snprintf(line, sizeof line, "%u times: %s", (unsigned)counts->of[i], is_ice_code_text(i + IS_ICE_COUNTED_FROM));
        log->line(log->user, line);
    }
}

#endif
