/* Declarations that the source files of the program peer share. */
#ifndef PEER_H
#define PEER_H

#include "is_ice_gather.h"
#include <stdio.h>
#include <sys/types.h>

#define SECOND UINT64_C(1000000000)
#define MILLISECOND UINT64_C(1000000)

/* ---- peer_pcap.c: a packet capture (pcap), which Wireshark opens */

/* The file of a capture. All zero: there is none, and nothing is written. */
struct pcap {
    FILE *file;
};

/* Creates the file. Returns false, with errno, if that fails. */
bool pcap_open(struct pcap *pcap, const char *path);

/* Writes a datagram with its IP and UDP headers, and the time of day. */
void pcap_write(struct pcap *pcap, const is_ice_address *from, const is_ice_address *to, const void *bytes, size_t length);

/* Closes the file. Returns false if a write failed since it was opened. */
bool pcap_close(struct pcap *pcap);

/* ---- peer_net.c: clock, random bytes, sockets, addresses and standard input of the machine */

enum { NET_SOCKETS = 16, NET_STREAMS = 16, NET_ALL = NET_SOCKETS + NET_STREAMS };

/* A TCP connection to a TURN server, maybe with TLS over it. All zero: there is none. Its client knows it by the address `local`, also after
 * a redirection. */
struct stream {
    intptr_t socket;
    is_ice_address local, server;
    uint8_t *in, *out;         /* what came and what is to be sent, of STREAM_ROOM bytes each */
    size_t in_start, in_end, out_end;
    bool is_open, is_broken;
    void *tls;            /* that of tls.h; null: none */
    const char *tls_host; /* whom the server's certificate has to name */
    bool waits_for_input; /* what waits to be sent goes out only after something has come */
};

enum { STREAM_ROOM = 2 * IS_ICE_FRAME_LENGTH };

/* The sockets, one at each local address. */
struct net {
    size_t count;
    intptr_t sockets[NET_SOCKETS];
    is_ice_address addresses[NET_SOCKETS];
    struct stream *streams; /* NET_STREAMS connections, or null: there are none */
    uint64_t lost; /* packets that could not be sent */
    int lost_why;  /* the error of the last one */
    uint64_t look; /* when net_move looks at the machine's addresses next */
    struct pcap pcap; /* what was sent and received over UDP, if it is captured */
};

/* The current time, of the system's monotonic clock. */
uint64_t net_now(void);

/* Writes random bytes of the system, at most 256. False if the system has none. */
bool net_random(void *bytes, size_t length);

/* The system's number of the last error of a socket, and the text of one. */
int net_error(void);
const char *net_error_text(int error);

/* Binds a UDP socket at this address, as "192.0.2.1" or "::1". Returns false if that fails; *why is a text that says why. */
bool net_bind(struct net *net, const char *address, const char **why);

/* Binds a UDP socket at each address of the machine's interfaces, without link-local addresses, and without loopback
 * addresses unless `loopback` is true. net->count is the number of sockets. */
void net_bind_all(struct net *net, bool loopback);
void net_close(struct net *net);

/* If the machine has other addresses than the sockets, closes these, binds others there and returns true. It looks every two
 * seconds: at those of the interfaces, or only at this address, unless it is NULL. */
bool net_move(struct net *net, uint64_t now, const char *only);

/* Waits until this time for a datagram, for the connections, and for standard input if `input` is true. ready[i]: the socket i may have
 * something to read; ready[net->count]: standard input has. Returns false, with an error, if waiting fails. */
bool net_wait(const struct net *net, bool input, uint64_t until, bool ready[NET_SOCKETS + 1]);

/* Reads what standard input has, and waits if it has nothing. Returns the length, 0 at its end, or -1 to try again. Programs that call
 * it read standard input by nothing else. */
ssize_t net_input(void *bytes, size_t size);

/* Reads the next line by it, and cuts one that is too long. Returns false if there is none. */
bool net_line(char *line, size_t size);

/* Resolves a name or an IP address to at most one address of each IP version. Returns their number; if it is 0, *why is a text that
 * says why. */
size_t net_resolve(const char *host, uint16_t port, is_ice_address found[2], const char **why);

/* Sends a datagram from the socket at this address. False: it could not be sent, and counts as lost. */
bool net_send(struct net *net, const is_ice_address *from, const is_ice_address *to, const void *bytes, size_t length);

/* Sends a packet: over UDP by that, over TCP by the connection that it names, in its turn. */
bool net_send_packet(struct net *net, const is_ice_packet *packet, const void *bytes);

/* Whether connections may have TLS: -DPEER_TLS brings it. */
bool net_has_tls(void);

/* Opens a connection from this local IP address to a server, with TLS if `tls_host` is not null: whom the certificate has to name. Returns
 * it before it is connected, or null, with an error. */
struct stream *net_connect(struct net *net, const is_ice_address *local, const is_ice_address *server, const char *tls_host);
void net_disconnect(struct stream *stream);

/* Reads from a connection. Returns the next frame, which is there until the next call, and its length; or null: none is whole yet. If the
 * connection is broken, is_broken is true afterwards. */
uint8_t *net_frame(struct stream *stream, size_t *length);

/* Reads a datagram from a socket. Returns its length, or -1 if there is none. */
ssize_t net_receive(struct net *net, size_t index, void *bytes, size_t size, is_ice_address *from);

/* Replaces control characters, for a terminal, and returns the bytes. */
const char *net_printable(uint8_t *bytes, size_t length);

/* ---- peer_servers.c: STUN and TURN servers, for each socket, and over TCP and TLS */

enum { SERVERS = 32 };

/* All zero at first. */
struct servers {
    struct is_ice_gather gather;
    is_ice_servers clients;
    is_ice_server list[SERVERS];
    char hosts[SERVERS][256]; /* of their URLs */
    size_t count;
    const char *username, *password; /* those of all TURN servers; null: none */
    is_ice_address sockets[NET_SOCKETS]; /* those that have clients */
    size_t socket_count;
    struct stream streams[NET_STREAMS];
};

/* Adds the server of a URL, as "stun:stun.example.org" or "turn:192.0.2.1:3478?transport=tcp", and resolves its name. Returns false if
 * that fails; *why is a text that says why. */
bool servers_add(struct servers *servers, const char *url, const char **why);

/* Makes the clients of an agent, and lets the program wait for the connections, too. */
int32_t servers_begin(struct servers *servers, is_ice_agent *agent, struct net *net);

/* Adds clients for each socket, and opens the connections, in place of those of the sockets before. */
int32_t servers_bind(struct servers *servers, struct net *net);

/* Takes frames of a connection. */
typedef void take_frame(void *user, const is_ice_address *from, const is_ice_address *to, uint8_t *bytes, size_t length);

/* Reads all connections. What is broken is closed, and its client ends. */
void servers_read(struct servers *servers, take_frame *take, void *user);

/* Frees the allocations at the servers, for half a second at most, and then the clients. */
void servers_end(struct servers *servers, struct net *net);

/* ---- peer_signal.c: signaling, one line for each message */

/* Prints "signal UFRAG PASSWORD CANDIDATE,CANDIDATE,..": the local credentials and candidates. */
int32_t signal_print(is_ice_agent *agent);

/* Prints the local candidate of this index, for one that is found after the signal was printed. */
int32_t signal_print_candidate(is_ice_agent *agent, size_t index);

/* Draws new credentials, and creates an agent with them. */
int32_t signal_begin(is_ice_agent *agent);

/* Adds the address of each socket as a host candidate. */
int32_t signal_add_hosts(is_ice_agent *agent, const struct net *net);

/* Makes an ICE restart with new credentials. With `net` its sockets become the only candidates; if it is NULL the candidates stay. */
int32_t signal_renew(is_ice_agent *agent, const struct net *net);

/* Makes an ICE restart with new credentials that keeps the candidates, and prints the signal. */
int32_t signal_restart(is_ice_agent *agent);

/* Takes the other peer's signal: the text after the word "signal". New credentials mean an ICE restart of the other peer;
 * then this one restarts too, and prints its new signal. A malformed signal is reported on standard error. */
int32_t signal_take(struct is_ice_gather *gather, char *text);

/* Takes one candidate of the other peer. A malformed one is reported on standard error and left out. So is one with an mDNS
 * name instead of an address: its address is discovered from the other peer's checks. */
int32_t signal_take_candidate(struct is_ice_gather *gather, const char *line);

#endif
