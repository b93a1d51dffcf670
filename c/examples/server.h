/* Many agents on one socket: finds the agent of each datagram, and calls each agent when it is due. It is to copy from, as is
 * server.c: an agent knows nothing of the others, so this is all that a server adds. echo.c is a server that uses it.
 *
 * How the agent of a datagram is found:
 * - of a request by the username fragment of its receiver, which is_ice_stun_username returns;
 * - of a response by the transaction ID of the check that was sent;
 * - of a response whose check is no longer in that table, and of media, by source and destination.
 * Each table only says whom to ask: the agent itself decides, by is_ice_handle_packet, is_ice_accepts_packet and
 * is_ice_takes_media_from. So an entry that is old costs a call, and gives no datagram to a wrong agent. No table grows by
 * what arrives: memory is fixed by server_begin and by struct server_session. Paths are entries of their session, so that none of
 * another session takes their place: however their hashes fall, media gets through. */
#ifndef SERVER_H
#define SERVER_H

#include "is_ice_kit.h"
#include "peer.h"

enum {
    SERVER_BURST = 64,    /* datagrams that are read before the timeouts' turn */
    SERVER_TIMEOUTS = 16, /* timeouts that are called before the datagrams' turn: fewer, since a check brings several datagrams, and
                           * what the socket's buffer does not hold is lost and sent again */
    SERVER_UFRAG = 64,    /* bytes: of a local username fragment at most */
    SERVER_PATHS = 8      /* of a session, from which media gets to it: a ninth replaces the one that was not used for longest */
};

struct server_session;

/* A path of a session, in its bucket of the table of paths. */
struct server_path {
    uint64_t turn;               /* when it was last used; 0: it is in no bucket */
    is_ice_address from, to;
    struct server_session *session;
    struct server_path *next;
};

/* One session. All zero at first. The program creates and frees the agent, and sets and reads `user`; the rest is the server's. */
struct server_session {
    is_ice_agent agent;
    void *user;
    struct server_session *next; /* in its bucket of the table of username fragments */
    uint8_t ufrag[SERVER_UFRAG];
    size_t ufrag_length;
    uint64_t due;                /* when is_ice_handle_timeout is called next */
    size_t place;                /* in the heap of these times */
    uint32_t slot;               /* its number in the table of transaction IDs */
    struct server_path paths[SERVER_PATHS];
};

/* What the server needs of the program. None of them may add or remove a session, or free an agent. */
struct server_calls {
    /* Sends a packet. Returns 0, or the number of the error if the system did not take it: is_ice_failed_send_at lists it. */
    uint32_t (*send)(void *user, const is_ice_packet *packet, const uint8_t *bytes);
    /* Takes an event of a session. */
    void (*event)(void *user, struct server_session *session, const is_ice_event *event);
    /* Takes media, from an address from which the agent takes it. */
    void (*media)(void *user, struct server_session *session, const is_ice_address *from, const is_ice_address *to,
                  const uint8_t *bytes, size_t length);
    void *user;
};

struct server_check; /* an entry of the table of transaction IDs */

struct server {
    struct server_calls calls;
    struct is_ice_log log;  /* may stay all zero: then nothing is logged */
    is_ice_counts counts;   /* of datagrams that are nobody's; with a log also of those that an agent does not take */
    size_t most, count;     /* sessions */
    struct server_session **heap, **slots, **ufrags;
    uint32_t *free_slots;
    size_t ufrags_size, checks_size, paths_size; /* powers of two */
    struct server_check *checks;
    struct server_path **paths;
    uint64_t turn;          /* counts entries and uses: the oldest one is replaced */
    uint8_t random[252];
    size_t random_left;
};

/* server_begin - makes the tables for so many sessions: at most 470 bytes for each. False: there is no memory. */
bool server_begin(struct server *server, const struct server_calls *calls, size_t most);

/* server_end - frees the tables. The sessions stay the program's. */
void server_end(struct server *server);

/* server_add - adds a session whose agent has its local credentials, and starts it. False: there are as many as server_begin said,
 * or another one has its username fragment, or that is longer than SERVER_UFRAG. */
bool server_add(struct server *server, struct server_session *session, uint64_t now);

/* server_remove - removes a session. Its agent may then be freed. */
void server_remove(struct server *server, struct server_session *session);

/* server_changed - sends what the agent has to send, and sees when it is due: call it after credentials or candidates were added, and
 * after an ICE restart, whose username fragment it enters. False: as server_add. */
bool server_changed(struct server *server, struct server_session *session);

/* server_take - passes a datagram to its agent. */
void server_take(
    struct server *server, uint64_t now, const is_ice_address *from, const is_ice_address *to, const uint8_t *bytes, size_t length);

/* server_due - when server_timeouts is to be called next, or UINT64_MAX. */
uint64_t server_due(const struct server *server);

/* server_timeouts - calls the agents that are due: SERVER_TIMEOUTS at most. */
void server_timeouts(struct server *server, uint64_t now);

/* server_turn - waits for a datagram, the next timeout or this time, and for standard input, unless `input` is null; *input: it has
 * something to read. Then reads at most SERVER_BURST datagrams of each socket and calls at most SERVER_TIMEOUTS agents that are
 * due. So neither the socket nor the timers wait for long, however many there are of the other. False: waiting failed. */
bool server_turn(struct server *server, struct net *net, uint64_t until, bool *input);

#endif
