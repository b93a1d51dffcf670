/* Many agents on one socket: see server.h. */
#include "server.h"
#include <stdlib.h>
#include <string.h>

enum { WAYS = 4, CHECKS = 8, SHARERS = 4 }; /* checks of a set; of their table for each session; sessions that are entered for a path */

struct server_check {
    uint64_t turn;
    uint8_t id[12];
    uint32_t slot;
};

/* FNV-1a. Nobody else chooses a key: fragments and transaction IDs are random ones of the server, and a path needs a valid pair. */
static uint64_t hash(uint64_t before, const uint8_t *bytes, size_t length)
{
    for (size_t i = 0; i < length; i++) before = (before ^ bytes[i]) * UINT64_C(1099511628211);
    return before ^ before >> 29;
}

#define HASH_START UINT64_C(14695981039346656037)

static uint64_t hash_path(const is_ice_address *from, const is_ice_address *to)
{
    const uint8_t ports[4] = {(uint8_t)from->port, (uint8_t)(from->port >> 8), (uint8_t)to->port, (uint8_t)(to->port >> 8)};
    return hash(hash(hash(HASH_START, ports, sizeof ports), from->bytes, sizeof from->bytes), to->bytes, sizeof to->bytes);
}

static size_t power_from(size_t least)
{
    size_t size = 16;
    while (size < least) size *= 2;
    return size;
}

bool server_begin(struct server *s, const struct server_calls *calls, size_t most)
{
    memset(s, 0, sizeof *s);
    s->calls = *calls, s->most = most;
    s->ufrags_size = power_from(2 * most), s->checks_size = power_from(CHECKS * most), s->paths_size = power_from(2 * most);
    s->heap = (struct server_session **)calloc(most + 1, sizeof *s->heap);
    s->slots = (struct server_session **)calloc(most + 1, sizeof *s->slots);
    s->free_slots = (uint32_t *)calloc(most + 1, sizeof *s->free_slots);
    s->ufrags = (struct server_session **)calloc(s->ufrags_size, sizeof *s->ufrags);
    s->checks = (struct server_check *)calloc(s->checks_size, sizeof *s->checks);
    s->paths = (struct server_path **)calloc(s->paths_size, sizeof *s->paths);
    if (most < UINT32_MAX && s->heap && s->slots && s->free_slots && s->ufrags && s->checks && s->paths) {
        for (size_t i = 0; i < most; i++) s->free_slots[i] = (uint32_t)(most - 1 - i);
        return true;
    }
    server_end(s);
    return false;
}

void server_end(struct server *s)
{
    free(s->heap), free(s->slots), free(s->free_slots), free(s->ufrags), free(s->checks), free(s->paths);
    memset(s, 0, sizeof *s);
}

/* ---- the heap of timeouts: the parent of a place is not due after it */

static void put(struct server *s, size_t place, struct server_session *x)
{
    s->heap[place] = x;
    x->place = place;
}

/* Moves the session in this place to where its time belongs. */
static void sift(struct server *s, size_t place)
{
    struct server_session *x = s->heap[place];
    for (; place > 0 && x->due < s->heap[(place - 1) / 2]->due; place = (place - 1) / 2) put(s, place, s->heap[(place - 1) / 2]);
    for (size_t child; (child = 2 * place + 1) < s->count; place = child) {
        if (child + 1 < s->count && s->heap[child + 1]->due < s->heap[child]->due) child++;
        if (x->due <= s->heap[child]->due) break;
        put(s, place, s->heap[child]);
    }
    put(s, place, x);
}

/* ---- tables: whom to ask */

static struct server_session **bucket_of(struct server *s, const uint8_t *ufrag, size_t length)
{
    return &s->ufrags[hash(HASH_START, ufrag, length) & (s->ufrags_size - 1)];
}

static struct server_session *with_ufrag(struct server *s, const uint8_t *ufrag, size_t length)
{
    struct server_session *x = *bucket_of(s, ufrag, length);
    while (x && (x->ufrag_length != length || memcmp(x->ufrag, ufrag, length) != 0)) x = x->next;
    return x;
}

static void leave_ufrags(struct server *s, struct server_session *x)
{
    struct server_session **at = bucket_of(s, x->ufrag, x->ufrag_length);
    while (*at && *at != x) at = &(*at)->next;
    if (*at) *at = x->next;
}

/* Enters the session under the username fragment that its agent has. */
static bool enter_ufrag(struct server *s, struct server_session *x)
{
    size_t length;
    uint8_t ufrag[SERVER_UFRAG];
    if (is_ice_local_ufrag(&x->agent, ufrag, sizeof ufrag, &length) != IS_ICE_OK || with_ufrag(s, ufrag, length)) return false;
    memcpy(x->ufrag, ufrag, length);
    x->ufrag_length = length;
    struct server_session **bucket = bucket_of(s, ufrag, length);
    x->next = *bucket;
    *bucket = x;
    return true;
}

/* The transaction ID of a check: it replaces the oldest one of its set. A response normally comes long before that. */
static void enter_check(struct server *s, const uint8_t id[12], uint32_t slot)
{
    struct server_check *set = &s->checks[hash(HASH_START, id, 12) & (s->checks_size - 1) & ~(uint64_t)(WAYS - 1)], *oldest = set;
    for (size_t i = 1; i < WAYS; i++)
        if (set[i].turn < oldest->turn) oldest = &set[i];
    memcpy(oldest->id, id, 12);
    oldest->slot = slot, oldest->turn = ++s->turn;
}

static struct server_session *with_check(struct server *s, const uint8_t id[12])
{
    struct server_check *set = &s->checks[hash(HASH_START, id, 12) & (s->checks_size - 1) & ~(uint64_t)(WAYS - 1)];
    for (size_t i = 0; i < WAYS; i++)
        if (set[i].turn != 0 && memcmp(set[i].id, id, 12) == 0) return s->slots[set[i].slot];
    return NULL;
}

static struct server_path **paths_of(struct server *s, const is_ice_address *from, const is_ice_address *to)
{
    return &s->paths[hash_path(from, to) & (s->paths_size - 1)];
}

/* The next entry of this path, from this one of its bucket on. There are at most SHARERS. */
static struct server_path *on_path(struct server_path *p, const is_ice_address *from, const is_ice_address *to)
{
    while (p && !(is_ice_same_address(&p->from, from) && is_ice_same_address(&p->to, to))) p = p->next;
    return p;
}

static void leave_path(struct server *s, struct server_path *p)
{
    struct server_path **at = paths_of(s, &p->from, &p->to);
    while (*at && *at != p) at = &(*at)->next;
    if (*at) *at = p->next;
    p->turn = 0;
}

/* Enters a path from which the agent takes media: so a replay from another address takes nobody's place. It replaces that path of its own
 * session which was not used for longest. Entries of this path whose agents no longer take media from there leave it. */
static void enter_path(struct server *s, struct server_session *x, uint64_t now, const is_ice_address *from, const is_ice_address *to)
{
    struct server_path **first = paths_of(s, from, to), *oldest = x->paths, *next;
    size_t others = 0;
    bool is_there = false;
    if (is_ice_takes_media_from(&x->agent, now, from) != IS_ICE_OK) return;
    for (struct server_path *p = on_path(*first, from, to); p; p = next) {
        next = on_path(p->next, from, to);
        if (is_ice_takes_media_from(&p->session->agent, now, from) != IS_ICE_OK) leave_path(s, p);
        else if (p->session != x) others++;
        else p->turn = ++s->turn, is_there = true;
    }
    if (is_there || others >= SHARERS) return;
    for (size_t i = 1; i < SERVER_PATHS; i++)
        if (x->paths[i].turn < oldest->turn) oldest = &x->paths[i];
    leave_path(s, oldest);
    while (*first) first = &(*first)->next;
    oldest->from = *from, oldest->to = *to, oldest->session = x, oldest->turn = ++s->turn, oldest->next = NULL;
    *first = oldest;
}

/* ---- what an agent has to do */

static void send_packet(struct server *s, struct server_session *x, const is_ice_packet *packet, const uint8_t *bytes)
{
    is_ice_stun_message message;
    if (is_ice_stun_read(bytes, packet->length, &message) == IS_ICE_OK && message.cls == IS_ICE_STUN_REQUEST)
        enter_check(s, message.id.bytes, x->slot);
    uint32_t why = s->calls.send(s->calls.user, packet, bytes);
    if (why != 0 && is_ice_send_failed(&x->agent, packet->protocol, &packet->source, &packet->destination, why) != IS_ICE_OK) return;
}

/* After each call that changes an agent: its packets, its events, and its next timeout. */
static void settle(struct server *s, struct server_session *x)
{
    uint64_t at;
    uint8_t bytes[600];
    is_ice_packet packet;
    is_ice_event event = {0};
    while (is_ice_poll_transmit(&x->agent, bytes, sizeof bytes, &packet) == IS_ICE_OK) send_packet(s, x, &packet, bytes);
    while (is_ice_poll_event(&x->agent, &event) == IS_ICE_OK) {
        is_ice_log_event(&s->log, &x->agent, &event);
        s->calls.event(s->calls.user, x, &event);
    }
    if (is_ice_poll_timeout(&x->agent, &at) != IS_ICE_OK) return;
    x->due = at;
    sift(s, x->place);
}

bool server_add(struct server *s, struct server_session *x, uint64_t now)
{
    if (s->count == s->most || !enter_ufrag(s, x)) return false;
    x->slot = s->free_slots[s->most - 1 - s->count];
    s->slots[x->slot] = x;
    x->due = now;
    put(s, s->count++, x);
    sift(s, x->place);
    return true;
}

void server_remove(struct server *s, struct server_session *x)
{
    size_t place = x->place;
    leave_ufrags(s, x);
    for (size_t i = 0; i < SERVER_PATHS; i++) leave_path(s, &x->paths[i]);
    s->slots[x->slot] = NULL;
    s->free_slots[s->most - s->count--] = x->slot;
    if (place == s->count) return;
    put(s, place, s->heap[s->count]);
    sift(s, place);
}

bool server_changed(struct server *s, struct server_session *x)
{
    leave_ufrags(s, x);
    bool is_there = enter_ufrag(s, x);
    settle(s, x);
    return is_there;
}

uint64_t server_due(const struct server *s)
{
    return s->count > 0 ? s->heap[0]->due : UINT64_MAX;
}

/* Twelve random bytes for a transaction ID: the system is asked for those of 21 at once. NULL: it has none. */
static const uint8_t *draw(struct server *s)
{
    if (s->random_left == 0) s->random_left = net_random(s->random, sizeof s->random) ? sizeof s->random : 0;
    if (s->random_left == 0) return NULL;
    s->random_left -= IS_ICE_TIMEOUT_RANDOM;
    return s->random + s->random_left;
}

void server_timeouts(struct server *s, uint64_t now)
{
    for (size_t i = 0; i < SERVER_TIMEOUTS && server_due(s) <= now; i++) {
        struct server_session *x = s->heap[0];
        const uint8_t *random = draw(s);
        bool is_done = random && is_ice_handle_timeout(&x->agent, now, random, IS_ICE_TIMEOUT_RANDOM) == IS_ICE_OK;
        x->due = is_done ? UINT64_MAX : now + 50 * MILLISECOND; /* without memory it is repeated a little later */
        sift(s, x->place);
        if (is_done) settle(s, x);
    }
}

/* ---- datagrams */

/* Passes a message to the agent, if there is one. True: it took it. */
static bool taken(struct server *s, struct server_session *x, uint64_t now, const is_ice_address *from, const is_ice_address *to,
                  const uint8_t *bytes, size_t length)
{
    if (!x) return false;
    if (s->log.line) is_ice_log_packet(&s->log, &s->counts, &x->agent, IS_ICE_UDP, from, to, bytes, length);
    if (is_ice_handle_packet(&x->agent, now, IS_ICE_UDP, from, to, bytes, length) != IS_ICE_OK) return false;
    enter_path(s, x, now, from, to);
    settle(s, x);
    return true;
}

/* A request: its USERNAME names the receiver. */
static void take_request(
    struct server *s, uint64_t now, const is_ice_address *from, const is_ice_address *to, const uint8_t *bytes, size_t length)
{
    uint8_t username[513];
    size_t whole, receiver;
    int32_t code = is_ice_stun_username(bytes, length, username, sizeof username, &whole, &receiver);
    struct server_session *x = code == IS_ICE_OK && receiver <= SERVER_UFRAG ? with_ufrag(s, username, receiver) : NULL;
    if (x) taken(s, x, now, from, to, bytes, length);
    else is_ice_count(&s->counts, code == IS_ICE_OK ? IS_ICE_REJECTED_LOCAL_UFRAG : IS_ICE_UNPARSED);
}

/* A response: of the agent whose check it belongs to. If that is no longer in the table, those on this path are asked. */
static void take_response(struct server *s, uint64_t now, const is_ice_address *from, const is_ice_address *to, const uint8_t *bytes,
                          size_t length, const uint8_t id[12])
{
    if (taken(s, with_check(s, id), now, from, to, bytes, length)) return;
    for (struct server_path *p = on_path(*paths_of(s, from, to), from, to); p; p = on_path(p->next, from, to))
        if (is_ice_accepts_packet(&p->session->agent, IS_ICE_UDP, from, to, bytes, length) == IS_ICE_OK)
            if (taken(s, p->session, now, from, to, bytes, length)) return;
    is_ice_count(&s->counts, IS_ICE_REJECTED_NO_CHECK);
}

/* Media: of a session that takes it on this path. Sessions whose peers share a socket have one path: then it is the first one's,
 * and its content has to say whose it is. */
static void take_media(
    struct server *s, uint64_t now, const is_ice_address *from, const is_ice_address *to, const uint8_t *bytes, size_t length)
{
    struct server_path *p = on_path(*paths_of(s, from, to), from, to);
    while (p && is_ice_takes_media_from(&p->session->agent, now, from) != IS_ICE_OK) p = on_path(p->next, from, to);
    if (!p) return;
    p->turn = ++s->turn;
    s->calls.media(s->calls.user, p->session, from, to, bytes, length);
}

void server_take(struct server *s, uint64_t now, const is_ice_address *from, const is_ice_address *to, const uint8_t *bytes, size_t length)
{
    is_ice_stun_message message;
    if (is_ice_is_stun(bytes, length) != IS_ICE_OK) take_media(s, now, from, to, bytes, length);
    else if (is_ice_stun_read(bytes, length, &message) != IS_ICE_OK) is_ice_count(&s->counts, IS_ICE_UNPARSED);
    else if (message.cls == IS_ICE_STUN_REQUEST) take_request(s, now, from, to, bytes, length);
    else take_response(s, now, from, to, bytes, length, message.id.bytes);
}

bool server_turn(struct server *s, struct net *net, uint64_t until, bool *input)
{
    bool ready[NET_SOCKETS + 1];
    uint8_t bytes[2048];
    is_ice_address from;
    uint64_t due = server_due(s);
    if (!net_wait(net, input != NULL, due < until ? due : until, ready)) return false;
    if (input) *input = ready[net->count];
    for (size_t i = 0; i < net->count; i++) {
        ssize_t length = 0;
        for (int n = 0; ready[i] && n < SERVER_BURST && (length = net_receive(net, i, bytes, sizeof bytes, &from)) >= 0; n++)
            server_take(s, net_now(), &from, &net->addresses[i], bytes, (size_t)length);
    }
    server_timeouts(s, net_now());
    return true;
}
