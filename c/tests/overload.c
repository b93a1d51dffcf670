/* Many sessions start at once on one socket, with a loop that is not fair: in simulated time each turn reads at most 64 datagrams of a
 * socket, and then calls all agents that are due. A datagram and a call take the processor's time, and a socket's buffer loses what it does
 * not hold. So checks that come too early delay the responses for which agents wait. With `Modern` all sessions have to be connected within
 * twice the time of `Original`.
 *
 * overload [N]: with so many sessions, 2,500 without a number. */
#define _GNU_SOURCE
#include "measuring.h"

enum {
    PEERS = 16,         /* sockets of the peers; the other agent of each session is on one socket */
    SOCKETS = PEERS + 1,
    BURST = 64,         /* datagrams that are read before the timeouts' turn */
    HELD = 256,         /* datagrams in the buffer of a socket: some 830 of 212,992 bytes each */
    MICROSECOND = 1000,
    TAKES = 10 * MICROSECOND, /* a datagram, or a call of an agent that is due */
    SENDS = 5 * MICROSECOND,
    MOST = 120,         /* seconds */
    TWICE = 2
};

struct side {
    is_ice_agent agent;
    size_t number, socket, place; /* the place in the heap of its socket */
    uint64_t due;
    struct side *peer;
    bool is_selected;
};

struct datagram {
    struct side *to;
    is_ice_address from, at;
    struct message message;
};

struct socket {
    struct datagram held[HELD];
    size_t first, count, sides;
    struct side **heap;
};

static struct socket sockets[SOCKETS];
static struct side *all;
static size_t selected, sent, lost;
static uint64_t now, random_state;

/* ---- the heap of a socket's timeouts */

static void put(struct side **heap, size_t i, struct side *x)
{
    heap[i] = x;
    x->place = i;
}

static void place(struct socket *s, struct side *x)
{
    struct side **heap = s->heap;
    size_t i = x->place;
    for (; i > 0 && heap[(i - 1) / 2]->due > x->due; i = (i - 1) / 2) put(heap, i, heap[(i - 1) / 2]);
    for (size_t child; (child = 2 * i + 1) < s->sides; i = child) {
        if (child + 1 < s->sides && heap[child + 1]->due < heap[child]->due) child++;
        if (heap[child]->due >= x->due) break;
        put(heap, i, heap[child]);
    }
    put(heap, i, x);
}

/* ---- the loop */

/* After a call on an agent that has begun: asks it when it is due, of which the earliest answer since its last timeout counts, and sends
 * what it has to send. */
static void settle(struct side *x)
{
    struct socket *to = &sockets[x->peer->socket];
    uint64_t at;
    struct message m;
    is_ice_packet packet;
    is_ice_event event;
    if (is_ice_poll_timeout(&x->agent, &at) == IS_ICE_OK && at < x->due) x->due = at;
    while (transmit(&x->agent, &m, &packet)) {
        now += SENDS;
        sent++;
        if (to->count == HELD) {
            lost++;
            continue;
        }
        to->held[(to->first + to->count++) % HELD] = (struct datagram){x->peer, packet.source, packet.destination, m};
    }
    while (is_ice_poll_event(&x->agent, &event) == IS_ICE_OK)
        if (event.kind == IS_ICE_NOMINATED_SEND && !x->is_selected) x->is_selected = true, selected++;
    place(&sockets[x->socket], x);
}

/* A turn of a socket's loop. Whether there was something to do. */
static bool turn(struct socket *s)
{
    bool was_busy = false;
    for (int n = 0; n < BURST && s->count > 0; n++) {
        const struct datagram d = s->held[s->first];
        s->first = (s->first + 1) % HELD;
        s->count--;
        now += TAKES;
        int32_t code = is_ice_handle_packet(&d.to->agent, now, IS_ICE_UDP, &d.from, &d.at, d.message.bytes, d.message.length);
        if (code < 0) fail("packet", is_ice_code_text(code));
        settle(d.to);
        was_busy = true;
    }
    for (uint64_t begun = now; s->heap[0]->due <= begun;) {
        struct side *x = s->heap[0];
        now += TAKES;
        x->due = UINT64_MAX;
        timeout(&random_state, &x->agent, now);
        settle(x);
        was_busy = true;
    }
    return was_busy;
}

/* All loops share a processor: the one socket has as many turns as all the others. */
static void run(size_t sides)
{
    const uint64_t end = now + MOST * SECOND;
    while (selected < sides && now < end) {
        bool was_busy = false;
        uint64_t next = UINT64_MAX;
        for (size_t i = 1; i < SOCKETS; i++) {
            if (turn(&sockets[i])) was_busy = true;
            if (turn(&sockets[0])) was_busy = true;
        }
        for (size_t i = 0; i < SOCKETS; i++)
            if (sockets[i].heap[0]->due < next) next = sockets[i].heap[0]->due;
        if (!was_busy && next > now) now = next;
    }
}

/* ---- the sessions */

static void introduce(struct side *x, bool modern)
{
    char own[32], line[100];
    size_t index;
    is_ice_agent_settings settings;
    is_ice_candidate host = {0};
    const uint8_t last = x->socket == 0 ? 1 : 2;
    snprintf(own, sizeof own, "%c%07zu", last == 1 ? 'a' : 'b', x->number);
    must("new", is_ice_agent_new(&x->agent, TEXT(own), TEXT("password of an agent"), x->number), IS_ICE_OK);
    must("settings", is_ice_settings(&x->agent, &settings), IS_ICE_OK);
    settings.modern = modern;
    must("settings", is_ice_set_settings(&x->agent, &settings), IS_ICE_OK);
    must("role", is_ice_set_controlling(&x->agent, last == 2), IS_ICE_OK);
    host.address = (is_ice_address){4, {10, 0, 0, last}, 5000, 0, 0};
    must("host", is_ice_add_local(&x->agent, &host, &index), IS_ICE_OK);
    own[0] = last == 1 ? 'b' : 'a';
    must("credentials", is_ice_set_remote_credentials(&x->agent, TEXT(own), TEXT("password of an agent")), IS_ICE_OK);
    snprintf(line, sizeof line, "candidate:1 1 udp 2130706431 10.0.0.%d 5000 typ host", 3 - last);
    must("candidate", is_ice_add_remote(&x->agent, TEXT(line), &index), IS_ICE_OK);
}

/* The seconds until all sessions of this profile are connected. */
static double played(size_t sessions, bool modern)
{
    const uint64_t start = 60 * SECOND;
    now = start, random_state = 1, selected = sent = lost = 0;
    all = (struct side *)calloc(2 * sessions, sizeof *all);
    for (size_t i = 0; i < SOCKETS; i++) {
        sockets[i].first = sockets[i].count = sockets[i].sides = 0;
        sockets[i].heap = (struct side **)calloc(sessions + 1, sizeof *sockets[i].heap);
    }
    for (size_t i = 0; i < 2 * sessions; i++) {
        struct side *x = &all[i];
        struct socket *s;
        x->number = i % sessions;
        x->socket = i < sessions ? 0 : 1 + x->number % PEERS;
        x->peer = &all[(i + sessions) % (2 * sessions)];
        x->due = now;
        s = &sockets[x->socket];
        x->place = s->sides++;
        introduce(x, modern);
        place(s, x);
    }
    run(2 * sessions);
    printf("%s, %zu sessions at once: %zu of %zu agents connected after %.2f s, %zu datagrams were sent, %zu lost\n",
           modern ? "Modern" : "Original", sessions, selected, 2 * sessions, (double)(now - start) / (double)SECOND, sent, lost);
    if (selected < 2 * sessions) fail("overload", "not all are connected");
    for (size_t i = 0; i < 2 * sessions; i++) is_ice_agent_free(&all[i].agent);
    for (size_t i = 0; i < SOCKETS; i++) free(sockets[i].heap);
    free(all);
    return (double)(now - start) / (double)SECOND;
}

int main(int argc, char **words)
{
    const size_t sessions = argc > 1 ? (size_t)strtoul(words[1], NULL, 10) : 2500;
    const double original = played(sessions, false), modern = played(sessions, true);
    if (modern > TWICE * original) fail("overload", "Modern takes more than twice the time of Original");
    return 0;
}
