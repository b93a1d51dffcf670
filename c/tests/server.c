/* Tests examples/server.c: many sessions on one socket, whose peers are in this process on sockets of their own, over loopback. All start
 * at once. Each has to find a path, which it does only if each request and each response gets to its agent. With 500 sessions or fewer
 * each peer has a socket of its own: then each sends media, which has to get to its session, and to none once that is removed. So many,
 * since their ports are random: a table of paths that has no room for some, by how their hashes fall, shows it in most runs.
 *
 * server [N] [SECONDS]: with so many sessions, 10,000 without a number; fails if they take longer than these seconds, 30 without. */
#define _GNU_SOURCE
#include "../examples/server.h"
#include <stdlib.h>
#include <string.h>

#define TEXT(text) (const uint8_t *)(text), strlen(text)

enum { SHARED = 16, OWN = 500 }; /* sockets of the peers: if sessions share them; at most, if each has its own */

struct side {
    struct net net;
    struct server server;
    struct server_session *sessions;
    size_t count, connected, sent, lost, heard;
};

static struct side one, others[OWN];
static size_t peers;

static void fail(const char *what, const char *why)
{
    printf("server: %s: %s\n", what, why);
    exit(1);
}

static void must(const char *what, int32_t code)
{
    if (code != IS_ICE_OK) fail(what, is_ice_code_text(code));
}

static uint32_t send_packet(void *user, const is_ice_packet *packet, const uint8_t *bytes)
{
    struct side *side = (struct side *)user;
    side->sent++;
    if (net_send(&side->net, &packet->source, &packet->destination, bytes, packet->length)) return 0;
    side->lost++;
    return (uint32_t)side->net.lost_why;
}

static void take_event(void *user, struct server_session *session, const is_ice_event *event)
{
    struct side *side = (struct side *)user;
    if (event->kind != IS_ICE_NOMINATED_SEND || session->user) return;
    session->user = side;
    side->connected++;
}

static void take_media(void *user, struct server_session *session, const is_ice_address *from, const is_ice_address *to,
                       const uint8_t *bytes, size_t length)
{
    struct side *side = (struct side *)user;
    (void)from, (void)to;
    if (length != 2 || session != &side->sessions[(bytes[0] - 128) * 256 + bytes[1]]) fail("media", "of another session");
    side->heard++;
}

static void begin(struct side *side, size_t count)
{
    const char *why;
    const struct server_calls calls = {send_packet, take_event, take_media, side};
    if (!net_bind(&side->net, "127.0.0.1", &why)) fail("127.0.0.1", why);
    side->count = count;
    side->sessions = (struct server_session *)calloc(count + 1, sizeof *side->sessions);
    if (!side->sessions || !server_begin(&side->server, &calls, count)) fail("memory", "there is none");
}

/* The agent of session i of a side. */
static void make(struct side *side, size_t i, size_t number, bool controlling)
{
    is_ice_agent *agent = &side->sessions[i].agent;
    is_ice_candidate host = {0};
    size_t index;
    char ufrag[32], pass[32];
    snprintf(ufrag, sizeof ufrag, "%c%07lx", controlling ? 'a' : 'b', (unsigned long)number);
    snprintf(pass, sizeof pass, "password of %c%09lx", controlling ? 'a' : 'b', (unsigned long)number);
    must("new", is_ice_agent_new(agent, TEXT(ufrag), TEXT(pass), number));
    must("role", is_ice_set_controlling(agent, controlling));
    host.address = side->net.addresses[0];
    must("host", is_ice_add_local(agent, &host, &index));
}

/* Signaling: credentials and the candidate of one to the other. */
static void signal_to(is_ice_agent *to, is_ice_agent *from)
{
    uint8_t ufrag[64], pass[64], line[256];
    size_t ufrag_length, pass_length, length, index;
    must("ufrag", is_ice_local_ufrag(from, ufrag, sizeof ufrag, &ufrag_length));
    must("pass", is_ice_local_pass(from, pass, sizeof pass, &pass_length));
    must("line", is_ice_local_candidate(from, 0, line, sizeof line, &length));
    must("credentials", is_ice_set_remote_credentials(to, ufrag, ufrag_length, pass, pass_length));
    must("candidate", is_ice_add_remote(to, line, length, &index));
}

static size_t connected(void)
{
    size_t count = 0;
    for (size_t i = 0; i < peers; i++) count += others[i].connected;
    return count < one.connected ? count : one.connected;
}

static double seconds(uint64_t from, uint64_t to)
{
    return (double)(to - from) / (double)SECOND;
}

/* A turn of each: the one server has as many as all the others. */
static void turn(uint64_t until)
{
    for (size_t i = 0; i < peers; i++)
        if (!server_turn(&others[i].server, &others[i].net, until, NULL) || !server_turn(&one.server, &one.net, until, NULL))
            fail("wait", net_error_text(net_error()));
}

/* Each peer sends two bytes of media, which say whose it is: not all at once, since a socket's buffer may not hold so many. Returns how
 * many are heard within a second after the last. */
static size_t heard(size_t count)
{
    is_ice_media_path path;
    one.heard = 0;
    for (size_t i = 0; i < count; i++) {
        const uint8_t media[2] = {(uint8_t)(128 + i / 256), (uint8_t)i};
        must("path", is_ice_path_for_media(&others[i].sessions[0].agent, net_now(), &path));
        net_send(&others[i].net, &path.source, &path.destination, media, sizeof media);
        if (i % SHARED == 0) turn(net_now());
    }
    for (uint64_t end = net_now() + SECOND; one.heard < count && net_now() < end;) turn(net_now() + MILLISECOND);
    return one.heard;
}

static void send_media(size_t count)
{
    if (heard(count) != count) fail("media", "not all is heard");
    server_remove(&one.server, &one.sessions[0]);
    if (heard(count) != count - 1) fail("media", "that of a session that was removed is heard, or other media is not");
}

int main(int argc, char **words)
{
    size_t count = argc > 1 ? (size_t)strtoul(words[1], NULL, 10) : 10000;
    double limit = argc > 2 ? strtod(words[2], NULL) : 30;
    uint64_t made = net_now(), start, now;
    peers = count <= OWN ? count : SHARED;
    begin(&one, count);
    for (size_t i = 0; i < peers; i++) begin(&others[i], count / peers + 1);
    for (size_t i = 0; i < count; i++) {
        struct side *peer = &others[i % peers];
        make(&one, i, i, false);
        make(peer, i / peers, i, true);
        signal_to(&one.sessions[i].agent, &peer->sessions[i / peers].agent);
        signal_to(&peer->sessions[i / peers].agent, &one.sessions[i].agent);
    }
    start = now = net_now();
    for (size_t i = 0; i < count; i++) {
        struct side *peer = &others[i % peers];
        if (!server_add(&one.server, &one.sessions[i], now) || !server_add(&peer->server, &peer->sessions[i / peers], now))
            fail("session", "not added");
    }
    while (connected() < count && seconds(start, now) <= limit) {
        turn(now);
        now = net_now();
    }
    size_t sent = one.sent, lost = one.lost;
    for (size_t i = 0; i < peers; i++) sent += others[i].sent, lost += others[i].lost;
    printf("%zu of %zu sessions on one socket: made in %.2f s, connected in %.2f s; %zu datagrams were sent, %zu could not be\n",
           connected(), count, seconds(made, start), seconds(start, now), sent, lost);
    if (connected() < count) fail("sessions", "not all are connected");
    if (peers == count) send_media(count);
    for (size_t i = 0; i <= peers; i++) {
        struct side *side = i < peers ? &others[i] : &one;
        for (size_t k = 0; k < side->count; k++) is_ice_agent_free(&side->sessions[k].agent);
        server_end(&side->server);
        net_close(&side->net);
        free(side->sessions);
    }
    return 0;
}
