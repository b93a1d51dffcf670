/* A server: it sends back what each peer sends, with all its sessions on one socket (server.h). Each line `signal ..` of standard input
 * is that of another peer, and begins a session: the next line `signal ..` of standard output is for that peer. A session ends when
 * its path is lost. usage: echo ADDRESS     as `echo 127.0.0.1`, and `peer -l controlling` for the peers */
#include "server.h"
#include <stdlib.h>
#include <string.h>

enum { MOST = 1000 };

static struct server_session sessions[MOST]; /* `user` is not null: in use; it is the server's until it is lost */
static struct net net;
static struct server server;
static int lost;

static uint32_t send_packet(void *user, const is_ice_packet *packet, const uint8_t *bytes)
{
    (void)user;
    return net_send(&net, &packet->source, &packet->destination, bytes, packet->length) ? 0 : (uint32_t)net.lost_why;
}

static void take_event(void *user, struct server_session *session, const is_ice_event *event)
{
    (void)user;
    if (event->kind == IS_ICE_STATE_CHANGED && event->state == IS_ICE_DISCONNECTED) session->user = &lost;
}

static void take_media(void *user, struct server_session *session, const is_ice_address *from, const is_ice_address *to,
                       const uint8_t *bytes, size_t length)
{
    (void)user, (void)session;
    net_send(&net, to, from, bytes, length);
}

static void end(struct server_session *session)
{
    server_remove(&server, session);
    is_ice_agent_free(&session->agent);
    memset(session, 0, sizeof *session);
}

/* Begins a session with the peer whose signal this is. */
static void begin(char *signal)
{
    struct server_session *session = sessions;
    is_ice_servers none = {0};
    while (session < sessions + MOST && session->user) session++;
    if (session == sessions + MOST) return;
    struct is_ice_gather gather = {0};
    gather.agent = &session->agent, gather.servers = &none;
    int32_t code = signal_begin(&session->agent);
    if (code == IS_ICE_OK) code = signal_add_hosts(&session->agent, &net);
    if (code == IS_ICE_OK) code = signal_print(&session->agent);
    if (code >= 0) code = signal_take(&gather, signal);
    if (code >= 0 && server_add(&server, session, net_now())) {
        session->user = &server;
        return;
    }
    fprintf(stderr, "echo: no session: %s\n", is_ice_code_text(code));
    is_ice_agent_free(&session->agent);
}

static void print(void *user, const char *line)
{
    (void)user;
    fprintf(stderr, "%s\n", line);
}

int main(int argc, char **argv)
{
    const struct server_calls calls = {send_packet, take_event, take_media, NULL};
    const char *why = "usage: echo ADDRESS";
    char line[4096];
    bool has_input = true, ready;
    if (argc != 2 || !net_bind(&net, argv[1], &why)) return fprintf(stderr, "echo: %s\n", why), 2;
    if (!server_begin(&server, &calls, MOST)) return fprintf(stderr, "echo: no memory\n"), 2;
    server.log.line = print;
    while (has_input && server_turn(&server, &net, UINT64_MAX, &ready)) {
        for (size_t i = 0; i < MOST; i++)
            if (sessions[i].user == &lost) end(&sessions[i]);
        if (!ready) continue;
        has_input = net_line(line, sizeof line);
        if (strncmp(line, "signal ", 7) == 0) begin(line + 7);
    }
    is_ice_log_counts(&server.log, &server.counts);
    for (size_t i = 0; i < MOST; i++)
        if (sessions[i].user) end(&sessions[i]);
    server_end(&server);
    net_close(&net);
}
