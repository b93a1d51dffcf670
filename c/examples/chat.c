/* A chat over UDP. Run it on two machines, paste the line `signal ..` of each into the other, and type. It makes an ICE restart if
 * the peer is lost, and says why, if the network changes, and at /restart: paste the new lines then. /quit ends it. With -t it also
 * connects two machines behind NATs that no other path gets through. Clock, sockets, servers and signaling are those of peer_net.c,
 * peer_servers.c and peer_signal.c.
 *
 * usage: chat controlling|controlled [-l] [-s URL].. [-t URL].. [-u USER] [-w PASSWORD]
 *   -l   at 127.0.0.1 only
 *   -s   a STUN server, as stun:stun.example.org
 *   -t   a TURN server, as turn:turn.example.org or turn:192.0.2.1:3478?transport=tcp, with this user name and password,
 *        or turns:turn.example.org, over TLS, if it is built with -DPEER_TLS -lssl -lcrypto */
#define _DEFAULT_SOURCE
#include "peer.h"
#include <string.h>
#include <unistd.h>

static const char *const states[] = {"New", "Checking", "Connected", "Completed", "Disconnected"};
static is_ice_agent agent;
static struct net net;
static struct servers servers;
static is_ice_counts counts;
static uint64_t signal_by; /* the signal is printed once the servers have answered, and by then at the latest; 0: it was */

static bool ok(int32_t code) /* after an error the agent is as it was, and the chat goes on */
{
    if (code < 0) printf("error %s\n", is_ice_code_text(code));
    return code == IS_ICE_OK;
}

static void print(void *user, const char *line) { (void)user, (void)puts(line); }
static const struct is_ice_log lines = {print, NULL};

static void report(void)
{
    is_ice_event event = {0};
    is_ice_agent_stats stats = {0};
    char from[IS_ICE_ADDRESS_TEXT], to[IS_ICE_ADDRESS_TEXT];
    while (ok(is_ice_poll_event(&agent, &event)) && ok(is_ice_stats(&agent, &stats))) {
        if (event.kind == IS_ICE_NOMINATED_SEND)
            printf("path %s -> %s\n", is_ice_address_text(&event.source, from), is_ice_address_text(&event.destination, to));
        if (event.kind == IS_ICE_SILENT) printf("silent no packet for 2 s\n");
        if (event.kind == IS_ICE_HEARD) printf("again a packet came\n");
        if (event.kind != IS_ICE_STATE_CHANGED) continue;
        unsigned sent = (unsigned)stats.bind_request_sent, answered = (unsigned)stats.bind_success_recv;
        printf("state %s: %u of %u checks answered\n", states[event.state], answered, sent);
        if (event.state != IS_ICE_DISCONNECTED) continue;
        is_ice_log_removed(&lines, &agent, 0); /* those since the last restart, and what could not be sent */
        is_ice_log_failed_sends(&lines, &agent);
        ok(is_ice_servers_probe(&servers.clients, net_now())); /* a relayed address may be gone */
        if (stats.nomination_send_count > 0) ok(signal_restart(&agent)); /* else the peer may not have this side's line yet */
    }
}

static void gathered(uint64_t now) /* what the servers say; a candidate that comes late prints the signal again */
{
    is_ice_gathered got;
    while (ok(is_ice_gather_event(&servers.gather, now, &got)))
        if (ok(got.failed) && got.count > 0 && signal_by == 0) signal_by = now + SECOND;
    if (signal_by == 0 || (signal_by > now && ok(is_ice_servers_gathering(&servers.clients)))) return;
    ok(signal_print(&agent));
    signal_by = 0;
}

static void take(uint8_t protocol, const is_ice_address *from, const is_ice_address *to, uint8_t *bytes, size_t length)
{
    is_ice_datagram media;
    int32_t code = is_ice_gather_packet(&servers.gather, net_now(), protocol, from, to, bytes, length, &media);
    if (code != IS_ICE_UNPARSED) ok(code);
    else if (ok(is_ice_takes_media_from(&agent, net_now(), &media.source)))
        printf("heard %.*s\n", (int)media.length, net_printable(bytes + media.offset, media.length));
}

static void take_from_stream(void *user, const is_ice_address *from, const is_ice_address *to, uint8_t *bytes, size_t length)
{
    (void)user, take(IS_ICE_TCP, from, to, bytes, length);
}

static void receive(size_t i)
{
    uint8_t bytes[1600];
    is_ice_address from;
    ssize_t got = net_receive(&net, i, bytes, sizeof bytes, &from);
    if (got >= 0) take(IS_ICE_UDP, &from, &net.addresses[i], bytes, (size_t)got);
}

static bool take_line(void) /* false: it was the last one */
{
    char line[4096];
    uint8_t random[IS_ICE_SERVERS_RANDOM], buffer[sizeof line + IS_ICE_WRAPPING_LENGTH];
    is_ice_packet packet;
    if (!net_line(line, sizeof line) || strcmp(line, "/quit") == 0) return false;
    const uint8_t *text = (const uint8_t *)line;
    if (strncmp(line, "signal ", 7) == 0) ok(signal_take(&servers.gather, line + 7)); /* makes a restart if the peer did */
    else if (strcmp(line, "/restart") == 0) ok(signal_restart(&agent));
    else if (!net_random(random, sizeof random)
             || !ok(is_ice_gather_media(&servers.gather, net_now(), random, text, strlen(line), buffer, sizeof buffer, &packet)))
        printf("error there is no path\n");
    else net_send_packet(&net, &packet, buffer);
    return true;
}

static void send_all(uint64_t now)
{
    uint8_t random[IS_ICE_SERVERS_RANDOM], buffer[IS_ICE_GATHER_BUFFER];
    is_ice_packet packet;
    while (net_random(random, sizeof random) && ok(is_ice_gather_transmit(&servers.gather, now, random, buffer, sizeof buffer, &packet)))
        if (!net_send_packet(&net, &packet, buffer))
            ok(is_ice_send_failed(&agent, packet.protocol, &packet.source, &packet.destination, (uint32_t)net.lost_why));
}

static bool begin(int argc, char **argv, const char **only) /* reads the options, and makes agent and servers */
{
    const char *why = "usage: chat controlling|controlled [-l] [-s URL].. [-t URL].. [-u USER] [-w PASSWORD]";
    bool is_good = argc > 1;
    is_ice_agent_settings settings;
    for (int option; is_good && (option = getopt(argc - 1, argv + 1, "ls:t:u:w:")) != -1;) {
        if (option == 's' || option == 't') is_good = servers_add(&servers, optarg, &why);
        else if (option == 'u') servers.username = optarg;
        else if (option == 'w') servers.password = optarg;
        else is_good = option == 'l', *only = "127.0.0.1";
    }
    if (!is_good) return fprintf(stderr, "chat: %s\n", why), false;
    if (!ok(signal_begin(&agent)) || !ok(servers_begin(&servers, &agent, &net)) || !ok(is_ice_settings(&agent, &settings))) return false;
    servers.gather.log = &lines, servers.gather.counts = &counts; /* why a datagram gets no response, if it gets none */
    settings.consent_timeout = 5 * SECOND, settings.strict_consent = true; /* a lost peer is noticed after 5 s, and not after 30 s, */
    ok(is_ice_set_settings(&agent, &settings));
    ok(is_ice_set_silence(&agent, 2 * SECOND));
    ok(is_ice_set_max_rto(&agent, SECOND)); /* as the path is checked each second */
    return ok(is_ice_set_controlling(&agent, strcmp(argv[1], "controlling") == 0));
}

int main(int argc, char **argv)
{
    uint8_t random[IS_ICE_GATHER_RANDOM];
    bool goes_on = true, ready[NET_SOCKETS + 1];
    const char *only = NULL;
    if (!begin(argc, argv, &only)) return 1;
    for (uint64_t timeout = 0, now; goes_on;) {
        if (net_move(&net, now = net_now(), only) && ok(signal_renew(&agent, &net)) && ok(servers_bind(&servers, &net)))
            signal_by = now + 5 * SECOND;
        if (now >= timeout && net_random(random, sizeof random)) ok(is_ice_gather_timeout(&servers.gather, now, random));
        gathered(now);
        send_all(now);
        report();
        fflush(stdout);
        uint64_t look = now + SECOND; /* for other addresses */
        if (!ok(is_ice_gather_poll_timeout(&servers.gather, &timeout)) || timeout > look) timeout = look;
        goes_on = net_wait(&net, true, timeout, ready);
        for (size_t i = 0; i < net.count; i++)
            if (ready[i]) receive(i);
        servers_read(&servers, take_from_stream, NULL);
        if (ready[net.count]) goes_on = take_line();
    }
    servers_end(&servers, &net);
    is_ice_agent_free(&agent);
}
