/* Connects to another peer over UDP, and lets both users chat: a complete program around the agent. `peer -h` explains its
 * options.
 *
 * It binds a socket at each address of the machine's interfaces, and asks the STUN and TURN servers, if there are any. It prints
 * its signal as one line, and each later candidate as a line of its own: the other peer reads this standard output as its
 * standard input. It reports what happens on standard error. From standard input it reads:
 *
 *     signal UFRAG PASSWORD CANDIDATE,CANDIDATE,..   the other peer's signal
 *     candidate:..                                   a later candidate of the other peer
 *     /restart, /stats, /pairs, /quit
 *
 * It sends any other line to the other peer as chat, once there is a path. A line that begins as one of the above but is
 * malformed is an error, and is not sent.
 *
 * Chat is sent as plain text, so do not send secrets: real media is encrypted (DTLS). */
#define _DEFAULT_SOURCE
#include "peer.h"
#include <errno.h>
#include <stdio.h>
#include <stdlib.h>
#include <string.h>
#include <unistd.h>

enum { ROOM = 16384, SENT = ROOM + 100, BURST = 64, LONGEST = 86400 };

struct options {
    const char *addresses[NET_SOCKETS], *urls[SERVERS], *username, *password, *message, *capture;
    size_t address_count, url_count;
    bool loopback, lite, renomination, controlling;
    uint64_t patience, pacing;
};

struct session {
    is_ice_agent agent;
    struct net net;
    struct servers servers;
    const char *message;
    uint64_t end, next_message, timeout, not_before;
    int32_t state;
    bool has_heard, is_over, is_late;
    struct is_ice_log log;
    is_ice_counts counts;
    char input[ROOM];
    size_t input_length;
    bool input_is_over, input_is_too_long;
};

static void print_line(void *user, const char *line)
{
    (void)user;
    fprintf(stderr, "%s\n", line);
}

/* Reports an error on standard error. The agent is unchanged, and the program goes on. */
static int32_t warn(const char *what, int32_t code)
{
    if (code < 0) fprintf(stderr, "peer: %s: %s\n", what, is_ice_code_text(code));
    return code;
}

static void stop(const char *what, const char *why)
{
    fprintf(stderr, "peer: %s%s%s\n", what, why ? ": " : "", why ? why : "");
    exit(2);
}

static void stop_option(char option, const char *value, const char *why)
{
    fprintf(stderr, "peer: -%c %s: %s\n", option, value, why);
    exit(2);
}

/* ---- timeouts, packets and events of the agent, and of the servers */

static uint64_t least(uint64_t a, uint64_t b)
{
    return a < b ? a : b;
}

static void draw(uint8_t *random, size_t length)
{
    if (!net_random(random, length)) stop("no random bytes", NULL);
}

/* Passes the current time on, if it is due. If the call fails, it is repeated a little later. */
static void handle_timeout(struct session *s, uint64_t now)
{
    uint8_t random[IS_ICE_GATHER_RANDOM];
    if (now < s->timeout) return;
    draw(random, sizeof random);
    int32_t code = warn("timeout", is_ice_gather_timeout(&s->servers.gather, now, random));
    s->not_before = code < 0 ? now + 50 * MILLISECOND : 0;
    s->timeout = code < 0 ? s->not_before : UINT64_MAX;
}

/* When to call it next. */
static uint64_t next_timeout(struct session *s)
{
    uint64_t at;
    int32_t code = warn("next timeout", is_ice_gather_poll_timeout(&s->servers.gather, &at));
    if (code == IS_ICE_OK) s->timeout = at > s->not_before ? at : s->not_before;
    return s->timeout;
}

static void send_all(struct session *s)
{
    uint8_t buffer[IS_ICE_GATHER_BUFFER], random[IS_ICE_SERVERS_RANDOM];
    is_ice_packet packet;
    for (;;) {
        draw(random, sizeof random);
        int32_t code = is_ice_gather_transmit(&s->servers.gather, net_now(), random, buffer, sizeof buffer, &packet);
        if (warn("transmit", code) != IS_ICE_OK) return;
        if (net_send_packet(&s->net, &packet, buffer)) continue;
        uint32_t why = (uint32_t)s->net.lost_why;
        warn("failed send", is_ice_send_failed(&s->agent, packet.protocol, &packet.source, &packet.destination, why));
    }
}

/* Prints the candidates that the servers bring: they are found after the signal was printed. */
static void gathered(struct session *s)
{
    is_ice_gathered got;
    while (warn("servers", is_ice_gather_event(&s->servers.gather, net_now(), &got)) == IS_ICE_OK) {
        warn("candidate of a server", got.failed);
        for (size_t i = 0; i < got.count; i++) puts(got.lines[i]);
        fflush(stdout);
    }
}

static void note_all(struct session *s)
{
    static const char *const names[] = {"New", "Checking", "Connected", "Completed", "Disconnected"};
    char from[IS_ICE_ADDRESS_TEXT], to[IS_ICE_ADDRESS_TEXT];
    is_ice_event event = {0};
    while (warn("event", is_ice_poll_event(&s->agent, &event)) == IS_ICE_OK) {
        if (event.kind == IS_ICE_STATE_CHANGED) s->state = event.state;
        switch (event.kind) {
        case IS_ICE_RESTARTED: fprintf(stderr, "session begins\n"); break;
        case IS_ICE_STATE_CHANGED: fprintf(stderr, "state %s\n", names[event.state]); break;
        case IS_ICE_DISCOVERED_RECV: fprintf(stderr, "source %s\n", is_ice_address_text(&event.source, from)); break;
        case IS_ICE_NOMINATED_SEND:
            fprintf(stderr, "path %s %s\n", is_ice_address_text(&event.source, from), is_ice_address_text(&event.destination, to));
            break;
        case IS_ICE_SILENT: fprintf(stderr, "silent for 5 s\n"); break; /* the default of is_ice_set_silence */
        case IS_ICE_HEARD: fprintf(stderr, "no longer silent\n"); break;
        default: break;
        }
    }
}

/* Whether there is a path for chat: also after an ICE restart, until consent to send on the old path ends. */
static bool has_path(struct session *s)
{
    is_ice_media_path path;
    return warn("path", is_ice_path_for_media(&s->agent, net_now(), &path)) == IS_ICE_OK;
}

/* ---- datagrams from the sockets */

/* Prints what the other peer says. */
static void hear(struct session *s, const is_ice_address *from, uint8_t *bytes, size_t length)
{
    if (warn("address", is_ice_takes_media_from(&s->agent, net_now(), from)) != IS_ICE_OK) return;
    fprintf(stderr, "heard %.*s\n", (int)length, net_printable(bytes, length));
    s->has_heard = true;
}

static void take(struct session *s, uint8_t protocol, const is_ice_address *from, const is_ice_address *to, uint8_t *bytes, size_t length)
{
    is_ice_datagram media;
    int32_t code = is_ice_gather_packet(&s->servers.gather, net_now(), protocol, from, to, bytes, length, &media);
    if (code == IS_ICE_OK) note_all(s);
    else if (code == IS_ICE_UNPARSED) hear(s, &media.source, bytes + media.offset, media.length);
    else warn("packet", code);
}

static void take_from_stream(void *session, const is_ice_address *from, const is_ice_address *to, uint8_t *bytes, size_t length)
{
    take((struct session *)session, IS_ICE_TCP, from, to, bytes, length);
}

static void receive(struct session *s, size_t index)
{
    uint8_t bytes[2048];
    is_ice_address from;
    ssize_t got;
    for (int i = 0; i < BURST && (got = net_receive(&s->net, index, bytes, sizeof bytes, &from)) >= 0; i++)
        take(s, IS_ICE_UDP, &from, &s->net.addresses[index], bytes, (size_t)got);
}

/* ---- lines from standard input */

static void say(struct session *s, const char *text)
{
    uint8_t buffer[SENT], random[IS_ICE_SERVERS_RANDOM];
    is_ice_packet packet;
    const uint8_t *bytes = (const uint8_t *)text;
    draw(random, sizeof random);
    int32_t code = is_ice_gather_media(&s->servers.gather, net_now(), random, bytes, strlen(text), buffer, sizeof buffer, &packet);
    if (warn("chat", code) == IS_ICE_OK) net_send_packet(&s->net, &packet, buffer);
    else fprintf(stderr, "peer: there is no path yet: not sent\n");
}

static void print_stats(struct session *s)
{
    is_ice_agent_stats stats;
    is_ice_nominated_pair path;
    if (warn("stats", is_ice_stats(&s->agent, &stats)) != IS_ICE_OK) return;
    fprintf(stderr, "stats sent %llu answered %llu served %llu lost %llu", (unsigned long long)stats.bind_request_sent,
            (unsigned long long)stats.bind_success_recv, (unsigned long long)stats.bind_request_recv, (unsigned long long)s->net.lost);
    if (is_ice_nominated(&s->agent, &path) == IS_ICE_OK && path.has_rtt)
        fprintf(stderr, " last round trip %llu us", (unsigned long long)(path.rtt / 1000));
    fprintf(stderr, "\n");
    is_ice_log_counts(&s->log, &s->counts);
    is_ice_log_failed_sends(&s->log, &s->agent);
}

/* Prints the transport address of a candidate. A peer may send a text of any length: of one that the buffer is too short for, only the
 * length is known. */
static void print_address(const char *what, int32_t code, const is_ice_fields *fields, size_t length)
{
    char text[IS_ICE_ADDRESS_TEXT];
    if (code == IS_ICE_BUFFER_TOO_SHORT) fprintf(stderr, " %s a candidate of %llu bytes", what, (unsigned long long)length);
    if (code == IS_ICE_OK) fprintf(stderr, " %s %s", what, is_ice_address_text(&fields->address, text));
}

/* Prints each pair with its candidates. */
static void print_pairs(struct session *s)
{
    static const char *const states[] = {"waiting", "in progress", "succeeded"};
    is_ice_pair pair;
    for (size_t i = 0; is_ice_pair_at(&s->agent, i, &pair) == IS_ICE_OK; i++) {
        uint8_t line[512];
        size_t length = 0;
        is_ice_fields fields;
        int32_t code = is_ice_local_fields(&s->agent, pair.local, line, sizeof line, &length, &fields);
        fprintf(stderr, "pair %llu", (unsigned long long)i);
        print_address("from", code, &fields, length);
        code = is_ice_remote_fields(&s->agent, pair.remote, line, sizeof line, &length, &fields);
        print_address("to", code, &fields, length);
        fprintf(stderr, " %s%s%s answered %llu", states[pair.state], pair.nominated ? " nominated" : "",
                pair.selected ? " selected" : "", (unsigned long long)pair.responses);
        if (pair.has_rtt) fprintf(stderr, " last round trip %llu us", (unsigned long long)(pair.rtt / 1000));
        fprintf(stderr, "\n");
    }
}

static void take_command(struct session *s, const char *line)
{
    if (strcmp(line, "/quit") == 0) s->is_over = true;
    else if (strcmp(line, "/stats") == 0) print_stats(s);
    else if (strcmp(line, "/pairs") == 0) print_pairs(s), is_ice_log_removed(&s->log, &s->agent, 0);
    else if (strcmp(line, "/restart") == 0) warn("restart", signal_restart(&s->agent));
    else fprintf(stderr, "peer: %s: unknown command; there are /restart, /stats, /pairs and /quit\n", line);
}

/* Whether the line's first word, which ends with a blank or the line, is this one. */
static bool begins_with_word(const char *line, const char *word)
{
    size_t length = strlen(word);
    return strncmp(line, word, length) == 0 && strchr(" \t", line[length]) != NULL;
}

/* Neither signaling nor a command is sent as chat, also when it is malformed: credentials and addresses do not leak. */
static void take_line(struct session *s, char *line)
{
    line[strcspn(line, "\r")] = '\0';
    if (begins_with_word(line, "signal")) warn("signal", signal_take(&s->servers.gather, line + 6));
    else if (strncmp(line, "candidate:", 10) == 0 || begins_with_word(line, "candidate"))
        warn("candidate", signal_take_candidate(&s->servers.gather, line));
    else if (strncmp(line, "a=", 2) == 0) fprintf(stderr, "peer: %s: not sent; candidates begin with candidate:, without a=\n", line);
    else if (*line == '/') take_command(s, line);
    else if (*line) say(s, line);
}

/* Takes each complete line of the input. The rest stays until its end is read. A line that is too long is ignored. */
static void take_lines(struct session *s)
{
    char *begin = s->input, *end;
    while ((end = (char *)memchr(begin, '\n', s->input_length - (size_t)(begin - s->input))) != NULL) {
        *end = '\0';
        if (!s->input_is_too_long) take_line(s, begin);
        s->input_is_too_long = false;
        begin = end + 1;
    }
    s->input_length -= (size_t)(begin - s->input);
    memmove(s->input, begin, s->input_length);
    if (s->input_length < ROOM - 1) return;
    if (!s->input_is_too_long) fprintf(stderr, "peer: a line is too long\n");
    s->input_is_too_long = true;
    s->input_length = 0;
}

static void read_input(struct session *s)
{
    ssize_t got = net_input(s->input + s->input_length, ROOM - 1 - s->input_length);
    if (got < 0) return;
    if (got > 0) {
        s->input_length += (size_t)got;
    } else {
        s->input[s->input_length++] = '\n'; /* the last line may have no line end */
        s->input_is_over = true;
        if (!s->message) s->is_over = true;
    }
    take_lines(s);
}

/* ---- the loop */

/* Sends the message until chat was received, and for one more second, so that the other peer receives it too. */
static void say_message(struct session *s, uint64_t now)
{
    if (!s->message || !has_path(s) || now < s->next_message) return;
    say(s, s->message);
    s->next_message = now + SECOND / 5;
    if (s->has_heard && s->state != IS_ICE_CHECKING && s->end > now + SECOND) s->end = now + SECOND;
}

/* Waits for a datagram or a line, until this time at the latest. */
static void wait_until(struct session *s, uint64_t until)
{
    bool ready[NET_SOCKETS + 1];
    if (!net_wait(&s->net, !s->input_is_over, until, ready)) stop("poll", net_error_text(net_error()));
    for (size_t i = 0; i < s->net.count; i++)
        if (ready[i]) receive(s, i);
    servers_read(&s->servers, take_from_stream, s);
    if (ready[s->net.count]) read_input(s);
}

static void run(struct session *s)
{
    while (!s->is_over) {
        uint64_t now = net_now();
        handle_timeout(s, now);
        gathered(s);
        send_all(s);
        note_all(s);
        say_message(s, now);
        uint64_t until = least(next_timeout(s), s->end);
        wait_until(s, s->message && has_path(s) ? least(until, s->next_message) : until);
        if (net_now() < s->end) continue;
        s->is_over = true;
        s->is_late = !(s->message && s->has_heard && has_path(s));
    }
}

/* ---- starting */

/* Without a scheme it is a STUN server. */
static void add_server(struct session *s, const char *url)
{
    char text[512];
    const char *why = "too long";
    bool has_scheme = strncmp(url, "stun", 4) == 0 || strncmp(url, "turn", 4) == 0;
    int length = snprintf(text, sizeof text, "%s%s", has_scheme ? "" : "stun:", url);
    if (length >= (int)sizeof text || !servers_add(&s->servers, text, &why)) stop_option('s', url, why);
}

static void begin_sockets(struct session *s, const struct options *o)
{
    const char *why;
    if (o->capture && !pcap_open(&s->net.pcap, o->capture)) stop_option('w', o->capture, strerror(errno));
    for (size_t i = 0; i < o->address_count; i++)
        if (!net_bind(&s->net, o->addresses[i], &why)) stop_option('a', o->addresses[i], why);
    if (o->address_count == 0) net_bind_all(&s->net, o->loopback);
    if (s->net.count == 0) stop("no interface has an address (-l also takes loopback addresses)", NULL);
    for (size_t i = 0; i < o->url_count; i++) add_server(s, o->urls[i]);
}

static void begin_agent(struct session *s, const struct options *o)
{
    int32_t code = signal_begin(&s->agent);
    if (code == IS_ICE_OK) code = is_ice_set_controlling(&s->agent, o->controlling);
    if (code == IS_ICE_OK) code = is_ice_set_lite(&s->agent, o->lite);
    if (code == IS_ICE_OK) code = is_ice_set_lite_timeout(&s->agent, 30 * SECOND);
    if (code == IS_ICE_OK) code = is_ice_set_renomination(&s->agent, o->renomination);
    if (code == IS_ICE_OK && o->pacing) code = is_ice_set_timing_advance(&s->agent, o->pacing);
    if (code == IS_ICE_OK) code = signal_add_hosts(&s->agent, &s->net);
    if (code == IS_ICE_OK) code = signal_print(&s->agent);
    s->servers.username = o->username, s->servers.password = o->password;
    s->servers.gather.log = &s->log, s->servers.gather.counts = &s->counts;
    if (code >= 0) code = servers_begin(&s->servers, &s->agent, &s->net);
    if (code == IS_ICE_OK) code = servers_bind(&s->servers, &s->net);
    if (code < 0) stop("agent", is_ice_code_text(code));
}

static const char usage[] =
    "peer [-h] [-l] [-a ADDRESS].. [-s URL].. [-u USER] [-k PASSWORD] [-L] [-r] [-p MILLISECONDS] [-m TEXT] [-t SECONDS] [-w FILE]"
    " controlling|controlled";

static const char help[] =
    "Connects to another peer over UDP, and lets both users chat.\n"
    "\n"
    "usage: %s\n"
    "\n"
    "  controlling         the side that begins, as with an offer; it nominates the path\n"
    "  controlled          the other side\n"
    "  -a ADDRESS          binds a socket at this IP address of the machine, at most %d times;\n"
    "                      without -a: at each address of its interfaces\n"
    "  -l                  without -a: at loopback addresses too\n"
    "  -s URL              asks a STUN server for the sockets' public addresses, or a TURN server for relayed ones, as\n"
    "                      stun:stun.example.org, turn:192.0.2.1:3478?transport=tcp; at most %d servers\n"
    "  -u USER             the user name for TURN servers\n"
    "  -k PASSWORD         the password for it\n"
    "  -L                  runs as a lite agent, which has to be controlled\n"
    "  -r                  lets each nomination replace the ones before, if the other peer has it too\n"
    "  -p MILLISECONDS     the pacing interval Ta: one check in this time, or sooner after a packet; without -p: 50\n"
    "  -m TEXT             sends TEXT until chat was received, and ends a second later\n"
    "  -t SECONDS          ends with status 1 after this time, at most %d\n"
    "  -w FILE             writes what is sent and received over UDP as a capture for Wireshark (pcap)\n"
    "  -h                  prints this text\n"
    "\n"
    "Standard output is for the other peer's standard input. Standard input takes these lines:\n"
    "\n"
    "  signal UFRAG PASSWORD CANDIDATE,CANDIDATE,..    the other peer's signal\n"
    "  candidate:..                                    a later candidate of the other peer\n"
    "  /restart, /stats, /pairs, /quit\n"
    "  any other line                                  chat, sent as plain text\n"
    "\n"
    "Status: 0 done, 1 out of time, 2 not started.\n";

/* A whole number of seconds, at most a day. */
static uint64_t seconds(const char *text)
{
    char *end;
    errno = 0;
    unsigned long number = strtoul(text, &end, 10);
    if (*text < '0' || *text > '9' || *end) stop_option('t', text, "not a whole number of seconds");
    if (errno != 0 || number > LONGEST) stop_option('t', text, "more than 86400 seconds, which is a day");
    return number * SECOND;
}

/* A pacing interval: at least 5 ms (RFC 8445, section 14.2). */
static uint64_t pacing(const char *text)
{
    char *end;
    unsigned long number = strtoul(text, &end, 10);
    if (*text < '0' || *text > '9' || *end || number < 5 || number > 1000) stop_option('p', text, "not 5 to 1000 milliseconds");
    return number * MILLISECOND;
}

static void read_options(struct options *o, int count, char **words)
{
    int option;
    o->patience = UINT64_MAX;
    while ((option = getopt(count, words, "hla:s:u:k:Lrp:m:t:w:")) != -1) {
        switch (option) {
        case 'h': printf(help, usage, (int)NET_SOCKETS, (int)SERVERS, (int)LONGEST); exit(0);
        case 'l': o->loopback = true; break;
        case 'a':
            if (o->address_count == NET_SOCKETS) stop_option('a', optarg, "too many addresses");
            o->addresses[o->address_count++] = optarg;
            break;
        case 's':
            if (o->url_count == SERVERS) stop_option('s', optarg, "too many servers");
            o->urls[o->url_count++] = optarg;
            break;
        case 'u': o->username = optarg; break;
        case 'k': o->password = optarg; break;
        case 'L': o->lite = true; break;
        case 'r': o->renomination = true; break;
        case 'p': o->pacing = pacing(optarg); break;
        case 'm': o->message = optarg; break;
        case 't': o->patience = seconds(optarg); break;
        case 'w': o->capture = optarg; break;
        default: stop("usage", usage);
        }
    }
    if (optind + 1 != count) stop("usage", usage);
    o->controlling = strcmp(words[optind], "controlling") == 0;
    if (!o->controlling && strcmp(words[optind], "controlled") != 0) stop("usage", usage);
    if (o->lite && o->controlling) stop("-L controlling", "a lite agent has to be controlled, since it sends no checks");
}

int main(int count, char **words)
{
    static struct session session; /* all zero; too large for some stacks */
    struct options options = {0};
    if (is_ice_version() != IS_ICE_VERSION) stop("is_ice.h belongs to another library", NULL);
    read_options(&options, count, words);
    session.log.line = print_line;
    begin_sockets(&session, &options);
    begin_agent(&session, &options);
    session.message = options.message;
    session.end = options.patience == UINT64_MAX ? UINT64_MAX : net_now() + options.patience;
    run(&session);
    if (session.net.lost > 0)
        fprintf(stderr, "peer: %llu packets could not be sent: %s\n", (unsigned long long)session.net.lost,
                net_error_text(session.net.lost_why));
    if (!pcap_close(&session.net.pcap)) fprintf(stderr, "peer: -w %s: not all could be written\n", options.capture);
    servers_end(&session.servers, &session.net);
    is_ice_agent_free(&session.agent);
    net_close(&session.net);
    return session.is_late ? 1 : 0;
}
