/* Plays sessions of two agents over a network that loses, delays, reorders and forges packets, and prints all that the agents say. So two
 * builds of the library can be compared, byte for byte.
 *
 * usage: transcript SESSIONS
 *
 * A session begins with a line "session N". All choices come from one sequence of numbers, which goes on from session to session.
 * targets/README.md says what the lines of a session are: a front end in another language prints the same ones. */
#include "is_ice.h"
#include <stdarg.h>
#include <stdio.h>
#include <stdlib.h>
#include <string.h>

#define MS UINT64_C(1000000) /* times are nanoseconds */

enum { TURNS = 120, LONGEST = 1500, MOST_FLYING = 1024, TEXT = 64 };

struct packet {
    uint64_t at; /* when it arrives */
    int from;    /* the agent that sent it */
    is_ice_packet head;
    uint8_t bytes[LONGEST];
};

static struct packet flying[MOST_FLYING];
static size_t flying_count;
static uint32_t state = 1;

/* A number below n, by the linear congruential generator of C's standard. */
static uint32_t draw(uint32_t n)
{
    state = (state * UINT32_C(1103515245) + 12345) & 0x7FFFFFFF;
    return (state >> 8) % n;
}

static void fail(const char *what)
{
    fprintf(stderr, "%s\n", what);
    exit(1);
}

static void must(const char *what, int32_t code)
{
    if (code != IS_ICE_OK) fail(what);
}

/* ---- what is printed */

static const char *answer_name(int32_t code)
{
    switch (code) {
    case IS_ICE_OK: return "true";
    case IS_ICE_NOTHING: return "false";
    case IS_ICE_UNPARSED: return "Unparsed";
    default: fail("a packet had an unexpected result"); return "";
    }
}

/* The text of an address of `address_of`, which no packet can leave: forged ones do not name another. */
static const char *text_of(const is_ice_address *a, char *text)
{
    const uint8_t *b = a->bytes;
    if (a->family == 4)
        snprintf(text, TEXT, "%d.%d.%d.%d:%d", b[0], b[1], b[2], b[3], a->port);
    else
        snprintf(text, TEXT, "2001:db8::%x:%x:%d", b[12] << 8 | b[13], b[14] << 8 | b[15], a->port);
    return text;
}

static void print_path(const is_ice_address *source, const is_ice_address *destination)
{
    char from[TEXT], to[TEXT];
    printf("%s %s", text_of(source, from), text_of(destination, to));
}

static void print_packet(int from, const is_ice_packet *head, const uint8_t *bytes)
{
    printf("%d ", from);
    print_path(&head->source, &head->destination);
    putchar(' ');
    for (size_t i = 0; i < head->length; i++) {
        putchar("0123456789abcdef"[bytes[i] >> 4]);
        putchar("0123456789abcdef"[bytes[i] & 15]);
    }
    putchar('\n');
}

static void print_event(is_ice_agent *agent, int i, const is_ice_event *event)
{
    uint8_t ufrag[TEXT], pass[TEXT];
    size_t ufrag_length, pass_length;
    char source[TEXT];
    printf("%d %d ", i, (int)event->kind);
    switch (event->kind) {
    case IS_ICE_RESTARTED:
        must("local_ufrag", is_ice_local_ufrag(agent, ufrag, sizeof ufrag, &ufrag_length));
        must("local_pass", is_ice_local_pass(agent, pass, sizeof pass, &pass_length));
        printf("%.*s %.*s", (int)ufrag_length, (const char *)ufrag, (int)pass_length, (const char *)pass);
        break;
    case IS_ICE_STATE_CHANGED: printf("%d", (int)event->state); break;
    case IS_ICE_DISCOVERED_RECV: printf("%d %s", event->protocol, text_of(&event->source, source)); break;
    case IS_ICE_NOMINATED_SEND:
    case IS_ICE_SILENT:
    case IS_ICE_HEARD:
        printf("%d ", event->protocol);
        print_path(&event->source, &event->destination);
        break;
    default: fail("an event of an unknown kind");
    }
    putchar('\n');
}

/* A number that may not be there. */
static void print_number(bool is_there, uint64_t number)
{
    if (is_there)
        printf(" %llu", (unsigned long long)number);
    else
        printf(" none");
}

static void print_timeout(is_ice_agent *agent)
{
    uint64_t at = 0;
    int32_t code = is_ice_poll_timeout(agent, &at);
    print_number(code == IS_ICE_OK, at);
    putchar('\n');
}

static void print_pair(const is_ice_pair *p)
{
    printf("%lu %lu %d %d %d", (unsigned long)p->local, (unsigned long)p->remote, (int)p->state, p->nominated, p->selected);
    const uint64_t numbers[] = {p->priority, p->checks_sent, p->requests_received, p->responses, p->total_rtt};
    for (size_t i = 0; i < sizeof numbers / sizeof *numbers; i++) print_number(true, numbers[i]);
    print_number(p->has_rtt, p->rtt), print_number(p->has_request, p->last_request), print_number(p->has_due, p->due);
    putchar('\n');
}

static void print_removed(const is_ice_removed_pair *p)
{
    if (p->has_path) {
        print_path(&p->path.source, &p->path.destination);
        putchar(' ');
    }
    printf("%d %d %d", (int)p->state, (int)p->reason, (int)p->error);
    print_number(true, p->priority), print_number(true, p->checks_sent), print_number(true, p->responses);
    putchar('\n');
}

/* ---- a session */

static void draw_word(uint8_t *word, size_t length)
{
    for (size_t i = 0; i < length; i++)
        word[i] = (uint8_t)"ABCDEFGHIJKLMNOPQRSTUVWXYZabcdefghijklmnopqrstuvwxyz0123456789+/"[draw(64)];
}

/* 10.0.agent.n or 2001:db8::agent+1:n. */
static is_ice_address address_of(int agent, int n)
{
    is_ice_address a;
    memset(&a, 0, sizeof a);
    if (draw(2)) {
        a.family = 4, a.bytes[0] = 10, a.bytes[2] = (uint8_t)agent, a.bytes[3] = (uint8_t)n;
    } else {
        a.family = 6, a.bytes[0] = 0x20, a.bytes[1] = 0x01, a.bytes[2] = 0x0D, a.bytes[3] = 0xB8;
        a.bytes[13] = (uint8_t)(agent + 1), a.bytes[15] = (uint8_t)n;
    }
    a.port = (uint16_t)(5000 + draw(3));
    return a;
}

/* Adds a host candidate, and passes its text to the other agent. */
static void add_candidate(is_ice_agent *agent, is_ice_agent *other, int i, int n)
{
    is_ice_candidate host;
    uint8_t line[256];
    size_t index, length;
    int32_t code;
    memset(&host, 0, sizeof host);
    host.address = address_of(i, n), host.kind = IS_ICE_HOST;
    code = is_ice_add_local(agent, &host, &index);
    if (code == IS_ICE_NOTHING) {
        printf("none\n");
        return;
    }
    must("add_local", code);
    must("local_candidate", is_ice_local_candidate(agent, index, line, sizeof line, &length));
    printf("%.*s\n%d\n", (int)length, (const char *)line, (int)is_ice_add_remote(other, line, length, &index));
}

static void begin(is_ice_agent *agents)
{
    uint8_t ufrag[2][8], pass[2][24];
    for (int i = 0; i < 2; i++) {
        draw_word(ufrag[i], sizeof ufrag[i]);
        draw_word(pass[i], sizeof pass[i]);
        must("agent_new", is_ice_agent_new(&agents[i], ufrag[i], sizeof ufrag[i], pass[i], sizeof pass[i], draw(1 << 20)));
    }
    must("set_controlling", is_ice_set_controlling(&agents[0], draw(5) > 0));
    must("set_controlling", is_ice_set_controlling(&agents[1], draw(5) == 0));
    for (int i = 0; i < 2; i++) {
        must("set_remote_credentials",
             is_ice_set_remote_credentials(&agents[i], ufrag[!i], sizeof ufrag[!i], pass[!i], sizeof pass[!i]));
        int count = 1 + (int)draw(3);
        for (int n = 1; n <= count; n++) add_candidate(&agents[i], &agents[!i], i, n);
    }
}

static struct packet *added(int from, const is_ice_packet *head, const uint8_t *bytes)
{
    struct packet *p = &flying[flying_count++];
    if (flying_count == MOST_FLYING) fail("too many packets");
    p->from = from, p->head = *head;
    memcpy(p->bytes, bytes, head->length);
    return p;
}

/* The network takes a packet, loses it, or takes also one with a wrong bit. */
static void send_packet(int from, uint64_t now, uint32_t loss, const is_ice_packet *head, const uint8_t *bytes)
{
    struct packet *p;
    uint32_t wrong;
    if (draw(100) < loss) return;
    p = added(from, head, bytes);
    p->at = now + draw(150) * MS;
    if (draw(20)) return;
    p = added(from, head, bytes);
    wrong = draw((uint32_t)head->length);
    p->bytes[wrong] ^= (uint8_t)(1 << draw(8));
    p->at = now + draw(150) * MS;
}

static void time_passes(is_ice_agent *agent, int i, uint64_t now, uint32_t loss)
{
    uint8_t random[IS_ICE_TIMEOUT_RANDOM], bytes[LONGEST];
    is_ice_packet head;
    is_ice_event event;
    for (size_t n = 0; n < sizeof random; n++) random[n] = (uint8_t)draw(256);
    must("handle_timeout", is_ice_handle_timeout(agent, now, random, sizeof random));
    print_timeout(agent);
    while (is_ice_poll_transmit(agent, bytes, sizeof bytes, &head) == IS_ICE_OK) {
        print_packet(i, &head, bytes);
        send_packet(i, now, loss, &head, bytes);
    }
    while (is_ice_poll_event(agent, &event) == IS_ICE_OK) print_event(agent, i, &event);
}

/* Hands over what has arrived, in the order in which it was sent. */
static void arrive(is_ice_agent *agents, uint64_t now)
{
    size_t kept = 0;
    for (size_t n = 0; n < flying_count; n++) {
        struct packet *p = &flying[n];
        if (p->at > now) {
            if (kept++ != n) flying[kept - 1] = *p;
            continue;
        }
        printf("%s\n", answer_name(is_ice_handle_packet(&agents[!p->from], now, p->head.protocol, &p->head.source, &p->head.destination,
                                                        p->bytes, p->head.length)));
    }
    flying_count = kept;
}

static void print_candidates(is_ice_agent *agent)
{
    uint8_t line[256];
    size_t length;
    for (size_t i = 0; is_ice_local_candidate(agent, i, line, sizeof line, &length) == IS_ICE_OK; i++)
        printf("%.*s\n", (int)length, (const char *)line);
    for (size_t i = 0; is_ice_remote_candidate(agent, i, line, sizeof line, &length) == IS_ICE_OK; i++)
        printf("%.*s\n", (int)length, (const char *)line);
}

/* What an agent says of itself at the end. */
static void end(is_ice_agent *agent)
{
    is_ice_agent_status status;
    is_ice_agent_stats stats;
    is_ice_pair pair;
    is_ice_removed_pair removed;
    is_ice_nominated_pair selected;
    size_t early;
    must("status", is_ice_status(agent, &status));
    must("stats", is_ice_stats(agent, &stats));
    must("early_count", is_ice_early_count(agent, &early));
    printf("%d", (int)status.state);
    print_number(true, stats.bind_request_sent), print_number(true, stats.bind_success_recv), print_number(true, stats.bind_request_recv);
    print_number(true, stats.discovered_recv_count), print_number(true, stats.nomination_send_count), print_number(true, early);
    putchar('\n');
    print_candidates(agent);
    for (size_t i = 0; is_ice_pair_at(agent, i, &pair) == IS_ICE_OK; i++) print_pair(&pair);
    for (size_t i = 0; is_ice_removed_at(agent, i, &removed) == IS_ICE_OK; i++) print_removed(&removed);
    if (is_ice_nominated(agent, &selected) == IS_ICE_OK) {
        print_path(&selected.source, &selected.destination);
        print_number(true, selected.responses), print_number(true, selected.total_rtt), print_number(selected.has_rtt, selected.rtt);
        putchar('\n');
    }
    is_ice_agent_free(agent);
}

static void play(void)
{
    is_ice_agent agents[2];
    uint64_t now = 0;
    uint32_t loss;
    memset(agents, 0, sizeof agents);
    begin(agents);
    loss = draw(60), flying_count = 0;
    for (int turn = 0; turn < TURNS; turn++) {
        now += (5 + draw(60)) * MS;
        if (!draw(40)) now += 3000 * MS; /* longer than a pair that works waits for its next check */
        for (int i = 0; i < 2; i++) time_passes(&agents[i], i, now, loss);
        arrive(agents, now);
        for (int i = 0; i < 2; i++) print_timeout(&agents[i]);
    }
    for (int i = 0; i < 2; i++) end(&agents[i]);
}

int main(int count, char **words)
{
    int sessions = count == 2 ? atoi(words[1]) : 0;
    if (sessions < 1) fail("usage: transcript SESSIONS");
    for (int n = 0; n < sessions; n++) {
        printf("session %d\n", n);
        play();
    }
    return 0;
}
