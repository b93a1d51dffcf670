/* The mistakes of users: for each a wrong program around two agents, in simulated time, and what it sees within 5 s. The table "What you
 * see, what it is" of docs/GUIDE.md has a row for each.
 *
 * mistakes: prints a line for each, with what is seen and after how long; status 1 if one is not seen as it is said here. */
#include "is_ice_kit.h"
#include <stdlib.h>

#define MS UINT64_C(1000000) /* times are nanoseconds */
#define TEXT(text) (const uint8_t *)(text), strlen(text)

enum { WAY = 10, LINES = 200, QUEUED = 200, PACKET = 600, LONGEST = 5000 }; /* a packet takes 10 ms; at most 5 s */

/* What a program does wrong; of both ends only the end 0 does it. */
enum mistake {
    NOTHING_WRONG,
    WRONG_PASSWORD,     /* it has another password of the peer */
    OTHER_UFRAG,        /* it takes its own username fragment for that of the peer */
    WRONG_DESTINATION,  /* it passes the address to which its socket is bound, 0.0.0.0, as the destination */
    SWAPPED,            /* it passes the destination as the source, and the source as the destination */
    MICROSECONDS,       /* its clock counts microseconds */
    ONE_POLL_TIMEOUT,   /* it asks for the next timeout after is_ice_handle_timeout, and not after packets */
    BOTH_CONTROLLING,
    CANDIDATES_FIRST,   /* it adds the peer's candidates before the credentials */
    SENDS_FAIL,         /* the system takes none of its packets, and it says so by is_ice_send_failed */
    SENDS_FAIL_UNSAID,  /* the system takes none of its packets, and it does not say so */
    DROPS_AT_FIRST,     /* the system takes no packet for half a second, and its loop drops them; it says so */
    ERROR_RESPONSES,    /* the peer is another program, which responds to checks with an error */
    FALLS_SILENT        /* after half a second the network lets nothing through any more */
};

struct line {
    uint64_t at;
    char text[IS_ICE_LINE];
};

struct end {
    is_ice_agent agent;
    is_ice_address at;
    is_ice_counts counts;
    struct is_ice_log log;
    uint64_t timeout;
    struct line lines[LINES];
    size_t count, failed;
};

struct datagram {
    uint64_t arrives;
    int to;
    size_t length;
    uint8_t bytes[PACKET];
};

static struct {
    enum mistake mistake;
    uint64_t now, random;
    struct end ends[2];
    struct datagram queue[QUEUED];
    size_t queued;
} w;

static void fail(const char *what, const char *why)
{
    printf("mistakes: %s: %s\n", what, why);
    exit(1);
}

static void must(const char *what, int32_t code)
{
    if (code != IS_ICE_OK) fail(what, is_ice_code_text(code));
}

/* ---- what the programs see: lines of the kit's log, with the time of each */

static void keep(void *user, const char *text)
{
    struct end *end = (struct end *)user;
    if (end->count == LINES) fail("lines", "too many");
    end->lines[end->count].at = w.now;
    snprintf(end->lines[end->count++].text, IS_ICE_LINE, "%s", text);
}

/* The first line of an end with this text. */
static const struct line *seen(int i, const char *text)
{
    for (size_t k = 0; k < w.ends[i].count; k++)
        if (strstr(w.ends[i].lines[k].text, text)) return &w.ends[i].lines[k];
    return NULL;
}

/* Says what is seen: the end i has a line with this text, at most so many milliseconds after the start. */
static void sees(const char *mistake, int i, const char *text, unsigned most)
{
    const struct line *line = seen(i, text);
    for (size_t k = 0; !line && k < w.ends[i].count; k++) printf("  %s\n", w.ends[i].lines[k].text);
    if (!line) fail(mistake, text);
    unsigned after = (unsigned)(line->at / MS);
    printf("%s: %s sees after %u ms: %s\n", mistake, i == 0 ? "it" : "the peer", after, line->text);
    if (after > most) fail(mistake, "too late");
}

static void sees_not(const char *mistake, int i, const char *text)
{
    if (seen(i, text)) fail(mistake, seen(i, text)->text);
}

/* ---- the programs */

static bool does(int i, enum mistake mistake)
{
    return i == 0 && w.mistake == mistake;
}

static uint64_t clock_of(int i)
{
    return does(i, MICROSECONDS) ? w.now / 1000 : w.now;
}

static void put(int to, const uint8_t *bytes, size_t length)
{
    if (w.mistake == FALLS_SILENT && w.now > 500 * MS) return;
    if (w.queued == QUEUED) fail("datagrams", "too many");
    struct datagram *d = &w.queue[w.queued++];
    d->arrives = w.now + WAY * MS, d->to = to, d->length = length;
    memcpy(d->bytes, bytes, length);
}

static void send_datagram(int i, const is_ice_packet *packet, const uint8_t *bytes)
{
    struct end *end = &w.ends[i];
    bool is_dropped = does(i, DROPS_AT_FIRST) && w.now < 500 * MS;
    if (!does(i, SENDS_FAIL) && !does(i, SENDS_FAIL_UNSAID) && !is_dropped) {
        put(!i, bytes, packet->length);
    } else if (!does(i, SENDS_FAIL_UNSAID)) {
        must("failed", is_ice_send_failed(&end->agent, packet->protocol, &packet->source, &packet->destination, 101)); /* ENETUNREACH */
        if (end->failed++ == 0) is_ice_log_failed_sends(&end->log, &end->agent);
    }
}

/* The other program responds to a check with an error. */
static void respond_with_error(const uint8_t *bytes, size_t length)
{
    static const is_ice_stun_texts texts;
    is_ice_stun_message check, error;
    uint8_t response[PACKET];
    size_t size = 0;
    must("check", is_ice_stun_read(bytes, length, &check));
    memset(&error, 0, sizeof error);
    error.method = IS_ICE_STUN_BINDING, error.cls = IS_ICE_STUN_FAILURE, error.id = check.id;
    error.error_code.is_set = true, error.error_code.value = 401;
    must("error", is_ice_stun_write(&error, &texts, TEXT(""), TEXT(""), response, sizeof response, &size));
    put(0, response, size);
}

static void poll_all(int i)
{
    struct end *end = &w.ends[i];
    uint8_t bytes[PACKET];
    is_ice_packet packet;
    is_ice_event event = {0};
    while (is_ice_poll_transmit(&end->agent, bytes, sizeof bytes, &packet) == IS_ICE_OK) send_datagram(i, &packet, bytes);
    while (is_ice_poll_event(&end->agent, &event) == IS_ICE_OK) is_ice_log_event(&end->log, &end->agent, &event);
}

static void ask_timeout(int i)
{
    if (is_ice_poll_timeout(&w.ends[i].agent, &w.ends[i].timeout) != IS_ICE_OK) w.ends[i].timeout = UINT64_MAX;
}

static void handle_timeout(int i)
{
    uint8_t random[IS_ICE_TIMEOUT_RANDOM];
    for (size_t k = 0; k < sizeof random; k++) {
        w.random = w.random * UINT64_C(6364136223846793005) + UINT64_C(1442695040888963407);
        random[k] = (uint8_t)(w.random >> 56);
    }
    must("timeout", is_ice_handle_timeout(&w.ends[i].agent, clock_of(i), random, sizeof random));
    poll_all(i);
    ask_timeout(i);
}

static void take(int i, const uint8_t *bytes, size_t length)
{
    struct end *end = &w.ends[i];
    const is_ice_address bound = {4, {0}, end->at.port, 0, 0};
    const is_ice_address *from = does(i, SWAPPED) ? &end->at : &w.ends[!i].at;
    const is_ice_address *to = does(i, WRONG_DESTINATION) ? &bound : does(i, SWAPPED) ? &w.ends[!i].at : &end->at;
    is_ice_log_packet(&end->log, &end->counts, &end->agent, IS_ICE_UDP, from, to, bytes, length);
    if (is_ice_handle_packet(&end->agent, clock_of(i), IS_ICE_UDP, from, to, bytes, length) < 0) fail("packet", "not a STUN message");
    poll_all(i);
    if (!does(i, ONE_POLL_TIMEOUT)) ask_timeout(i);
}

/* Both programs until this time, in steps of a millisecond. */
static void run_until(unsigned milliseconds)
{
    for (; w.now <= milliseconds * MS; w.now += MS) {
        for (size_t k = 0; k < w.queued;) {
            struct datagram d = w.queue[k];
            if (d.arrives > w.now) {
                k++;
                continue;
            }
            memmove(&w.queue[k], &w.queue[k + 1], (--w.queued - k) * sizeof d);
            if (w.mistake == ERROR_RESPONSES && d.to == 1) respond_with_error(d.bytes, d.length);
            else take(d.to, d.bytes, d.length);
        }
        for (int i = 0; i < (w.mistake == ERROR_RESPONSES ? 1 : 2); i++)
            if (clock_of(i) >= w.ends[i].timeout) handle_timeout(i);
    }
}

static const char *const ufrags[2] = {"first", "second"};
static const char *const passes[2] = {"password of the first..", "password of the second."};

static void set_credentials(int i)
{
    const char *ufrag = does(i, OTHER_UFRAG) ? ufrags[i] : ufrags[!i];
    const char *pass = does(i, WRONG_PASSWORD) ? "password of nobody....." : passes[!i];
    must("credentials", is_ice_set_remote_credentials(&w.ends[i].agent, TEXT(ufrag), TEXT(pass)));
}

static void add_candidates(int i)
{
    uint8_t line[256];
    size_t length, index;
    must("line", is_ice_local_candidate(&w.ends[!i].agent, 0, line, sizeof line, &length));
    int32_t code = is_ice_add_remote(&w.ends[i].agent, line, length, &index);
    if (code != IS_ICE_OK) keep(&w.ends[i], is_ice_code_text(code)); /* a program looks at the code */
}

static void begin(enum mistake mistake)
{
    for (int i = 0; i < 2; i++) is_ice_agent_free(&w.ends[i].agent);
    memset(&w, 0, sizeof w);
    w.mistake = mistake;
    for (int i = 0; i < 2; i++) {
        struct end *end = &w.ends[i];
        is_ice_candidate host = {0};
        size_t index;
        end->log.line = keep, end->log.user = end;
        end->at.family = 4, end->at.bytes[0] = 10, end->at.bytes[3] = (uint8_t)(i + 1), end->at.port = 5000;
        host.address = end->at;
        must("new", is_ice_agent_new(&end->agent, TEXT(ufrags[i]), TEXT(passes[i]), (uint64_t)i));
        must("role", is_ice_set_controlling(&end->agent, i == 0 || mistake == BOTH_CONTROLLING));
        must("host", is_ice_add_local(&end->agent, &host, &index));
    }
    for (int i = 0; i < 2; i++) {
        if (!does(i, CANDIDATES_FIRST)) set_credentials(i);
        add_candidates(i);
        if (does(i, CANDIDATES_FIRST)) set_credentials(i);
    }
    run_until(mistake == FALLS_SILENT ? LONGEST + 600 : LONGEST);
    for (int i = 0; i < 2; i++) {
        is_ice_agent_stats stats;
        char line[80];
        must("stats", is_ice_stats(&w.ends[i].agent, &stats));
        snprintf(line, sizeof line, "%u of %u checks answered", (unsigned)stats.bind_success_recv, (unsigned)stats.bind_request_sent);
        keep(&w.ends[i], line); /* what a program prints when its user asks */
    }
}

/* ---- the mistakes */

static void nothing_wrong(void)
{
    begin(NOTHING_WRONG);
    for (int i = 0; i < 2; i++) sees("nothing wrong", i, ": selected ", 100);
}

static void wrong_password(void)
{
    begin(WRONG_PASSWORD);
    sees("wrong password", 1, "request signed with another password than the agent's", WAY);
    sees_not("wrong password", 0, ": selected ");
}

static void other_ufrag(void)
{
    begin(OTHER_UFRAG);
    sees("username fragments mixed up", 0, "candidate of another username fragment", 0);
    sees("username fragments mixed up", 0, "request from another username fragment than the peer's", WAY);
}

static void wrong_addresses(const char *mistake)
{
    sees(mistake, 0, "no response to Binding request (request to an address that no local candidate has)", WAY);
    sees(mistake, 0, "response on another path than that of its check", 2 * WAY);
    sees_not(mistake, 0, ": selected ");
}

static void swapped(void)
{
    begin(SWAPPED);
    wrong_addresses("source and destination swapped");
}

static void wrong_destination(void)
{
    begin(WRONG_DESTINATION);
    wrong_addresses("wrong destination");
}

/* No call says that a clock is wrong: the library sees only what it passes. A round trip of 20 ms is reported as 20 us. */
static void microseconds(void)
{
    const char *const mistake = "a clock in microseconds";
    is_ice_nominated_pair selected = {0};
    begin(MICROSECONDS);
    sees_not(mistake, 1, ": selected ");
    must(mistake, is_ice_nominated(&w.ends[0].agent, &selected));
    if (!selected.has_rtt || selected.rtt != 2 * WAY * MS / 1000) fail(mistake, "another round trip");
    unsigned rtt = (unsigned)(selected.rtt / 1000);
    printf("%s: the peer selects no path within 5 s; a round trip of 20 ms is reported as %u us\n", mistake, rtt);
}

static void one_poll_timeout(void)
{
    begin(ONE_POLL_TIMEOUT);
    for (int i = 0; i < 2; i++) sees("no poll_timeout after packets", i, ": selected ", 200);
}

static void both_controlling(void)
{
    is_ice_agent_status status;
    int count = 0;
    begin(BOTH_CONTROLLING);
    for (int i = 0; i < 2; i++) {
        sees("both controlling", i, ": selected ", 100);
        must("status", is_ice_status(&w.ends[i].agent, &status));
        count += status.controlling;
    }
    if (count != 1) fail("both controlling", "the conflict is not resolved");
}

static void candidates_first(void)
{
    begin(CANDIDATES_FIRST);
    for (int i = 0; i < 2; i++) sees("candidates before credentials", i, ": selected ", 100);
}

static void sends_fail(void)
{
    begin(SENDS_FAIL);
    sees("sends fail", 0, "not sent 10.0.0.1:5000 -> 10.0.0.2:5000: error 101", 0);
    begin(SENDS_FAIL_UNSAID);
    sees_not("sends fail unsaid", 0, "not sent");
    sees("sends fail unsaid", 0, "0 of ", LONGEST + 1);
    begin(DROPS_AT_FIRST);
    sees("packets dropped at first", 0, "not sent 10.0.0.1:5000 -> 10.0.0.2:5000: error 101", 0);
    sees("packets dropped at first", 0, ": selected ", 1000);
}

static void error_responses(void)
{
    begin(ERROR_RESPONSES);
    sees("error responses", 0, "discarded Binding error response 401", 2 * WAY);
    sees_not("error responses", 0, ": selected ");
}

/* 5 s after the last packet, which came at half a second at the latest. */
static void falls_silent(void)
{
    begin(FALLS_SILENT);
    for (int i = 0; i < 2; i++) sees("falls silent", i, ": silent 10.0.0.", LONGEST + 500);
}

/* The peer made an ICE restart, and a candidate of its session before arrives late. */
static void late_candidates(void)
{
    const char *const mistake = "candidates without the username fragment";
    is_ice_agent *agent = &w.ends[0].agent;
    size_t index;
    begin(NOTHING_WRONG);
    must("restart", is_ice_restart(agent, TEXT("third"), TEXT("password of the third.."), true));
    must("credentials", is_ice_set_remote_credentials(agent, TEXT("fourth"), TEXT("password of the fourth.")));
    int32_t with = is_ice_add_remote(agent, TEXT("candidate:1 1 udp 2130706431 10.0.0.9 5000 typ host ufrag second"), &index);
    int32_t without = is_ice_add_remote(agent, TEXT("candidate:1 1 udp 2130706431 10.0.0.9 5000 typ host"), &index);
    if (with != IS_ICE_OTHER_UFRAG || without != IS_ICE_OK) fail(mistake, "another code");
    printf("%s: a late one is taken, and nothing says so; with it is_ice_add_remote returns: %s\n", mistake, is_ice_code_text(with));
}

int main(void)
{
    nothing_wrong();
    wrong_password();
    other_ufrag();
    swapped();
    wrong_destination();
    microseconds();
    one_poll_timeout();
    both_controlling();
    candidates_first();
    sends_fail();
    error_responses();
    falls_silent();
    late_candidates();
    for (int i = 0; i < 2; i++) is_ice_agent_free(&w.ends[i].agent);
    return 0;
}
