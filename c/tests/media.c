/* Media beside an agent: its path stays through an ICE restart until a new one is selected, at most until consent to it ends; a path
 * that falls silent is reported once, and once more when it is heard again; packets that could not be sent are listed. Two agents, of which
 * one may be lite, on a network whose clock the program sets. */
#include "is_ice.h"
#include <stdio.h>
#include <stdlib.h>
#include <string.h>

#define HOLD(fact) hold(__LINE__, #fact, fact)
#define TEXT(text) (const uint8_t *)(text), strlen(text)
#define MS UINT64_C(1000000)
#define SECOND (1000 * MS)

typedef struct side {
    is_ice_agent agent;
    is_ice_address address;
    is_ice_event last; /* the last event about a path */
    int silent, heard, selected;
} side;

static side a, b;
static uint64_t now;

static void hold(int line, const char *fact, bool holds)
{
    if (holds) return;
    printf("line %d: %s\n", line, fact);
    exit(1);
}

static bool same(const is_ice_address *x, const is_ice_address *y)
{
    return x->family == y->family && memcmp(x->bytes, y->bytes, 4) == 0 && x->port == y->port;
}

static void new_side(side *s, const char *name, uint8_t host, uint64_t tie_breaker)
{
    const is_ice_address address = {4, {10, 0, 0, host}, (uint16_t)(5000 + host), 0, 0};
    memset(s, 0, sizeof *s);
    s->address = address;
    HOLD(is_ice_agent_new(&s->agent, TEXT(name), TEXT("a password of 22 chars"), tie_breaker) == IS_ICE_OK);
}

static void signal_side(side *to, const side *from, const char *name)
{
    is_ice_candidate host;
    uint8_t line[256];
    size_t length = 0, index = 0;
    memset(&host, 0, sizeof host);
    host.address = host.base = from->address;
    HOLD(is_ice_set_remote_credentials(&to->agent, TEXT(name), TEXT("a password of 22 chars")) == IS_ICE_OK);
    HOLD(is_ice_candidate_line(&host, line, sizeof line, &length) == IS_ICE_OK);
    HOLD(is_ice_add_remote(&to->agent, line, length, &index) == IS_ICE_OK);
}

static void gather(side *s)
{
    is_ice_candidate host;
    size_t index = 0;
    memset(&host, 0, sizeof host);
    host.address = host.base = s->address;
    HOLD(is_ice_add_local(&s->agent, &host, &index) == IS_ICE_OK);
}

static void note_events(side *s)
{
    is_ice_event e;
    while (is_ice_poll_event(&s->agent, &e) == IS_ICE_OK) {
        s->silent += e.kind == IS_ICE_SILENT;
        s->heard += e.kind == IS_ICE_HEARD;
        s->selected += e.kind == IS_ICE_NOMINATED_SEND;
        if (e.kind >= IS_ICE_NOMINATED_SEND) s->last = e;
    }
}

static void send_all(side *from, side *to, bool arrives)
{
    uint8_t bytes[1500];
    is_ice_packet p;
    while (is_ice_poll_transmit(&from->agent, bytes, sizeof bytes, &p) == IS_ICE_OK) {
        if (!arrives || !same(&p.destination, &to->address)) continue;
        int32_t code = is_ice_handle_packet(&to->agent, now, p.protocol, &p.source, &p.destination, bytes, p.length);
        HOLD(code == IS_ICE_OK || code == IS_ICE_NOTHING);
    }
}

static void tick(bool arrives)
{
    static uint8_t random[IS_ICE_TIMEOUT_RANDOM];
    random[0]++, random[1] += random[0] == 0, random[2] += random[0] == 0 && random[1] == 0;
    HOLD(is_ice_handle_timeout(&a.agent, now, random, sizeof random) == IS_ICE_OK);
    random[11]++;
    HOLD(is_ice_handle_timeout(&b.agent, now, random, sizeof random) == IS_ICE_OK);
    for (int i = 0; i < 3; i++) send_all(&a, &b, arrives), send_all(&b, &a, arrives);
    note_events(&a), note_events(&b);
    now += 50 * MS;
}

static void run_until(uint64_t end, bool arrives)
{
    while (now < end) tick(arrives);
}

/* Whether media of the agent goes to the other one now. */
static bool goes(side *from, const side *to)
{
    is_ice_media_path path;
    int32_t code = is_ice_path_for_media(&from->agent, now, &path);
    HOLD(code == IS_ICE_OK || code == IS_ICE_NOTHING);
    if (code == IS_ICE_NOTHING) return false;
    HOLD(same(&path.source, &from->address) && same(&path.destination, &to->address) && path.protocol == IS_ICE_UDP);
    return true;
}

static bool takes(side *from, const is_ice_address *source)
{
    int32_t code = is_ice_takes_media_from(&from->agent, now, source);
    HOLD(code == IS_ICE_OK || code == IS_ICE_NOTHING);
    return code == IS_ICE_OK;
}

static void connect_both(bool lite)
{
    new_side(&a, "aaaa", 1, 7), new_side(&b, "bbbb", 2, 8);
    HOLD(is_ice_set_controlling(&a.agent, true) == IS_ICE_OK && is_ice_set_lite(&b.agent, lite) == IS_ICE_OK);
    gather(&a), gather(&b), signal_side(&a, &b, "bbbb"), signal_side(&b, &a, "aaaa");
    HOLD(!goes(&a, &b) && !goes(&b, &a) && !takes(&a, &b.address) && !takes(&b, &a.address));
    run_until(now + 5 * SECOND, true);
    HOLD(a.selected == 1 && b.selected == 1 && goes(&a, &b) && goes(&b, &a));
}

static void restart(const char *name_a, const char *name_b)
{
    HOLD(is_ice_restart(&a.agent, TEXT(name_a), TEXT("a password of 22 chars"), true) == IS_ICE_OK);
    HOLD(is_ice_restart(&b.agent, TEXT(name_b), TEXT("a password of 22 chars"), true) == IS_ICE_OK);
}

static void free_both(void)
{
    is_ice_agent_free(&a.agent), is_ice_agent_free(&b.agent);
}

static void addresses_of_media(void)
{
    const is_ice_address other = {4, {192, 0, 2, 1}, 9, 0, 0}, unknown = {5, {0}, 0, 0, 0};
    is_ice_media_path path;
    is_ice_agent none = {0};
    HOLD(takes(&a, &b.address) && takes(&b, &a.address) && !takes(&a, &other) && !takes(&a, &a.address) && !takes(&b, &other));
    HOLD(is_ice_takes_media_from(&a.agent, now, &unknown) == IS_ICE_BAD_ADDRESS);
    HOLD(is_ice_takes_media_from(&none, now, &other) == IS_ICE_NO_AGENT && is_ice_path_for_media(&none, now, &path) == IS_ICE_NO_AGENT);
}

static uint64_t longest_rto(is_ice_agent *agent)
{
    is_ice_agent_settings settings;
    HOLD(is_ice_settings(agent, &settings) == IS_ICE_OK);
    return settings.max_rto;
}

/* How long a response keeps a pair: the longest RTO and a whole series of checks (RFC 7675). */
static uint64_t consent_of(is_ice_agent *agent)
{
    is_ice_agent_status status;
    HOLD(is_ice_status(agent, &status) == IS_ICE_OK);
    return longest_rto(agent) + status.ice_timeout;
}

static void falls_silent(void)
{
    uint64_t since = 0, at = 0, stops = now;
    HOLD(is_ice_silent_since(&a.agent, &since) == IS_ICE_OK && since < now && since + longest_rto(&a.agent) + 50 * MS > now);
    run_until(since + 5 * SECOND, false);
    HOLD(a.silent == 0 && a.heard == 0);
    HOLD(is_ice_poll_timeout(&a.agent, &at) == IS_ICE_OK && at <= now);
    tick(false);
    HOLD(a.silent == 1 && a.last.kind == IS_ICE_SILENT && a.last.protocol == IS_ICE_UDP);
    HOLD(same(&a.last.source, &a.address) && same(&a.last.destination, &b.address));
    run_until(stops + 10 * SECOND, false);
    HOLD(a.silent == 1 && b.silent == 1 && a.heard == 0 && b.heard == 0 && goes(&a, &b));
    run_until(now + 5 * SECOND, true);
    HOLD(a.silent == 1 && b.silent == 1 && a.heard == 1 && b.heard == 1 && a.last.kind == IS_ICE_HEARD && same(&a.last.destination, &b.address));
    HOLD(is_ice_silent_since(&a.agent, &since) == IS_ICE_OK && since + longest_rto(&a.agent) + 50 * MS > now);
    HOLD(is_ice_set_silence(&a.agent, IS_ICE_NEVER) == IS_ICE_OK && is_ice_set_silence(&b.agent, 8 * SECOND) == IS_ICE_OK);
    HOLD(is_ice_silent_since(&b.agent, &since) == IS_ICE_OK);
    run_until(since + 8 * SECOND, false);
    HOLD(a.silent == 1 && b.silent == 1);
    run_until(now + 2 * SECOND, false);
    HOLD(a.silent == 1 && b.silent == 2);
    run_until(now + 5 * SECOND, true);
    HOLD(a.heard == 1 && b.heard == 2);
}

/* The next time that the program is reported to call is that of the silence. */
static void is_reported_in_time(void)
{
    uint64_t since = 0, at = 0;
    HOLD(is_ice_set_silence(&a.agent, 1 * SECOND) == IS_ICE_OK && is_ice_silent_since(&a.agent, &since) == IS_ICE_OK);
    for (uint64_t first = since; since == first;) tick(true), HOLD(is_ice_silent_since(&a.agent, &since) == IS_ICE_OK);
    while (now < since + 800 * MS) tick(true), HOLD(is_ice_silent_since(&a.agent, &since) == IS_ICE_OK);
    note_events(&a);
    int before = a.silent;
    HOLD(is_ice_poll_timeout(&a.agent, &at) == IS_ICE_OK && at == since + 1 * SECOND);
    run_until(at + 50 * MS, true);
    HOLD(a.silent == before + 1);
    HOLD(is_ice_set_silence(&a.agent, 5 * SECOND) == IS_ICE_OK);
}

/* Without a packet of the new session: media goes on until consent ends, and no longer. */
static void restart_that_fails(void)
{
    uint64_t since = 0, consent = consent_of(&a.agent);
    run_until(now + 3 * SECOND, true);
    HOLD(is_ice_silent_since(&a.agent, &since) == IS_ICE_OK);
    restart("cccc", "dddd");
    HOLD(is_ice_silent_since(&a.agent, &since) == IS_ICE_NOTHING);
    HOLD(goes(&a, &b) && goes(&b, &a) && takes(&a, &b.address) && takes(&b, &a.address));
    uint64_t end = now + consent;
    run_until(now + consent - 4 * SECOND, false);
    HOLD(goes(&a, &b) && takes(&a, &b.address));
    run_until(end, false);
    HOLD(!goes(&a, &b) && !goes(&b, &a) && !takes(&a, &b.address) && !takes(&b, &a.address));
}

/* With signaling after 3 s: media goes on until the new path is selected, and then on that. A second restart before changes nothing. */
static void restart_that_succeeds(void)
{
    restart("eeee", "ffff");
    run_until(now + 1 * SECOND, true);
    HOLD(goes(&a, &b) && goes(&b, &a));
    restart("gggg", "hhhh");
    run_until(now + 2 * SECOND, true);
    HOLD(goes(&a, &b) && goes(&b, &a) && takes(&b, &a.address));
    int selected = a.selected;
    signal_side(&a, &b, "hhhh"), signal_side(&b, &a, "gggg");
    for (int i = 0; i < 100; i++) tick(true), HOLD(goes(&a, &b) && goes(&b, &a) && takes(&a, &b.address) && takes(&b, &a.address));
    HOLD(a.selected == selected + 1 && b.last.kind == IS_ICE_NOMINATED_SEND);
    run_until(now + 40 * SECOND, true);
    HOLD(goes(&a, &b) && goes(&b, &a) && a.selected == selected + 1);
}

static void fails(const is_ice_address *destination, uint32_t reason)
{
    HOLD(is_ice_send_failed(&a.agent, IS_ICE_UDP, &a.address, destination, reason) == IS_ICE_OK);
}

static bool has_failed(size_t index, const is_ice_address *destination, uint32_t reason, uint64_t times)
{
    is_ice_failed_send f;
    memset(&f, 0xaa, sizeof f);
    HOLD(is_ice_failed_send_at(&a.agent, index, &f) == IS_ICE_OK && same(&f.source, &a.address) && f.protocol == IS_ICE_UDP);
    return same(&f.destination, destination) && f.reason == reason && f.times == times;
}

static void failed_sends(void)
{
    const is_ice_address unknown = {5, {0}, 0, 0, 0};
    is_ice_address other = {4, {192, 0, 2, 1}, 1, 0, 0};
    is_ice_failed_send f, unchanged;
    size_t count = 1;
    memset(&f, 0xaa, sizeof f), memset(&unchanged, 0xaa, sizeof unchanged);
    HOLD(is_ice_failed_send_count(&a.agent, &count) == IS_ICE_OK && count == 0);
    HOLD(is_ice_failed_send_at(&a.agent, 0, &f) == IS_ICE_NOTHING && memcmp(&f, &unchanged, sizeof f) == 0);
    fails(&b.address, 22), fails(&b.address, 101), fails(&b.address, 22), fails(&other, 22);
    HOLD(is_ice_failed_send_count(&a.agent, &count) == IS_ICE_OK && count == 3);
    HOLD(has_failed(0, &b.address, 22, 2) && has_failed(1, &b.address, 101, 1) && has_failed(2, &other, 22, 1));
    HOLD(is_ice_send_failed(&a.agent, 9, &a.address, &other, 1) == IS_ICE_BAD_ADDRESS);
    HOLD(is_ice_send_failed(&a.agent, IS_ICE_UDP, &unknown, &other, 1) == IS_ICE_BAD_ADDRESS);
    for (; other.port < 20; other.port++) fails(&other, 1);
    HOLD(is_ice_failed_send_count(&a.agent, &count) == IS_ICE_OK && count == 16);
    HOLD(has_failed(15, &(is_ice_address){4, {192, 0, 2, 1}, 19, 0, 0}, 1, 1));
    HOLD(is_ice_restart(&a.agent, TEXT("iiii"), TEXT("a password of 22 chars"), true) == IS_ICE_OK);
    HOLD(is_ice_failed_send_count(&a.agent, &count) == IS_ICE_OK && count == 0);
}

int main(void)
{
    now = 0;
    connect_both(false), addresses_of_media(), falls_silent(), is_reported_in_time(), restart_that_succeeds();
    restart_that_fails(), failed_sends(), free_both();
    connect_both(true), addresses_of_media(), falls_silent(), restart_that_succeeds(), free_both();
    connect_both(true), restart_that_fails(), free_both();
    printf("media goes on through restarts, silence is reported, and failures are listed\n");
    return 0;
}
