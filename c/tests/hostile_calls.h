/* Random lists of calls for hostile.c, with bytes derived from packets of both agents: changed, cut, with attributes swapped or repeated. */
#ifndef HOSTILE_CALLS_H
#define HOSTILE_CALLS_H

#include "hostile.h"
#include "hostile_reader.h"

enum { ATTRIBUTES = 16 };

/* What a call did. */
enum did { DONE, TAKEN, FALSE, NOT_PARSED, FAILED, DIDS };

struct list {
    is_ice_agent agent;
    uint64_t random, now;         /* the time in milliseconds */
    struct message sent, given;   /* the last packet of the agent, and the last bytes that it got */
    bool answers;                 /* the packet of the last call is served: one packet comes */
};

/* How often each outcome occurred, and how many packets and selected paths came. */
static size_t dids[DIDS], sent_packets, selected;

/* ---- random bytes */

static size_t below(struct list *l, size_t limit)
{
    l->random = l->random * UINT64_C(6364136223846793005) + UINT64_C(1442695040888963407);
    return limit == 0 ? 0 : (size_t)(l->random >> 33) % limit;
}

static void flip(struct list *l, struct message *m)
{
    if (m->length > 0) m->bytes[below(l, m->length)] ^= (uint8_t)(1 << below(l, 8));
}

static void tell_length(struct message *m)
{
    if (m->length >= 20) m->bytes[2] = (uint8_t)((m->length - 20) >> 8), m->bytes[3] = (uint8_t)(m->length - 20);
}

/* Where the attributes are: attribute n is from starts[n] to starts[n + 1]. Returns how many there are, as far as they can be separated. */
static size_t attributes(const struct message *m, size_t starts[ATTRIBUTES + 1])
{
    size_t count = 0;
    starts[0] = 20;
    while (count < ATTRIBUTES && starts[count] + 4 <= m->length) {
        size_t end = starts[count] + 4 + (u16_at(m->bytes + starts[count] + 2) + 3) / 4 * 4;
        if (end > m->length) break;
        starts[++count] = end;
    }
    return count;
}

static void append(struct message *m, const struct message *from, size_t start, size_t end)
{
    if (end - start > sizeof m->bytes - m->length) return;
    memcpy(m->bytes + m->length, from->bytes + start, end - start);
    m->length += end - start;
}

static void swap(struct list *l, struct message *m)
{
    const struct message old = *m;
    size_t starts[ATTRIBUTES + 1], count = attributes(m, starts), one = below(l, count), two = below(l, count);
    if (m->length < 20) return;
    m->length = 20;
    for (size_t i = 0; i < count; i++) {
        size_t from = i == one ? two : i == two ? one : i;
        append(m, &old, starts[from], starts[from + 1]);
    }
    tell_length(m);
}

static void repeat(struct list *l, struct message *m)
{
    size_t starts[ATTRIBUTES + 1], count = attributes(m, starts), place = below(l, count);
    const struct message old = *m;
    if (count > 0) append(m, &old, starts[place], starts[place + 1]);
    tell_length(m);
}

static void shorten(struct list *l, struct message *m)
{
    m->length = below(l, m->length);
    if (below(l, 2) == 0) m->length = m->length / 4 * 4;
    if (below(l, 4) != 0) tell_length(m);
}

static void breed(struct list *l, struct message *m)
{
    switch (below(l, 5)) {
    case 0: swap(l, m); break;
    case 1: repeat(l, m); break;
    case 2: shorten(l, m); break;
    case 3: flip(l, m); flip(l, m); flip(l, m); break;
    default: flip(l, m);
    }
}

/* The request, a response to the last packet, that packet itself, or what arrived last. */
static void choose(struct list *l, struct message *m)
{
    static const uint8_t never[12] = "never issued";
    const uint8_t *id = l->sent.length >= 20 ? l->sent.bytes + 8 : never;
    switch (below(l, 8)) {
    case 0: case 1:
        memcpy(m->bytes, request, sizeof request);
        m->length = sizeof request;
        break;
    case 2: case 3: case 4: respond(id, false, far_password, m); break;
    case 5: respond(id, true, far_password, m); break;
    case 6: *m = l->sent; break;
    default: *m = l->given;
    }
}

/* ---- calls */

static enum did did_of(int32_t code)
{
    expect("there is memory", code != IS_ICE_OUT_OF_MEMORY);
    return code == IS_ICE_OK ? DONE : code < IS_ICE_OK ? FAILED : FALSE;
}

/* Bytes arrive, mostly on the path from the peer. The agent had said what it would do with them, and the other reader says what they are. */
static enum did arrive(struct list *l)
{
    static const is_ice_address stranger = {4, {10, 0, 0, 3}, 2000, 0, 0}, elsewhere = {4, {10, 0, 0, 1}, 1001, 0, 0};
    struct message m = {{0}, 0};
    choose(l, &m);
    if (below(l, 3) != 0) breed(l, &m);
    const is_ice_address *from = below(l, 8) == 0 ? &stranger : &far_at, *to = below(l, 8) == 0 ? &elsewhere : &near_at;
    const int32_t accepts = is_ice_accepts_packet(&l->agent, IS_ICE_UDP, from, to, m.bytes, m.length);
    const int32_t why = is_ice_rejection(&l->agent, IS_ICE_UDP, from, to, m.bytes, m.length);
    const int32_t unserved = is_ice_unserved(&l->agent, IS_ICE_UDP, from, to, m.bytes, m.length);
    const int32_t code = give(&l->agent, l->now * MS, from, to, m.bytes, m.length);
    expect("no message is one that the other reader finds complete", (code == IS_ICE_UNPARSED) == (form_of(m.bytes, m.length) != COMPLETE));
    expect("it is accepted as is_ice_accepts_packet says", code == accepts || (code < IS_ICE_OK && accepts == IS_ICE_OK));
    expect("it is rejected as is_ice_rejection says", (why == IS_ICE_OK) == (accepts == IS_ICE_OK));
    l->answers = code == IS_ICE_OK && unserved == IS_ICE_OK && m.bytes[0] % 64 == 0;
    l->given = m;
    return code == IS_ICE_UNPARSED ? NOT_PARSED : code == IS_ICE_OK ? TAKEN : did_of(code);
}

/* Mostly a later time, and sometimes an earlier one. */
static enum did pass_time(struct list *l)
{
    static const uint64_t steps[] = {0, 0, 50, 50, 300, 300, 3000, 16000};
    const size_t place = below(l, COUNT(steps));
    uint8_t random[IS_ICE_TIMEOUT_RANDOM];
    l->now = place == 0 ? (l->now < 100 ? 0 : l->now - 100) : l->now + steps[place];
    for (size_t i = 0; i < sizeof random; i++) random[i] = (uint8_t)below(l, 256);
    return did_of(is_ice_handle_timeout(&l->agent, l->now * MS, random, sizeof random));
}

/* A candidate of either side is added or invalidated. */
static enum did signal(struct list *l)
{
    static const uint16_t ports[] = {1000, 2000, 3000};
    is_ice_candidate one = {near_at, near_at, IS_ICE_HOST, IS_ICE_UDP, IS_ICE_TCP_UNSTATED};
    uint8_t line[128];
    size_t length, index;
    one.address.bytes[3] = (uint8_t)(1 + below(l, 2)), one.address.port = ports[below(l, COUNT(ports))];
    one.base = one.address;
    switch (below(l, 4)) {
    case 0: return did_of(is_ice_invalidate_local(&l->agent, &one));
    case 1: return did_of(is_ice_add_local(&l->agent, &one, &index));
    default:
        must("line", is_ice_candidate_line(&one, line, sizeof line, &length), IS_ICE_OK);
        return did_of(is_ice_add_remote(&l->agent, line, length, &index));
    }
}

static enum did set(struct list *l)
{
    uint8_t long_ufrag[509];
    memset(long_ufrag, 'u', sizeof long_ufrag);
    switch (below(l, 8)) {
    case 0: return did_of(is_ice_restart(&l->agent, TEXT(asked), TEXT(asked_password), true));
    case 1: return did_of(is_ice_set_remote_credentials(&l->agent, long_ufrag, sizeof long_ufrag, TEXT(far_password)));
    case 2: case 3: return did_of(is_ice_recreate_pairs(&l->agent));
    case 4: return did_of(is_ice_skip_pair_ids(&l->agent, UINT64_MAX - 3)); /* so that the numbers run out soon */
    default: return did_of(is_ice_set_remote_credentials(&l->agent, TEXT(asker), TEXT(far_password)));
    }
}

static enum did call(struct list *l)
{
    const size_t kind = below(l, 16);
    l->answers = false;
    return kind < 4 ? pass_time(l) : kind < 6 ? signal(l) : kind < 7 ? set(l) : arrive(l);
}

/* ---- lists of calls */

static size_t take_packets(struct list *l)
{
    is_ice_packet packet;
    size_t count = 0;
    for (; transmit(&l->agent, &l->sent, &packet); count++) sent_packets++;
    return count;
}

/* A call that is not done changes nothing, and nothing comes of it. One that is done sends at most one packet. */
static void try_call(struct list *l)
{
    const uint64_t before = seen_of(&l->agent);
    const enum did did = call(l);
    const uint64_t after = seen_of(&l->agent);
    const size_t count = take_packets(l);
    const char *const reported = events(&l->agent);
    dids[did]++;
    for (const char *at = reported; *at; at++) selected += *at == 'N';
    if (did == DONE || did == TAKEN)
        expect("at most one packet, and one for what is_ice_unserved finds served", count <= 1 && (count == 1 || !l->answers));
    else expect("a call that is not done changes nothing", after == before && count == 0 && *reported == 0);
}

/* 10 to 30 calls of a new agent that the request is for, in a random role and with one of the profiles, that mostly knows its peer. */
static void try_list(uint64_t seed)
{
    struct list l;
    memset(&l, 0, sizeof l);
    l.random = seed;
    make(&l.agent, asked, asked_password);
    set_profile(&l.agent, below(&l, 2) == 0);
    must("role", is_ice_set_controlling(&l.agent, below(&l, 2) == 0), IS_ICE_OK);
    if (below(&l, 4) != 0) set_peer(&l.agent, asker, far_password);
    for (size_t calls = 10 + below(&l, 21); calls > 0; calls--) try_call(&l);
    is_ice_agent_free(&l.agent);
}

/* Each outcome comes at least once in ten lists. */
static void call_randomly(unsigned long lists)
{
    for (unsigned long seed = 0; seed < lists; seed++) try_list(seed);
    expect("packets and paths come", sent_packets >= lists / 10 && selected >= lists / 10);
    for (size_t i = 0; i < DIDS; i++) expect("each outcome comes", dids[i] >= lists / 10);
    printf("%lu lists of calls: %zu done, %zu not done, %zu failed; %zu packets accepted, %zu not parsed, %zu sent\n", lists, dids[DONE], dids[FALSE],
           dids[FAILED], dids[TAKEN], dids[NOT_PARSED], sent_packets);
}

#endif
