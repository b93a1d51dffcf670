/* Finds the agent of each datagram on a socket that many agents share, by asking each agent and by tables, and measures both.
 *
 * A request has the receiver's username fragment before the first colon of its USERNAME (RFC 8445, section 7.2.2): the key of one
 * table. A response has the transaction ID of its check (RFC 8489, section 5): the key of the other table, to which the program
 * adds each check that is_ice_poll_transmit returns. Both ways find the same agent, and none if the datagram is nobody's.
 *
 * demux [N]: with so many agents, 100 without a number. */
#define _GNU_SOURCE
#include "measuring.h"

enum {
    SIZE = 8,  /* of a username fragment */
    KEY = 16,  /* of a table at most: a transaction ID has 12 bytes */
    ID = 8,    /* where a message has its transaction ID */
    ID_SIZE = 12,
    ASKED = 200,
    FOUND = 200000
};

static const is_ice_address socket_at = {4, {10, 0, 0, 1}, 5000, 0, 0};
static const char *const password = "password of everybody";

/* A table from keys to agents, by open addressing. */
struct entry {
    uint8_t key[KEY];
    size_t length, agent;
};

struct table {
    struct entry *entries;
    size_t size; /* a power of two */
};

struct world {
    is_ice_agent *agents;
    size_t count;
    struct table by_ufrag, by_transaction;
    struct message *requests, *responses; /* for each agent one from its peer */
};

/* Memory of the program: the tables and packets. */
static void *zeroed(size_t count, size_t size)
{
    void *made = calloc(count, size);
    if (!made) fail("demux", "no memory");
    return made;
}

static struct entry *place_of(const struct table *t, const uint8_t *key, size_t length)
{
    uint64_t hash = UINT64_C(14695981039346656037);
    for (size_t i = 0; i < length; i++) hash = (hash ^ key[i]) * UINT64_C(1099511628211);
    for (size_t i = (size_t)hash & (t->size - 1);; i = (i + 1) & (t->size - 1)) {
        struct entry *e = &t->entries[i];
        if (e->length == 0 || (e->length == length && memcmp(e->key, key, length) == 0)) return e;
    }
}

static void enter(struct table *t, const uint8_t *key, size_t length, size_t agent)
{
    struct entry *e = place_of(t, key, length);
    if (length == 0 || length > KEY || e->length != 0) fail("demux", "no key for a table, or one that it has");
    memcpy(e->key, key, length);
    e->length = length, e->agent = agent;
}

/* ---- the agents, and what their peers send */

static is_ice_address peer_of(size_t i)
{
    is_ice_address at = {4, {10, (uint8_t)(1 + i / 50000), 0, 2}, (uint16_t)(1024 + i % 50000), 0, 0};
    return at;
}

static void name_of(char *name, char side, size_t i)
{
    snprintf(name, SIZE + 1, "%c%07lx", side, (unsigned long)i);
}

static void request_to(struct message *m, const char *receiver, const char *sender)
{
    is_ice_stun_message fields;
    is_ice_stun_texts texts;
    char username[2 * SIZE + 2];
    memset(&fields, 0, sizeof fields);
    memset(&texts, 0, sizeof texts);
    snprintf(username, sizeof username, "%s:%s", receiver, sender);
    fields.method = IS_ICE_STUN_BINDING, fields.priority.is_set = true, fields.controlling.is_set = true, fields.has_integrity = true;
    texts.username.length = 2 * SIZE + 1, texts.username.is_set = true;
    must("request", is_ice_stun_write(&fields, &texts, TEXT(username), TEXT(password), m->bytes, sizeof m->bytes, &m->length), IS_ICE_OK);
}

/* The response to a check. */
static void respond(struct message *m, const struct message *check)
{
    static const is_ice_stun_texts none;
    is_ice_stun_message read, fields;
    must("check", is_ice_stun_read(check->bytes, check->length, &read), IS_ICE_OK);
    memset(&fields, 0, sizeof fields);
    fields.method = IS_ICE_STUN_BINDING, fields.cls = IS_ICE_STUN_SUCCESS, fields.id = read.id, fields.mapped = socket_at;
    fields.has_integrity = true;
    must("response", is_ice_stun_write(&fields, &none, TEXT(""), TEXT(password), m->bytes, sizeof m->bytes, &m->length), IS_ICE_OK);
}

/* Agent i, whose peer has another address than those of the others. Its first check has a response. */
static void add(struct world *w, size_t i)
{
    const is_ice_candidate host = {socket_at, socket_at, IS_ICE_HOST, IS_ICE_UDP, IS_ICE_TCP_UNSTATED};
    const is_ice_address peer = peer_of(i);
    is_ice_agent *agent = &w->agents[i];
    uint8_t random[IS_ICE_TIMEOUT_RANDOM] = {1};
    char ours[SIZE + 1], theirs[SIZE + 1], line[128];
    struct message check;
    is_ice_packet packet;
    size_t index;
    name_of(ours, 'a', i), name_of(theirs, 'b', i);
    must("new", is_ice_agent_new(agent, TEXT(ours), TEXT(password), i), IS_ICE_OK);
    must("credentials", is_ice_set_remote_credentials(agent, TEXT(theirs), TEXT(password)), IS_ICE_OK);
    must("host", is_ice_add_local(agent, &host, &index), IS_ICE_OK);
    snprintf(line, sizeof line, "candidate:1 1 udp 2130706431 10.%u.0.2 %u typ host", (unsigned)peer.bytes[1], (unsigned)peer.port);
    must("remote", is_ice_add_remote(agent, TEXT(line), &index), IS_ICE_OK);
    memcpy(random + 4, &i, sizeof i < 8 ? sizeof i : 8);
    must("timeout", is_ice_handle_timeout(agent, 60 * SECOND, random, sizeof random), IS_ICE_OK);
    if (!transmit(agent, &check, &packet)) fail("check", "there is none");
    enter(&w->by_ufrag, (const uint8_t *)ours, SIZE, i);
    enter(&w->by_transaction, check.bytes + ID, ID_SIZE, i);
    request_to(&w->requests[i], ours, theirs);
    respond(&w->responses[i], &check);
}

static void begin(struct world *w, size_t count)
{
    w->count = count;
    w->agents = zeroed(count, sizeof *w->agents);
    w->requests = zeroed(count, sizeof *w->requests);
    w->responses = zeroed(count, sizeof *w->responses);
    struct table *tables[] = {&w->by_ufrag, &w->by_transaction};
    for (size_t t = 0; t < 2; t++) {
        for (tables[t]->size = 16; tables[t]->size < 2 * count; tables[t]->size *= 2) {}
        tables[t]->entries = zeroed(tables[t]->size, sizeof(struct entry));
    }
    for (size_t i = 0; i < count; i++) add(w, i);
}

static void end(struct world *w)
{
    for (size_t i = 0; i < w->count; i++) is_ice_agent_free(&w->agents[i]);
    free(w->agents), free(w->requests), free(w->responses), free(w->by_ufrag.entries), free(w->by_transaction.entries);
}

/* ---- whose datagram it is: the number of the agent, or that of all agents if it is nobody's */

/* Asks each agent whether it would take the message from the peer of agent i. */
static size_t by_asking(struct world *w, const struct message *m, size_t i)
{
    const is_ice_address from = peer_of(i);
    for (size_t k = 0; k < w->count; k++)
        if (is_ice_accepts_packet(&w->agents[k], IS_ICE_UDP, &from, &socket_at, m->bytes, m->length) == IS_ICE_OK) return k;
    return w->count;
}

/* Asks each agent whether the message is for it, from any source. */
static size_t by_asking_for_message(struct world *w, const struct message *m, size_t i)
{
    (void)i;
    for (size_t k = 0; k < w->count; k++)
        if (is_ice_accepts_message(&w->agents[k], m->bytes, m->length) == IS_ICE_OK) return k;
    return w->count;
}

static size_t agent_at(const struct world *w, const struct table *t, const uint8_t *key, size_t length)
{
    const struct entry *e = length == 0 || length > KEY ? NULL : place_of(t, key, length);
    return e && e->length != 0 ? e->agent : w->count;
}

static size_t by_tables(struct world *w, const struct message *m, size_t i)
{
    uint8_t username[512];
    size_t length, receiver;
    (void)i;
    int32_t code = is_ice_stun_username(m->bytes, m->length, username, sizeof username, &length, &receiver);
    size_t found = code == IS_ICE_OK ? agent_at(w, &w->by_ufrag, username, receiver) : w->count;
    return found < w->count || code == IS_ICE_UNPARSED ? found : agent_at(w, &w->by_transaction, m->bytes + ID, ID_SIZE);
}

/* Finds the agents of so many messages, spread over all agents, and prints what one takes, in nanoseconds. */
static double measure(
    struct world *w, const char *name, size_t (*find)(struct world *, const struct message *, size_t), bool is_response, size_t many)
{
    double begun = processor_time();
    for (size_t k = 0; k < many; k++) {
        size_t i = k * 7919 % w->count;
        if (find(w, is_response ? &w->responses[i] : &w->requests[i], i) != i) fail(name, "another agent");
    }
    double took = (processor_time() - begun) / (double)many;
    printf("%zu agents, a %s by %s: %.0f ns\n", w->count, is_response ? "response" : "request", name, took);
    return took;
}

/* A message that is nobody's is found by no way. */
static void find_nobody(struct world *w)
{
    struct message m;
    request_to(&m, "nobody00", "b0000000");
    if (by_tables(w, &m, 0) != w->count || by_asking(w, &m, 0) != w->count) fail("nobody's request", "it is somebody's");
    respond(&m, &m);
    if (by_tables(w, &m, 0) != w->count || by_asking(w, &m, 0) != w->count) fail("nobody's response", "it is somebody's");
    m.length = 19;
    if (by_tables(w, &m, 0) != w->count || by_asking(w, &m, 0) != w->count) fail("no message", "it is somebody's");
}

int main(int argc, char **words)
{
    static struct world w;
    size_t count = argc > 1 ? (size_t)strtoul(words[1], NULL, 10) : 100;
    if (count == 0 || count > 1000000) fail("demux", "from 1 to 1,000,000 agents");
    begin(&w, count);
    for (int is_response = 0; is_response < 2; is_response++) {
        double asking = measure(&w, "is_ice_accepts_packet of each agent", by_asking, is_response, ASKED);
        measure(&w, "is_ice_accepts_message of each agent", by_asking_for_message, is_response, ASKED);
        double table = measure(&w, is_response ? "its transaction ID" : "is_ice_stun_username", by_tables, is_response, FOUND);
        if (count >= 100 && table * 5 > asking) fail("demux", "a table takes a fifth as long as asking, or longer");
    }
    find_nobody(&w);
    end(&w);
    return 0;
}
