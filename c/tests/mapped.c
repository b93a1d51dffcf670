/* A peer names a new mapped address in each response, which its password allows, and shows that the limit of
 * is_ice_set_max_discovered bounds what they cost, while the agent keeps its path.
 *
 * Each mapped address that no local candidate has becomes a peer-reflexive one (RFC 8445, section 7.2.5.3.1): 20,000
 * responses arrive. They play again without a limit, which shows that these measurements see what grows. */
#define _GNU_SOURCE
#include "measuring.h"

enum { RESPONSES = 20000 };

static const is_ice_address agent_at = {4, {10, 0, 0, 1}, 1000, 0, 0}, peer_at = {4, {10, 0, 0, 2}, 2000, 0, 0};
static const char *const password = "password of the peer";

struct world {
    is_ice_agent agent;
    uint64_t now, random;
    size_t responses;
    bool is_lost; /* the agent had a path, and lost it */
    double took[BLOCK];
};

static void begin(struct world *w, size_t limit)
{
    const is_ice_candidate host = {agent_at, agent_at, IS_ICE_HOST, IS_ICE_UDP, IS_ICE_TCP_UNSTATED};
    size_t index;
    must("new", is_ice_agent_new(&w->agent, TEXT("agent"), TEXT("password of the agent"), 1), IS_ICE_OK);
    must("role", is_ice_set_controlling(&w->agent, true), IS_ICE_OK);
    must("credentials", is_ice_set_remote_credentials(&w->agent, TEXT("peer"), TEXT(password)), IS_ICE_OK);
    must("host", is_ice_add_local(&w->agent, &host, &index), IS_ICE_OK);
    must("remote", is_ice_add_remote(&w->agent, TEXT("candidate:1 1 udp 2130706431 10.0.0.2 2000 typ host"), &index), IS_ICE_OK);
    must("limit", is_ice_set_max_discovered(&w->agent, limit), IS_ICE_OK);
    w->now = 60 * SECOND;
    w->random = 1;
}

/* The agent's next check. Time passes until one is due. */
static void wait_for_check(struct world *w, struct message *check)
{
    is_ice_event event = {0};
    is_ice_packet packet;
    while (!transmit(&w->agent, check, &packet)) {
        uint64_t at = w->now;
        if (is_ice_poll_timeout(&w->agent, &at) == IS_ICE_OK && at > w->now) w->now = at;
        timeout(&w->random, &w->agent, w->now);
        while (is_ice_poll_event(&w->agent, &event) == IS_ICE_OK)
            if (event.kind == IS_ICE_STATE_CHANGED && event.state == IS_ICE_DISCONNECTED) w->is_lost = true;
    }
}

/* The response of the peer, with another mapped address each time. */
static void respond(struct world *w, const struct message *check, struct message *response)
{
    static const is_ice_stun_texts none;
    is_ice_stun_message request, m = {0};
    size_t number = w->responses++;
    must("check", is_ice_stun_read(check->bytes, check->length, &request), IS_ICE_OK);
    is_ice_address mapped = {4, {10, 1, (uint8_t)(number / 50000), 1}, (uint16_t)(1024 + number % 50000), 0, 0};
    m.method = request.method, m.cls = IS_ICE_STUN_SUCCESS, m.id = request.id;
    m.mapped = mapped, m.has_integrity = true;
    must("response", is_ice_stun_write(&m, &none, TEXT(""), TEXT(password), response->bytes, sizeof response->bytes, &response->length), IS_ICE_OK);
}

/* A thousand checks and responses. Returns a time that a tenth of the responses did not exceed, in nanoseconds. */
static double take_block(struct world *w)
{
    struct message check, response;
    for (size_t i = 0; i < BLOCK; i++) {
        wait_for_check(w, &check);
        respond(w, &check, &response);
        double begin = processor_time();
        receive(&w->agent, w->now, &peer_at, &agent_at, &response);
        w->took[i] = processor_time() - begin;
    }
    return quick_tenth(w->took);
}

/* Plays the responses with a limit, and prints what they cost. */
static void play(const char *name, size_t limit)
{
    static struct world w;
    is_ice_nominated_pair path;
    memset(&w, 0, sizeof w);
    begin(&w, limit);
    double first = take_block(&w), last = first;
    long begun = resident();
    while (w.responses < RESPONSES) last = take_block(&w);
    long grown = resident() - begun;
    size_t locals = listed(&w.agent, is_ice_local_candidate);
    printf("%s: %zu local candidates, %.0f ns a response at first, then %.0f, memory grew by %ld bytes\n", name, locals, first, last, grown);
    must(name, is_ice_nominated(&w.agent, &path), IS_ICE_OK);
    if (w.is_lost) fail(name, "the path does not stay");
    if (limit == IS_ICE_NO_LIMIT && (locals != 1 + RESPONSES || grown <= FLAT || last <= 2 * first)) fail(name, "the measurements do not see what grows");
    if (limit != IS_ICE_NO_LIMIT && (locals > 1 + limit || grown > FLAT || last > 2 * first)) fail(name, "the limit does not bound the cost");
    is_ice_agent_free(&w.agent);
}

int main(void)
{
    play("mapped addresses with the limit", LIMIT);
    play("mapped addresses without a limit", IS_ICE_NO_LIMIT);
    return 0;
}
