/* Shorter stories of oom.c: requests before the peer is known, a request to no candidate, an agent that is lite, a peer-reflexive candidate
 * that is signaled later, pairs that are formed again, and an ICE restart. B is controlling and checks A. */

static const is_ice_address nowhere = {4, {10, 0, 0, 1}, 1001, 0, 0};

struct given {
    uint8_t bytes[1500];
    is_ice_packet packet;
};

static void meet(struct story *s, bool is_lite, bool is_known)
{
    size_t index;
    CALL(s, IS_ICE_OK, is_ice_agent_new(&s->a, TEXT("AAAA"), TEXT("PPPP"), 10));
    CALL(s, IS_ICE_OK, is_ice_agent_new(&s->b, TEXT("BBBB"), TEXT("QQQQ"), 5));
    QUIET(IS_ICE_OK, is_ice_set_lite(&s->a, is_lite));
    QUIET(IS_ICE_OK, is_ice_set_controlling(&s->b, true));
    CALL(s, IS_ICE_OK, is_ice_set_remote_credentials(&s->b, TEXT("AAAA"), TEXT("PPPP")));
    if (is_known) CALL(s, IS_ICE_OK, is_ice_set_remote_credentials(&s->a, TEXT("BBBB"), TEXT("QQQQ")));
    CALL(s, IS_ICE_OK, is_ice_add_local(&s->a, &host_a, &index));
    CALL(s, IS_ICE_OK, is_ice_add_local(&s->b, &host_b, &index));
    CALL(s, IS_ICE_OK, is_ice_add_remote(&s->b, TEXT("candidate:1 1 udp 2130706431 10.0.0.1 1000 typ host"), &index));
}

static void part(struct story *s)
{
    note(s, &s->a);
    note(s, &s->b);
    s->sum ^= seen_by(s);
    is_ice_agent_free(&s->a);
    is_ice_agent_free(&s->b);
}

static void tick(struct story *s, is_ice_agent *agent, uint64_t ms)
{
    s->random[0]++;
    TIMED(s, is_ice_handle_timeout(agent, ms * 1000000, s->random, IS_ICE_TIMEOUT_RANDOM));
}

/* The next packet of the agent. */
static void take(struct story *s, is_ice_agent *from, struct given *given)
{
    const int32_t code = next_packet(from, given->bytes, sizeof given->bytes, &given->packet);
    if (code != IS_ICE_OK) fail(__LINE__, "no packet", code);
    add(s, given->bytes, given->packet.length);
}

static void drain(struct story *s, is_ice_agent *agent)
{
    struct given given;
    while (next_packet(agent, given.bytes, sizeof given.bytes, &given.packet) == IS_ICE_OK) add(s, given.bytes, given.packet.length);
}

static void give(struct story *s, is_ice_agent *to, uint64_t ms, const struct given *given, const is_ice_address *destination, uint16_t port)
{
    is_ice_address source = given->packet.source;
    source.port = port;
    CALL(s, IS_ICE_OK, is_ice_handle_packet(to, ms * 1000000, IS_ICE_UDP, &source, destination, given->bytes, given->packet.length));
}

/* Requests of 40 addresses come before the peer's credentials, and get their responses then. */
static void ask_early(struct story *s)
{
    struct given given;
    meet(s, false, false);
    tick(s, &s->b, 0);
    take(s, &s->b, &given);
    for (uint16_t n = 0; n < 40; n++) give(s, &s->a, 0, &given, &host_a.address, (uint16_t)(2000 + n));
    CALL(s, IS_ICE_OK, is_ice_set_remote_credentials(&s->a, TEXT("BBBB"), TEXT("QQQQ")));
    for (uint64_t ms = 0; ms < 3000; ms += 50) {
        tick(s, &s->a, ms);
        drain(s, &s->a);
    }
    part(s);
}

/* A request to an address that no local candidate has. */
static void ask_nobody(struct story *s)
{
    struct given given;
    meet(s, false, true);
    tick(s, &s->b, 0);
    take(s, &s->b, &given);
    give(s, &s->a, 0, &given, &nowhere, 2000);
    drain(s, &s->a);
    part(s);
}

/* A is lite: it answers, checks nothing, and removes the pair that B leaves. */
static void be_lite(struct story *s)
{
    meet(s, true, true);
    tick(s, &s->b, 0);
    deliver(s, &s->b, &s->a, 1000000);
    for (uint64_t ms = 10; ms < 60000; ms += 7498) {
        tick(s, &s->a, ms);
        drain(s, &s->a);
    }
    if (removed_pairs(&s->a) != 1) fail(__LINE__, "removed", (long)removed_pairs(&s->a));
    s->listed += removed_pairs(&s->a);
    part(s);
}

/* B is found by its request, and signaled later. Then pairs are formed again, and A restarts; B's response to a check of before comes too
 * late. A gets other credentials. Between two checks a timeout takes no memory. */
static void replace(struct story *s)
{
    struct given given;
    size_t index;
    meet(s, false, true);
    tick(s, &s->b, 0);
    deliver(s, &s->b, &s->a, 1000000);
    tick(s, &s->a, 50);
    deliver(s, &s->a, &s->b, 51000000);
    deliver(s, &s->b, &s->a, 52000000);
    CALL(s, IS_ICE_OK, is_ice_add_remote(&s->a, TEXT("candidate:1 1 udp 2130706175 10.0.0.2 2000 typ host"), &index));
    for (uint64_t ms = 100; ms < 400; ms += 50) {
        tick(s, &s->a, ms);
        tick(s, &s->b, ms);
        deliver(s, &s->a, &s->b, ms * 1000000 + 1000000);
        deliver(s, &s->b, &s->a, ms * 1000000 + 2000000);
    }
    QUIET(IS_ICE_OK, is_ice_handle_timeout(&s->a, UINT64_C(353000000), s->random, IS_ICE_TIMEOUT_RANDOM));
    note(s, &s->a);
    CALL(s, IS_ICE_OK, is_ice_recreate_pairs(&s->a));
    tick(s, &s->a, 3000);
    take(s, &s->a, &given);
    CALL(s, IS_ICE_OK, is_ice_handle_packet(&s->b, UINT64_C(3001000000), IS_ICE_UDP, &host_a.address, &host_b.address, given.bytes, given.packet.length));
    take(s, &s->b, &given);
    CALL(s, IS_ICE_OK, is_ice_restart(&s->a, TEXT("DDDD"), TEXT("SSSS"), true));
    const uint64_t before = seen_by(s);
    CALL(s, IS_ICE_NOTHING, is_ice_handle_packet(&s->a, UINT64_C(3002000000), IS_ICE_UDP, &host_b.address, &host_a.address, given.bytes, given.packet.length));
    if (seen_by(s) != before) fail(__LINE__, "changed by a late response", 0);
    CALL(s, IS_ICE_OK, is_ice_set_local_credentials(&s->a, TEXT("CCCC"), TEXT("RRRR")));
    s->listed += removed_pairs(&s->a) + removed_pairs(&s->b);
    part(s);
}

static void play_stories(struct story *s)
{
    ask_early(s);
    ask_nobody(s);
    be_lite(s);
    replace(s);
}
