/* Many agents in one process: what each costs in processor time and memory. `measure/scale` runs it; measure/scale.rs is the same program
 * over the Rust crate.
 *
 * usage: scale AGENTS SECONDS [HOSTS [original]]
 *
 * Agents in pairs, each with one host candidate, connect over a wire in memory and then keep consent. With HOSTS each has so many, of which
 * only the last can be reached: so it begins with HOSTS * HOSTS candidate pairs, and keeps the one of least priority. With `original` it
 * has the settings of the original. The clock is virtual, and a heap of their timeouts says which agent is next. Prints the microseconds of
 * the processor for an agent while all connect (8 s) and for an agent-second from then on, its packets in a second, and the bytes of the
 * heap for an agent: as made, with the other's candidate, connected, at the end. */
#define _GNU_SOURCE
#include "costs.h"
#include <inttypes.h>
#include <string.h>

#define MS UINT64_C(1000000)
enum { PORT = 5000, CONNECT = 8000, LONGEST = 1500, CREDENTIALS = 32, CACHED = 262144 /* bytes that malloc counts, and keeps for later calls */ };

static is_ice_agent *agents;
static size_t agent_count, hosts = 1;
static bool is_original;
static uint64_t now = 60000 * MS, packets, selected;

static uint64_t number(void)
{
    static uint64_t state = UINT64_C(88172645463325252);
    state ^= state << 13, state ^= state >> 7, state ^= state << 17;
    return state;
}

/* ---- a heap of timeouts */

static uint32_t *heap, *place;
static uint64_t *due;

static void swap(size_t i, size_t j)
{
    uint32_t moved = heap[i];
    heap[i] = heap[j], heap[j] = moved;
    place[heap[i]] = (uint32_t)i, place[heap[j]] = (uint32_t)j;
}

static void rise(size_t i)
{
    for (; i > 0 && due[heap[i]] < due[heap[(i - 1) / 2]]; i = (i - 1) / 2) swap(i, (i - 1) / 2);
}

static void sink(size_t i)
{
    for (size_t least = i;; i = least) {
        for (size_t child = 2 * i + 1; child <= 2 * i + 2 && child < agent_count; child++)
            if (due[heap[child]] < due[heap[least]]) least = child;
        if (least == i) return;
        swap(i, least);
    }
}

static void set_due(uint32_t agent, uint64_t at)
{
    bool is_earlier = at < due[agent];
    due[agent] = at;
    if (is_earlier) rise(place[agent]);
    else sink(place[agent]);
}

/* ---- sessions */

static struct { uint8_t ufrag[CREDENTIALS], pass[CREDENTIALS]; size_t ufrag_length, pass_length; } creds;

static void credentials_of(uint32_t agent)
{
    creds.ufrag_length = (size_t)snprintf((char *)creds.ufrag, CREDENTIALS, "u%06" PRIx32, agent);
    creds.pass_length = (size_t)snprintf((char *)creds.pass, CREDENTIALS, "passpasspasspass%06" PRIx32, agent);
}

static void make(uint32_t agent)
{
    is_ice_agent_settings settings;
    is_ice_candidate host;
    size_t index;
    credentials_of(agent);
    must("new", is_ice_agent_new(&agents[agent], creds.ufrag, creds.ufrag_length, creds.pass, creds.pass_length, number()));
    if (is_original) {
        must("settings", is_ice_original_settings(&settings));
        must("set", is_ice_set_settings(&agents[agent], &settings));
    }
    must("role", is_ice_set_controlling(&agents[agent], agent % 2 == 1));
    memset(&host, 0, sizeof host);
    host.address.family = 4;
    host.address.bytes[0] = 10, host.address.bytes[1] = (uint8_t)(agent >> 16);
    host.address.bytes[2] = (uint8_t)(agent >> 8), host.address.bytes[3] = (uint8_t)agent;
    for (size_t i = 0; i < hosts; i++) {
        host.address.port = (uint16_t)(PORT + i);
        must("local", is_ice_add_local(&agents[agent], &host, &index));
    }
}

static void introduce(uint32_t agent)
{
    uint8_t line[512];
    size_t length, index;
    credentials_of(agent ^ 1);
    must("credentials", is_ice_set_remote_credentials(&agents[agent], creds.ufrag, creds.ufrag_length, creds.pass, creds.pass_length));
    for (size_t i = 0; i < hosts; i++) {
        must("line", is_ice_local_candidate(&agents[agent ^ 1], i, line, sizeof line, &length));
        must("remote", is_ice_add_remote(&agents[agent], line, length, &index));
    }
}

/* What the agent sends arrives at once, if it is from its last host to that of the other. */
static void poll(uint32_t agent)
{
    const uint16_t last = (uint16_t)(PORT + hosts - 1);
    uint8_t bytes[LONGEST];
    is_ice_packet packet;
    is_ice_event event;
    uint64_t at;
    if (is_ice_poll_timeout(&agents[agent], &at) == IS_ICE_OK) set_due(agent, at > now ? at : now + MS);
    while (is_ice_poll_event(&agents[agent], &event) == IS_ICE_OK) selected += event.kind == IS_ICE_NOMINATED_SEND;
    while (is_ice_poll_transmit(&agents[agent], bytes, sizeof bytes, &packet) == IS_ICE_OK) {
        packets++;
        if (packet.source.port != last || packet.destination.port != last) continue;
        must("packet", is_ice_handle_packet(
            &agents[agent ^ 1], now, packet.protocol, &packet.source, &packet.destination, bytes, packet.length));
        poll(agent ^ 1);
    }
}

static void run_until(uint64_t end)
{
    while (due[heap[0]] <= end) {
        uint32_t agent = heap[0];
        uint8_t random[IS_ICE_TIMEOUT_RANDOM];
        uint64_t drawn[2] = {number(), number()};
        memcpy(random, drawn, sizeof random);
        now = due[agent];
        must("timeout", is_ice_handle_timeout(&agents[agent], now, random, sizeof random));
        poll(agent);
    }
    now = end;
}

int main(int count, char **words)
{
    if (count < 3 || count > 5) return fprintf(stderr, "usage: scale AGENTS SECONDS [HOSTS [original]]\n"), 2;
    if (count > 3) hosts = (size_t)atol(words[3]);
    is_original = count == 5 && strcmp(words[4], "original") == 0;
    agent_count = (size_t)atol(words[1]) / 2 * 2;
    uint64_t seconds = (uint64_t)atol(words[2]);
    agents = calloc(agent_count, sizeof *agents), heap = calloc(agent_count, sizeof *heap);
    place = calloc(agent_count, sizeof *place), due = calloc(agent_count, sizeof *due);
    if (!agents || !heap || !place || !due) return 1;
    double n = (double)agent_count, bytes[5], begun = heap_bytes();
    for (uint32_t i = 0; i < agent_count; i++) make(i);
    bytes[0] = heap_bytes() - begun;
    for (uint32_t i = 0; i < agent_count; i++) introduce(i), heap[i] = place[i] = i, due[i] = now + number() % 3000 * MS;
    for (size_t i = agent_count / 2; i-- > 0;) sink(i);
    bytes[1] = heap_bytes() - begun;
    double times[3] = {cpu(), 0, 0};
    run_until(now + CONNECT * MS);
    times[1] = cpu(), bytes[2] = heap_bytes() - begun;
    if (selected < agent_count) return fprintf(stderr, "scale: only %" PRIu64 " paths\n", selected), 1;
    uint64_t before = packets;
    run_until(now + seconds * 1000 * MS);
    times[2] = cpu(), bytes[3] = heap_bytes() - begun;
    for (size_t i = 0; i < agent_count; i++) is_ice_agent_free(&agents[i]);
    if (heap_bytes() > begun + CACHED) return fprintf(stderr, "scale: the agents are not freed\n"), 1;
    printf("%.1f %.3f %.2f %.0f %.0f %.0f %.0f\n", (times[1] - times[0]) / n, (times[2] - times[1]) / n / (double)seconds,
        (double)(packets - before) / n / (double)seconds, bytes[0] / n, bytes[1] / n, bytes[2] / n, bytes[3] / n);
    return 0;
}
