/* Tests is_ice_gather.h around an agent, in simulated time: candidates come and go with the clients of servers, and packets pass. */
#include "servers_story.h"

struct gatherer {
    struct story s;
    is_ice_agent agent;
    struct is_ice_gather gather;
};

static void gatherer_begins(struct gatherer *g)
{
    memset(g, 0, sizeof *g);
    begin(&g->s);
    HOLD(is_ice_agent_new(&g->agent, TEXT("near"), TEXT("nearpass"), 1) == IS_ICE_OK);
    g->gather.agent = &g->agent;
    g->gather.servers = &g->s.servers;
}

static bool is_gathered(const is_ice_gathered *gathered, size_t line, const char *type, const char *address)
{
    return line < gathered->count && strstr(gathered->lines[line], type) && strstr(gathered->lines[line], address);
}

/* A relayed and a server-reflexive candidate come, are signaled, and go with the client. */
static void gathers_candidates(void)
{
    static struct gatherer g;
    static is_ice_gathered gathered;
    const is_ice_server list[] = {
        {server, IS_ICE_STUN, IS_ICE_UDP, NULL, NULL},
        {server, IS_ICE_TURN, IS_ICE_UDP, "", ""},
        {server, IS_ICE_TURN, IS_ICE_TCP, "", ""}};
    uint8_t buffer[IS_ICE_GATHER_BUFFER];
    is_ice_packet packet;
    is_ice_datagram datagram;
    uint8_t bytes[512];
    uint64_t at = 0;
    size_t added = 0, length = 0;
    gatherer_begins(&g);
    HOLD(is_ice_gather_is_covered(list, 3, 0) && !is_ice_gather_is_covered(list, 3, 1) && !is_ice_gather_is_covered(list, 3, 2));
    HOLD(is_ice_gather_remote(&g.gather, g.s.now, TEXT("candidate:1 1 udp 9 198.51.100.9 2000 typ host"), &added) == IS_ICE_OK);
    HOLD(is_ice_gather_socket(&g.gather, g.s.now, &local, list, 3) == IS_ICE_OK);
    HOLD(is_ice_gather_poll_timeout(&g.gather, &at) == IS_ICE_OK && at == g.s.now); /* of the client: the session has not started */
    HOLD(is_ice_gather_timeout(&g.gather, g.s.now, random_bytes) == IS_ICE_OK);
    HOLD(is_ice_gather_transmit(&g.gather, g.s.now, random_bytes, buffer, sizeof buffer, &packet) == IS_ICE_OK);
    HOLD(is_ice_stun_read(buffer, packet.length, &g.s.message) == IS_ICE_OK && g.s.message.method == IS_ICE_STUN_ALLOCATE);
    HOLD(is_ice_gather_transmit(&g.gather, g.s.now, random_bytes, buffer, sizeof buffer, &packet) == IS_ICE_NOTHING);
    HOLD(is_ice_gather_event(&g.gather, g.s.now, &gathered) == IS_ICE_NOTHING);
    length = response(&g.s, 0, false, bytes, sizeof bytes);
    HOLD(is_ice_gather_packet(&g.gather, g.s.now, IS_ICE_UDP, &server, &local, bytes, length, &datagram) == IS_ICE_OK);
    HOLD(is_ice_gather_event(&g.gather, g.s.now, &gathered) == IS_ICE_OK && gathered.count == 2 && gathered.failed == IS_ICE_OK);
    HOLD(is_gathered(&gathered, 0, " typ relay", " 192.0.2.1 49152 ") && is_gathered(&gathered, 1, " typ srflx", " 203.0.113.7 61000 "));
    HOLD(is_ice_gather_event(&g.gather, g.s.now, &gathered) == IS_ICE_NOTHING);
    sends_request(&g.s, IS_ICE_STUN_CREATE_PERMISSION, IS_ICE_UDP); /* the remote candidate, which came before */
    HOLD(memcmp(g.s.message.peer.bytes, peer.bytes, 4) == 0);
    responds(&g.s, 0, false);
    HOLD(is_ice_gather_remote(&g.gather, g.s.now, TEXT("candidate:1 1 udp 9 198.51.100.10 2000 typ host"), &added) == IS_ICE_OK);
    sends_request(&g.s, IS_ICE_STUN_CREATE_PERMISSION, IS_ICE_UDP); /* one that comes later */
    HOLD(g.s.message.peer.bytes[3] == 10);
    HOLD(is_ice_servers_lose(&g.s.servers, IS_ICE_UDP, &local) == IS_ICE_OK);
    HOLD(is_ice_gather_event(&g.gather, g.s.now, &gathered) == IS_ICE_OK && gathered.event.why == IS_ICE_ENDED_LOST && gathered.count == 0);
    for (size_t i = 0; is_ice_local_candidate(&g.agent, i, buffer, sizeof buffer - 1, &length) == IS_ICE_OK; i++) {
        buffer[length] = '\0';
        HOLD(!strstr((const char *)buffer, " typ relay"));
    }
    is_ice_servers_free(&g.s.servers);
    is_ice_agent_free(&g.agent);
}

/* A check leaves through the server, and one of the peer arrives through it; media is media, with or without servers. */
static void passes_packets_on(void)
{
    static struct gatherer g;
    static is_ice_counts counts, none;
    static is_ice_gathered gathered;
    const is_ice_server list[] = {{server, IS_ICE_TURN, IS_ICE_UDP, "", ""}};
    uint8_t buffer[IS_ICE_GATHER_BUFFER];
    is_ice_packet packet;
    is_ice_datagram media;
    is_ice_stun_message message;
    is_ice_stun_texts texts;
    size_t added = 0, length = 0;
    uint64_t at = 0, again = 0;
    gatherer_begins(&g);
    g.gather.counts = &counts;
    HOLD(is_ice_gather_media(&g.gather, g.s.now, random_bytes, TEXT("media"), buffer, sizeof buffer, &packet) == IS_ICE_NOTHING);
    HOLD(is_ice_gather_socket(&g.gather, g.s.now, &local, list, 1) == IS_ICE_OK);
    sends_request(&g.s, IS_ICE_STUN_ALLOCATE, IS_ICE_UDP);
    responds(&g.s, 0, false);
    HOLD(is_ice_gather_event(&g.gather, g.s.now, &gathered) == IS_ICE_OK && gathered.count == 2);
    HOLD(is_ice_set_remote_credentials(&g.agent, TEXT("farr"), TEXT("farpass")) == IS_ICE_OK);
    HOLD(is_ice_gather_remote(&g.gather, g.s.now, TEXT("candidate:1 1 udp 9 198.51.100.9 2000 typ host"), &added) == IS_ICE_OK);
    for (int found = 0; found == 0;) { /* until a check is sent through the relay */
        HOLD(is_ice_gather_timeout(&g.gather, g.s.now, random_bytes) == IS_ICE_OK);
        while (is_ice_gather_transmit(&g.gather, g.s.now, random_bytes, buffer, sizeof buffer, &packet) == IS_ICE_OK) {
            HOLD(is_ice_stun_read(buffer, packet.length, &message) == IS_ICE_OK);
            found |= message.method == IS_ICE_STUN_SEND && is_ice_same_address(&message.peer, &peer)
                     && is_ice_same_address(&packet.destination, &server);
        }
        HOLD(is_ice_gather_poll_timeout(&g.gather, &at) == IS_ICE_OK && at < 10 * SECOND);
        if (at > g.s.now) g.s.now = at;
    }
    HOLD(is_ice_poll_timeout(&g.agent, &at) == IS_ICE_OK && is_ice_gather_timeout(&g.gather, at - 1, random_bytes) == IS_ICE_OK);
    HOLD(is_ice_poll_timeout(&g.agent, &again) == IS_ICE_OK && again == at); /* before its time only the clients get it */
    memset(&message, 0, sizeof message), memset(&texts, 0, sizeof texts);
    message.method = IS_ICE_STUN_DATA_INDICATION, message.cls = IS_ICE_STUN_INDICATION, message.peer = peer;
    texts.data.length = 26, texts.data.is_set = true;
    HOLD(is_ice_stun_write(&message, &texts, TEXT("as long as a STUN message!"), TEXT(""), buffer, sizeof buffer, &length) == IS_ICE_OK);
    HOLD(is_ice_gather_packet(&g.gather, g.s.now, IS_ICE_UDP, &server, &local, buffer, length, &media) == IS_ICE_UNPARSED);
    HOLD(media.length == 26 && memcmp(buffer + media.offset, "as long", 7) == 0 && is_ice_same_address(&media.source, &peer));
    HOLD(memcmp(&counts, &none, sizeof counts) == 0); /* it is media, and not the message that it came in */
    HOLD(is_ice_gather_packet(&g.gather, g.s.now, IS_ICE_UDP, &peer, &local, TEXT("media"), &media) == IS_ICE_UNPARSED);
    HOLD(media.offset == 0 && media.length == 5 && is_ice_same_address(&media.source, &peer));
    HOLD(is_ice_gather_packet(&g.gather, g.s.now, IS_ICE_TCP, &server, &local, TEXT("media"), &media) == IS_ICE_NOTHING);
    HOLD(is_ice_servers_lose(&g.s.servers, IS_ICE_UDP, &local) == IS_ICE_OK);
    for (int i = 0; i < 20; i++) { /* the agent does not know it yet: what it sends from there is left out */
        HOLD(is_ice_gather_timeout(&g.gather, g.s.now, random_bytes) == IS_ICE_OK);
        int32_t code = IS_ICE_OK;
        while (code == IS_ICE_OK) code = is_ice_gather_transmit(&g.gather, g.s.now, random_bytes, buffer, sizeof buffer, &packet);
        HOLD(code == IS_ICE_NOTHING);
        if (is_ice_gather_poll_timeout(&g.gather, &at) == IS_ICE_OK && at > g.s.now) g.s.now = at;
    }
    is_ice_servers_free(&g.s.servers);
    TOUCH(media);
    HOLD(is_ice_gather_packet(&g.gather, g.s.now, IS_ICE_UDP, &peer, &local, TEXT("media"), &media) == IS_ICE_UNPARSED);
    HOLD(media.offset == 0 && media.length == 5 && is_ice_same_address(&media.source, &peer));
    HOLD(is_ice_gather_timeout(&g.gather, g.s.now, random_bytes) == IS_ICE_OK);
    HOLD(is_ice_gather_poll_timeout(&g.gather, &at) == IS_ICE_OK && is_ice_gather_event(&g.gather, 1, &gathered) == IS_ICE_NO_SERVERS);
    is_ice_agent_free(&g.agent);
}

int main(void)
{
    gathers_candidates();
    passes_packets_on();
}
