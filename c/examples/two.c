/* Two ICE agents in one process find a path. No sockets: packets are handed over. */
#define _CRT_RAND_S /* of Windows: rand_s */
#include "is_ice.h"
#include <stdio.h>
#include <stdlib.h>

#define MS UINT64_C(1000000) /* times are nanoseconds */

static void must(int32_t code)
{
    if (code >= 0) return;
    fprintf(stderr, "%s\n", is_ice_code_text(code));
    exit(1);
}

static void randomize(void *bytes, size_t length)
{
#ifdef _WIN32
    for (size_t i = 0; i < length; i++) {
        unsigned some;
        if (rand_s(&some) != 0) exit(1);
        ((uint8_t *)bytes)[i] = (uint8_t)some;
    }
#else
    FILE *file = fopen("/dev/urandom", "rb");
    if (!file || fread(bytes, 1, length, file) != length) exit(1);
    fclose(file);
#endif
}

int main(void)
{
    is_ice_agent agents[2] = {{0}, {0}};
    uint8_t ufrag[2][IS_ICE_UFRAG_LENGTH], pass[2][IS_ICE_PASS_LENGTH], random[IS_ICE_CREDENTIALS_RANDOM];
    uint8_t line[256], buffer[1500];
    uint64_t tie_breaker;
    size_t length, index;
    is_ice_packet packet;
    is_ice_event event;
    bool found[2] = {false, false};

    for (int i = 0; i < 2; i++) {
        randomize(random, sizeof random);
        randomize(&tie_breaker, sizeof tie_breaker);
        must(is_ice_make_credentials(random, sizeof random, ufrag[i], sizeof ufrag[i], pass[i], sizeof pass[i]));
        must(is_ice_agent_new(&agents[i], ufrag[i], sizeof ufrag[i], pass[i], sizeof pass[i], tie_breaker));
    }
    must(is_ice_set_controlling(&agents[0], true)); /* the side that made the offer */
    for (int i = 0; i < 2; i++) /* signaling: credentials first */
        must(is_ice_set_remote_credentials(&agents[i], ufrag[!i], sizeof ufrag[!i], pass[!i], sizeof pass[!i]));
    for (int i = 0; i < 2; i++) { /* signaling: then each candidate */
        is_ice_candidate host = {.address = {4, {10, 0, 0, (uint8_t)(i + 1)}, 5000, 0, 0}, .kind = IS_ICE_HOST};
        must(is_ice_add_local(&agents[i], &host, &index));
        must(is_ice_local_candidate(&agents[i], index, line, sizeof line, &length));
        must(is_ice_add_remote(&agents[!i], line, length, &index));
    }
    for (uint64_t now = 0; !found[0] || !found[1]; now += 50 * MS)
        for (int i = 0; i < 2; i++) {
            randomize(random, IS_ICE_TIMEOUT_RANDOM);
            must(is_ice_handle_timeout(&agents[i], now, random, IS_ICE_TIMEOUT_RANDOM));
            while (is_ice_poll_transmit(&agents[i], buffer, sizeof buffer, &packet) == IS_ICE_OK)
                must(is_ice_handle_packet(&agents[!i], now, packet.protocol, &packet.source, &packet.destination,
                                          buffer, packet.length));
            while (is_ice_poll_event(&agents[i], &event) == IS_ICE_OK)
                if (event.kind == IS_ICE_NOMINATED_SEND) {
                    found[i] = true;
                    printf("10.0.0.%d:%d -> 10.0.0.%d:%d\n", event.source.bytes[3], event.source.port,
                           event.destination.bytes[3], event.destination.port);
                }
        }
    is_ice_agent_free(&agents[0]);
    is_ice_agent_free(&agents[1]);
    return 0;
}
