/* What a program sees of an agent, as a hash: what all queries of is_ice.h return, but no packet and no event. For oom.c and hostile.c. */
#ifndef SEEN_H
#define SEEN_H

#include "is_ice.h"
#include <string.h>

static inline void hash_bytes(uint64_t *sum, const void *bytes, size_t length)
{
    for (size_t i = 0; i < length; i++) *sum = (*sum ^ ((const uint8_t *)bytes)[i]) * UINT64_C(1099511628211);
}

/* Hashes numbers, an array of uint64_t. */
#define HASH(sum, ...)                                   \
    do {                                                 \
        const uint64_t numbers_[] = {__VA_ARGS__};       \
        hash_bytes((sum), numbers_, sizeof numbers_);    \
    } while (0)

static inline void hash_address(uint64_t *sum, const is_ice_address *at)
{
    HASH(sum, at->family, at->port, at->flow, at->scope);
    hash_bytes(sum, at->bytes, at->family == 4 ? 4 : 16);
}

static inline void hash_path(uint64_t *sum, const is_ice_media_path *path)
{
    hash_address(sum, &path->source);
    hash_address(sum, &path->destination);
    HASH(sum, path->protocol);
}

/* The state, the settings and the counters. The next timeout only with `modern`: without it, asking is a poll that changes the agent. */
static inline void hash_figures(uint64_t *sum, is_ice_agent *agent)
{
    is_ice_agent_status s;
    is_ice_agent_settings of;
    is_ice_agent_stats stats;
    uint64_t at = 0;
    size_t early = 0;
    if (is_ice_status(agent, &s) != IS_ICE_OK || is_ice_settings(agent, &of) != IS_ICE_OK || is_ice_stats(agent, &stats) != IS_ICE_OK) return;
    HASH(sum, (uint64_t)s.state, s.controlling, s.lite, s.mtu, s.mtu_warn, s.ice_timeout, s.max_candidates);
    HASH(sum, of.timing_advance, of.initial_rto, of.max_rto, of.lite_timeout, of.consent_timeout, of.max_retransmits, of.max_pairs,
         of.max_discovered, of.modern, of.strict_consent, of.renomination);
    HASH(sum, stats.bind_request_sent, stats.bind_success_recv, stats.bind_request_recv, stats.discovered_recv_count, stats.nomination_send_count);
    if (is_ice_early_count(agent, &early) == IS_ICE_OK) HASH(sum, early);
    if (of.modern && is_ice_poll_timeout(agent, &at) == IS_ICE_OK) HASH(sum, at);
}

/* The credentials and the candidates of both sides. */
static inline void hash_texts(uint64_t *sum, is_ice_agent *agent)
{
    int32_t (*const names[])(is_ice_agent *, uint8_t *, size_t, size_t *)
        = {is_ice_local_ufrag, is_ice_local_pass, is_ice_remote_ufrag, is_ice_remote_pass};
    int32_t (*const lines[])(is_ice_agent *, size_t, uint8_t *, size_t, size_t *, is_ice_fields *) = {is_ice_local_fields, is_ice_remote_fields};
    uint8_t text[1024];
    is_ice_fields fields;
    size_t length;
    for (size_t i = 0; i < 4; i++)
        if (names[i](agent, text, sizeof text, &length) == IS_ICE_OK) hash_bytes(sum, text, length);
    for (size_t side = 0; side < 2; side++)
        for (size_t i = 0; lines[side](agent, i, text, sizeof text, &length, &fields) == IS_ICE_OK; i++) {
            HASH(sum, side, length);
            hash_bytes(sum, text, length);
            hash_address(sum, &fields.local);
        }
}

static inline void hash_pairs(uint64_t *sum, is_ice_agent *agent)
{
    is_ice_pair p;
    is_ice_removed_pair removed;
    for (size_t i = 0; is_ice_pair_at(agent, i, &p) == IS_ICE_OK; i++)
        HASH(sum, p.local, p.remote, p.priority, p.checks_sent, p.requests_received, p.responses, p.total_rtt, p.has_rtt ? p.rtt : 1,
             p.has_request ? p.last_request : 1, p.has_due ? p.due : 1, (uint64_t)p.state, p.nominated, p.selected);
    for (size_t i = 0; is_ice_removed_at(agent, i, &removed) == IS_ICE_OK; i++) {
        HASH(sum, removed.priority, removed.checks_sent, removed.responses, (uint64_t)removed.state, (uint64_t)removed.reason,
             (uint64_t)removed.error);
        if (removed.has_path) hash_path(sum, &removed.path);
    }
}

static inline void hash_paths(uint64_t *sum, is_ice_agent *agent)
{
    is_ice_nominated_pair to;
    is_ice_media_path path;
    is_ice_failed_send failed;
    uint64_t since = 0;
    if (is_ice_nominated(agent, &to) == IS_ICE_OK) {
        hash_address(sum, &to.source);
        hash_address(sum, &to.destination);
        HASH(sum, to.total_rtt, to.responses, to.has_rtt ? to.rtt : 1, to.protocol);
    }
    if (is_ice_valid_path(agent, &path) == IS_ICE_OK) hash_path(sum, &path);
    if (is_ice_path_for_media(agent, 0, &path) == IS_ICE_OK) hash_path(sum, &path);
    if (is_ice_silent_since(agent, &since) == IS_ICE_OK) HASH(sum, since);
    for (size_t i = 0; is_ice_failed_send_at(agent, i, &failed) == IS_ICE_OK; i++) HASH(sum, failed.times, failed.reason, failed.source.port);
}

static inline uint64_t seen_of(is_ice_agent *agent)
{
    uint64_t sum = 1;
    hash_figures(&sum, agent);
    hash_texts(&sum, agent);
    hash_pairs(&sum, agent);
    hash_paths(&sum, agent);
    return sum;
}

#endif
