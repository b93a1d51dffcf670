/* Made by `c/abi/make` from c/is_ice.h: edit that, and run it again. */
#ifndef IS_ICE_LAYOUT_H
#define IS_ICE_LAYOUT_H

#include "is_ice.h"
#include <string.h>

/* Returns the struct or the field that has another size or offset than on 64-bit targets, or NULL. */
static inline const char *other_layout(void)
{
    if (sizeof(void *) != 8) return NULL;
    if (sizeof(is_ice_agent) != 16) return "is_ice_agent";
    if (offsetof(is_ice_agent, is_held) != 0) return "is_ice_agent.is_held";
    if (offsetof(is_ice_agent, at) != 8) return "is_ice_agent.at";
    if (sizeof(is_ice_address) != 28) return "is_ice_address";
    if (offsetof(is_ice_address, family) != 0) return "is_ice_address.family";
    if (offsetof(is_ice_address, bytes) != 1) return "is_ice_address.bytes";
    if (offsetof(is_ice_address, port) != 18) return "is_ice_address.port";
    if (offsetof(is_ice_address, flow) != 20) return "is_ice_address.flow";
    if (offsetof(is_ice_address, scope) != 24) return "is_ice_address.scope";
    if (sizeof(is_ice_candidate) != 60) return "is_ice_candidate";
    if (offsetof(is_ice_candidate, address) != 0) return "is_ice_candidate.address";
    if (offsetof(is_ice_candidate, base) != 28) return "is_ice_candidate.base";
    if (offsetof(is_ice_candidate, kind) != 56) return "is_ice_candidate.kind";
    if (offsetof(is_ice_candidate, protocol) != 57) return "is_ice_candidate.protocol";
    if (offsetof(is_ice_candidate, tcptype) != 58) return "is_ice_candidate.tcptype";
    if (sizeof(is_ice_fields) != 120) return "is_ice_fields";
    if (offsetof(is_ice_fields, address) != 0) return "is_ice_fields.address";
    if (offsetof(is_ice_fields, local) != 28) return "is_ice_fields.local";
    if (offsetof(is_ice_fields, related) != 56) return "is_ice_fields.related";
    if (offsetof(is_ice_fields, foundation_length) != 88) return "is_ice_fields.foundation_length";
    if (offsetof(is_ice_fields, ufrag_length) != 96) return "is_ice_fields.ufrag_length";
    if (offsetof(is_ice_fields, priority) != 104) return "is_ice_fields.priority";
    if (offsetof(is_ice_fields, component) != 108) return "is_ice_fields.component";
    if (offsetof(is_ice_fields, kind) != 110) return "is_ice_fields.kind";
    if (offsetof(is_ice_fields, protocol) != 111) return "is_ice_fields.protocol";
    if (offsetof(is_ice_fields, tcptype) != 112) return "is_ice_fields.tcptype";
    if (sizeof(is_ice_packet) != 72) return "is_ice_packet";
    if (offsetof(is_ice_packet, source) != 0) return "is_ice_packet.source";
    if (offsetof(is_ice_packet, destination) != 28) return "is_ice_packet.destination";
    if (offsetof(is_ice_packet, length) != 56) return "is_ice_packet.length";
    if (offsetof(is_ice_packet, protocol) != 64) return "is_ice_packet.protocol";
    if (sizeof(is_ice_event) != 68) return "is_ice_event";
    if (offsetof(is_ice_event, source) != 0) return "is_ice_event.source";
    if (offsetof(is_ice_event, destination) != 28) return "is_ice_event.destination";
    if (offsetof(is_ice_event, kind) != 56) return "is_ice_event.kind";
    if (offsetof(is_ice_event, state) != 60) return "is_ice_event.state";
    if (offsetof(is_ice_event, protocol) != 64) return "is_ice_event.protocol";
    if (sizeof(is_ice_agent_status) != 40) return "is_ice_agent_status";
    if (offsetof(is_ice_agent_status, state) != 0) return "is_ice_agent_status.state";
    if (offsetof(is_ice_agent_status, controlling) != 4) return "is_ice_agent_status.controlling";
    if (offsetof(is_ice_agent_status, lite) != 5) return "is_ice_agent_status.lite";
    if (offsetof(is_ice_agent_status, mtu) != 8) return "is_ice_agent_status.mtu";
    if (offsetof(is_ice_agent_status, mtu_warn) != 16) return "is_ice_agent_status.mtu_warn";
    if (offsetof(is_ice_agent_status, ice_timeout) != 24) return "is_ice_agent_status.ice_timeout";
    if (offsetof(is_ice_agent_status, max_candidates) != 32) return "is_ice_agent_status.max_candidates";
    if (sizeof(is_ice_agent_stats) != 40) return "is_ice_agent_stats";
    if (offsetof(is_ice_agent_stats, bind_request_sent) != 0) return "is_ice_agent_stats.bind_request_sent";
    if (offsetof(is_ice_agent_stats, bind_success_recv) != 8) return "is_ice_agent_stats.bind_success_recv";
    if (offsetof(is_ice_agent_stats, bind_request_recv) != 16) return "is_ice_agent_stats.bind_request_recv";
    if (offsetof(is_ice_agent_stats, discovered_recv_count) != 24) return "is_ice_agent_stats.discovered_recv_count";
    if (offsetof(is_ice_agent_stats, nomination_send_count) != 32) return "is_ice_agent_stats.nomination_send_count";
    if (sizeof(is_ice_nominated_pair) != 88) return "is_ice_nominated_pair";
    if (offsetof(is_ice_nominated_pair, source) != 0) return "is_ice_nominated_pair.source";
    if (offsetof(is_ice_nominated_pair, destination) != 28) return "is_ice_nominated_pair.destination";
    if (offsetof(is_ice_nominated_pair, total_rtt) != 56) return "is_ice_nominated_pair.total_rtt";
    if (offsetof(is_ice_nominated_pair, responses) != 64) return "is_ice_nominated_pair.responses";
    if (offsetof(is_ice_nominated_pair, rtt) != 72) return "is_ice_nominated_pair.rtt";
    if (offsetof(is_ice_nominated_pair, protocol) != 80) return "is_ice_nominated_pair.protocol";
    if (offsetof(is_ice_nominated_pair, has_rtt) != 81) return "is_ice_nominated_pair.has_rtt";
    if (sizeof(is_ice_media_path) != 60) return "is_ice_media_path";
    if (offsetof(is_ice_media_path, source) != 0) return "is_ice_media_path.source";
    if (offsetof(is_ice_media_path, destination) != 28) return "is_ice_media_path.destination";
    if (offsetof(is_ice_media_path, protocol) != 56) return "is_ice_media_path.protocol";
    if (sizeof(is_ice_failed_send) != 72) return "is_ice_failed_send";
    if (offsetof(is_ice_failed_send, source) != 0) return "is_ice_failed_send.source";
    if (offsetof(is_ice_failed_send, destination) != 28) return "is_ice_failed_send.destination";
    if (offsetof(is_ice_failed_send, times) != 56) return "is_ice_failed_send.times";
    if (offsetof(is_ice_failed_send, reason) != 64) return "is_ice_failed_send.reason";
    if (offsetof(is_ice_failed_send, protocol) != 68) return "is_ice_failed_send.protocol";
    if (sizeof(is_ice_pair) != 96) return "is_ice_pair";
    if (offsetof(is_ice_pair, local) != 0) return "is_ice_pair.local";
    if (offsetof(is_ice_pair, remote) != 8) return "is_ice_pair.remote";
    if (offsetof(is_ice_pair, priority) != 16) return "is_ice_pair.priority";
    if (offsetof(is_ice_pair, checks_sent) != 24) return "is_ice_pair.checks_sent";
    if (offsetof(is_ice_pair, requests_received) != 32) return "is_ice_pair.requests_received";
    if (offsetof(is_ice_pair, responses) != 40) return "is_ice_pair.responses";
    if (offsetof(is_ice_pair, total_rtt) != 48) return "is_ice_pair.total_rtt";
    if (offsetof(is_ice_pair, rtt) != 56) return "is_ice_pair.rtt";
    if (offsetof(is_ice_pair, last_request) != 64) return "is_ice_pair.last_request";
    if (offsetof(is_ice_pair, due) != 72) return "is_ice_pair.due";
    if (offsetof(is_ice_pair, state) != 80) return "is_ice_pair.state";
    if (offsetof(is_ice_pair, nominated) != 84) return "is_ice_pair.nominated";
    if (offsetof(is_ice_pair, selected) != 85) return "is_ice_pair.selected";
    if (offsetof(is_ice_pair, has_rtt) != 86) return "is_ice_pair.has_rtt";
    if (offsetof(is_ice_pair, has_request) != 87) return "is_ice_pair.has_request";
    if (offsetof(is_ice_pair, has_due) != 88) return "is_ice_pair.has_due";
    if (sizeof(is_ice_removed_pair) != 104) return "is_ice_removed_pair";
    if (offsetof(is_ice_removed_pair, priority) != 0) return "is_ice_removed_pair.priority";
    if (offsetof(is_ice_removed_pair, checks_sent) != 8) return "is_ice_removed_pair.checks_sent";
    if (offsetof(is_ice_removed_pair, responses) != 16) return "is_ice_removed_pair.responses";
    if (offsetof(is_ice_removed_pair, path) != 24) return "is_ice_removed_pair.path";
    if (offsetof(is_ice_removed_pair, state) != 84) return "is_ice_removed_pair.state";
    if (offsetof(is_ice_removed_pair, reason) != 88) return "is_ice_removed_pair.reason";
    if (offsetof(is_ice_removed_pair, error) != 92) return "is_ice_removed_pair.error";
    if (offsetof(is_ice_removed_pair, has_path) != 96) return "is_ice_removed_pair.has_path";
    if (sizeof(is_ice_kind_preferences) != 8) return "is_ice_kind_preferences";
    if (offsetof(is_ice_kind_preferences, host) != 0) return "is_ice_kind_preferences.host";
    if (offsetof(is_ice_kind_preferences, peer_reflexive) != 2) return "is_ice_kind_preferences.peer_reflexive";
    if (offsetof(is_ice_kind_preferences, server_reflexive) != 4) return "is_ice_kind_preferences.server_reflexive";
    if (offsetof(is_ice_kind_preferences, relayed) != 6) return "is_ice_kind_preferences.relayed";
    if (sizeof(is_ice_preference_table) != 16) return "is_ice_preference_table";
    if (offsetof(is_ice_preference_table, v4) != 0) return "is_ice_preference_table.v4";
    if (offsetof(is_ice_preference_table, v6) != 8) return "is_ice_preference_table.v6";
    if (sizeof(is_ice_agent_settings) != 112) return "is_ice_agent_settings";
    if (offsetof(is_ice_agent_settings, timing_advance) != 0) return "is_ice_agent_settings.timing_advance";
    if (offsetof(is_ice_agent_settings, initial_rto) != 8) return "is_ice_agent_settings.initial_rto";
    if (offsetof(is_ice_agent_settings, max_rto) != 16) return "is_ice_agent_settings.max_rto";
    if (offsetof(is_ice_agent_settings, lite_timeout) != 24) return "is_ice_agent_settings.lite_timeout";
    if (offsetof(is_ice_agent_settings, consent_timeout) != 32) return "is_ice_agent_settings.consent_timeout";
    if (offsetof(is_ice_agent_settings, max_retransmits) != 40) return "is_ice_agent_settings.max_retransmits";
    if (offsetof(is_ice_agent_settings, max_pairs) != 48) return "is_ice_agent_settings.max_pairs";
    if (offsetof(is_ice_agent_settings, max_discovered) != 56) return "is_ice_agent_settings.max_discovered";
    if (offsetof(is_ice_agent_settings, max_candidates) != 64) return "is_ice_agent_settings.max_candidates";
    if (offsetof(is_ice_agent_settings, room) != 72) return "is_ice_agent_settings.room";
    if (offsetof(is_ice_agent_settings, modern) != 104) return "is_ice_agent_settings.modern";
    if (offsetof(is_ice_agent_settings, strict_consent) != 105) return "is_ice_agent_settings.strict_consent";
    if (offsetof(is_ice_agent_settings, renomination) != 106) return "is_ice_agent_settings.renomination";
    if (sizeof(is_ice_stun_transaction) != 12) return "is_ice_stun_transaction";
    if (offsetof(is_ice_stun_transaction, bytes) != 0) return "is_ice_stun_transaction.bytes";
    if (sizeof(is_ice_stun_result) != 32) return "is_ice_stun_result";
    if (offsetof(is_ice_stun_result, mapped) != 0) return "is_ice_stun_result.mapped";
    if (offsetof(is_ice_stun_result, error_code) != 28) return "is_ice_stun_result.error_code";
    if (sizeof(is_ice_stun_number) != 16) return "is_ice_stun_number";
    if (offsetof(is_ice_stun_number, value) != 0) return "is_ice_stun_number.value";
    if (offsetof(is_ice_stun_number, is_set) != 8) return "is_ice_stun_number.is_set";
    if (sizeof(is_ice_stun_message) != 248) return "is_ice_stun_message";
    if (offsetof(is_ice_stun_message, priority) != 0) return "is_ice_stun_message.priority";
    if (offsetof(is_ice_stun_message, controlled) != 16) return "is_ice_stun_message.controlled";
    if (offsetof(is_ice_stun_message, controlling) != 32) return "is_ice_stun_message.controlling";
    if (offsetof(is_ice_stun_message, error_code) != 48) return "is_ice_stun_message.error_code";
    if (offsetof(is_ice_stun_message, lifetime) != 64) return "is_ice_stun_message.lifetime";
    if (offsetof(is_ice_stun_message, channel_number) != 80) return "is_ice_stun_message.channel_number";
    if (offsetof(is_ice_stun_message, network_id) != 96) return "is_ice_stun_message.network_id";
    if (offsetof(is_ice_stun_message, network_cost) != 112) return "is_ice_stun_message.network_cost";
    if (offsetof(is_ice_stun_message, nomination) != 128) return "is_ice_stun_message.nomination";
    if (offsetof(is_ice_stun_message, mapped) != 144) return "is_ice_stun_message.mapped";
    if (offsetof(is_ice_stun_message, peer) != 172) return "is_ice_stun_message.peer";
    if (offsetof(is_ice_stun_message, relayed) != 200) return "is_ice_stun_message.relayed";
    if (offsetof(is_ice_stun_message, id) != 228) return "is_ice_stun_message.id";
    if (offsetof(is_ice_stun_message, method) != 240) return "is_ice_stun_message.method";
    if (offsetof(is_ice_stun_message, cls) != 242) return "is_ice_stun_message.cls";
    if (offsetof(is_ice_stun_message, use_candidate) != 243) return "is_ice_stun_message.use_candidate";
    if (offsetof(is_ice_stun_message, has_integrity) != 244) return "is_ice_stun_message.has_integrity";
    if (offsetof(is_ice_stun_message, has_fingerprint) != 245) return "is_ice_stun_message.has_fingerprint";
    if (offsetof(is_ice_stun_message, requested_transport) != 246) return "is_ice_stun_message.requested_transport";
    if (offsetof(is_ice_stun_message, requested_family) != 247) return "is_ice_stun_message.requested_family";
    if (sizeof(is_ice_stun_span) != 24) return "is_ice_stun_span";
    if (offsetof(is_ice_stun_span, start) != 0) return "is_ice_stun_span.start";
    if (offsetof(is_ice_stun_span, length) != 8) return "is_ice_stun_span.length";
    if (offsetof(is_ice_stun_span, is_set) != 16) return "is_ice_stun_span.is_set";
    if (sizeof(is_ice_stun_texts) != 144) return "is_ice_stun_texts";
    if (offsetof(is_ice_stun_texts, username) != 0) return "is_ice_stun_texts.username";
    if (offsetof(is_ice_stun_texts, reason) != 24) return "is_ice_stun_texts.reason";
    if (offsetof(is_ice_stun_texts, data) != 48) return "is_ice_stun_texts.data";
    if (offsetof(is_ice_stun_texts, realm) != 72) return "is_ice_stun_texts.realm";
    if (offsetof(is_ice_stun_texts, nonce) != 96) return "is_ice_stun_texts.nonce";
    if (offsetof(is_ice_stun_texts, software) != 120) return "is_ice_stun_texts.software";
    if (sizeof(is_ice_servers) != 16) return "is_ice_servers";
    if (offsetof(is_ice_servers, is_held) != 0) return "is_ice_servers.is_held";
    if (offsetof(is_ice_servers, at) != 8) return "is_ice_servers.at";
    if (sizeof(is_ice_datagram) != 72) return "is_ice_datagram";
    if (offsetof(is_ice_datagram, source) != 0) return "is_ice_datagram.source";
    if (offsetof(is_ice_datagram, destination) != 28) return "is_ice_datagram.destination";
    if (offsetof(is_ice_datagram, offset) != 56) return "is_ice_datagram.offset";
    if (offsetof(is_ice_datagram, length) != 64) return "is_ice_datagram.length";
    if (sizeof(is_ice_server_event) != 156) return "is_ice_server_event";
    if (offsetof(is_ice_server_event, local) != 0) return "is_ice_server_event.local";
    if (offsetof(is_ice_server_event, server) != 28) return "is_ice_server_event.server";
    if (offsetof(is_ice_server_event, relayed) != 56) return "is_ice_server_event.relayed";
    if (offsetof(is_ice_server_event, mapped) != 84) return "is_ice_server_event.mapped";
    if (offsetof(is_ice_server_event, peer) != 112) return "is_ice_server_event.peer";
    if (offsetof(is_ice_server_event, kind) != 140) return "is_ice_server_event.kind";
    if (offsetof(is_ice_server_event, why) != 144) return "is_ice_server_event.why";
    if (offsetof(is_ice_server_event, code) != 148) return "is_ice_server_event.code";
    if (offsetof(is_ice_server_event, unverified) != 150) return "is_ice_server_event.unverified";
    if (offsetof(is_ice_server_event, protocol) != 152) return "is_ice_server_event.protocol";
    if (offsetof(is_ice_server_event, has_mapped) != 153) return "is_ice_server_event.has_mapped";
    if (sizeof(is_ice_server_url) != 24) return "is_ice_server_url";
    if (offsetof(is_ice_server_url, host_start) != 0) return "is_ice_server_url.host_start";
    if (offsetof(is_ice_server_url, host_length) != 8) return "is_ice_server_url.host_length";
    if (offsetof(is_ice_server_url, port) != 16) return "is_ice_server_url.port";
    if (offsetof(is_ice_server_url, scheme) != 18) return "is_ice_server_url.scheme";
    if (offsetof(is_ice_server_url, protocol) != 19) return "is_ice_server_url.protocol";
    return NULL;
}

static inline bool same_address(const is_ice_address *a, const is_ice_address *b)
{
    return a->family == b->family
        && memcmp(a->bytes, b->bytes, sizeof a->bytes) == 0
        && a->port == b->port
        && a->flow == b->flow
        && a->scope == b->scope;
}

static inline bool same_candidate(const is_ice_candidate *a, const is_ice_candidate *b)
{
    return same_address(&a->address, &b->address)
        && same_address(&a->base, &b->base)
        && a->kind == b->kind
        && a->protocol == b->protocol
        && a->tcptype == b->tcptype;
}

static inline bool same_fields(const is_ice_fields *a, const is_ice_fields *b)
{
    return same_address(&a->address, &b->address)
        && same_address(&a->local, &b->local)
        && same_address(&a->related, &b->related)
        && a->foundation_length == b->foundation_length
        && a->ufrag_length == b->ufrag_length
        && a->priority == b->priority
        && a->component == b->component
        && a->kind == b->kind
        && a->protocol == b->protocol
        && a->tcptype == b->tcptype;
}

static inline bool same_packet(const is_ice_packet *a, const is_ice_packet *b)
{
    return same_address(&a->source, &b->source)
        && same_address(&a->destination, &b->destination)
        && a->length == b->length
        && a->protocol == b->protocol;
}

static inline bool same_event(const is_ice_event *a, const is_ice_event *b)
{
    return same_address(&a->source, &b->source)
        && same_address(&a->destination, &b->destination)
        && a->kind == b->kind
        && a->state == b->state
        && a->protocol == b->protocol;
}

static inline bool same_agent_status(const is_ice_agent_status *a, const is_ice_agent_status *b)
{
    return a->state == b->state
        && a->controlling == b->controlling
        && a->lite == b->lite
        && a->mtu == b->mtu
        && a->mtu_warn == b->mtu_warn
        && a->ice_timeout == b->ice_timeout
        && a->max_candidates == b->max_candidates;
}

static inline bool same_agent_stats(const is_ice_agent_stats *a, const is_ice_agent_stats *b)
{
    return a->bind_request_sent == b->bind_request_sent
        && a->bind_success_recv == b->bind_success_recv
        && a->bind_request_recv == b->bind_request_recv
        && a->discovered_recv_count == b->discovered_recv_count
        && a->nomination_send_count == b->nomination_send_count;
}

static inline bool same_nominated_pair(const is_ice_nominated_pair *a, const is_ice_nominated_pair *b)
{
    return same_address(&a->source, &b->source)
        && same_address(&a->destination, &b->destination)
        && a->total_rtt == b->total_rtt
        && a->responses == b->responses
        && a->rtt == b->rtt
        && a->protocol == b->protocol
        && a->has_rtt == b->has_rtt;
}

static inline bool same_media_path(const is_ice_media_path *a, const is_ice_media_path *b)
{
    return same_address(&a->source, &b->source)
        && same_address(&a->destination, &b->destination)
        && a->protocol == b->protocol;
}

static inline bool same_failed_send(const is_ice_failed_send *a, const is_ice_failed_send *b)
{
    return same_address(&a->source, &b->source)
        && same_address(&a->destination, &b->destination)
        && a->times == b->times
        && a->reason == b->reason
        && a->protocol == b->protocol;
}

static inline bool same_pair(const is_ice_pair *a, const is_ice_pair *b)
{
    return a->local == b->local
        && a->remote == b->remote
        && a->priority == b->priority
        && a->checks_sent == b->checks_sent
        && a->requests_received == b->requests_received
        && a->responses == b->responses
        && a->total_rtt == b->total_rtt
        && a->rtt == b->rtt
        && a->last_request == b->last_request
        && a->due == b->due
        && a->state == b->state
        && a->nominated == b->nominated
        && a->selected == b->selected
        && a->has_rtt == b->has_rtt
        && a->has_request == b->has_request
        && a->has_due == b->has_due;
}

static inline bool same_removed_pair(const is_ice_removed_pair *a, const is_ice_removed_pair *b)
{
    return a->priority == b->priority
        && a->checks_sent == b->checks_sent
        && a->responses == b->responses
        && same_media_path(&a->path, &b->path)
        && a->state == b->state
        && a->reason == b->reason
        && a->error == b->error
        && a->has_path == b->has_path;
}

static inline bool same_kind_preferences(const is_ice_kind_preferences *a, const is_ice_kind_preferences *b)
{
    return a->host == b->host
        && a->peer_reflexive == b->peer_reflexive
        && a->server_reflexive == b->server_reflexive
        && a->relayed == b->relayed;
}

static inline bool same_preference_table(const is_ice_preference_table *a, const is_ice_preference_table *b)
{
    return same_kind_preferences(&a->v4, &b->v4)
        && same_kind_preferences(&a->v6, &b->v6);
}

static inline bool same_agent_settings(const is_ice_agent_settings *a, const is_ice_agent_settings *b)
{
    return a->timing_advance == b->timing_advance
        && a->initial_rto == b->initial_rto
        && a->max_rto == b->max_rto
        && a->lite_timeout == b->lite_timeout
        && a->consent_timeout == b->consent_timeout
        && a->max_retransmits == b->max_retransmits
        && a->max_pairs == b->max_pairs
        && a->max_discovered == b->max_discovered
        && a->max_candidates == b->max_candidates
        && memcmp(a->room, b->room, sizeof a->room) == 0
        && a->modern == b->modern
        && a->strict_consent == b->strict_consent
        && a->renomination == b->renomination;
}

static inline bool same_stun_transaction(const is_ice_stun_transaction *a, const is_ice_stun_transaction *b)
{
    return memcmp(a->bytes, b->bytes, sizeof a->bytes) == 0;
}

static inline bool same_stun_result(const is_ice_stun_result *a, const is_ice_stun_result *b)
{
    return same_address(&a->mapped, &b->mapped)
        && a->error_code == b->error_code;
}

static inline bool same_stun_number(const is_ice_stun_number *a, const is_ice_stun_number *b)
{
    return a->value == b->value
        && a->is_set == b->is_set;
}

static inline bool same_stun_message(const is_ice_stun_message *a, const is_ice_stun_message *b)
{
    return same_stun_number(&a->priority, &b->priority)
        && same_stun_number(&a->controlled, &b->controlled)
        && same_stun_number(&a->controlling, &b->controlling)
        && same_stun_number(&a->error_code, &b->error_code)
        && same_stun_number(&a->lifetime, &b->lifetime)
        && same_stun_number(&a->channel_number, &b->channel_number)
        && same_stun_number(&a->network_id, &b->network_id)
        && same_stun_number(&a->network_cost, &b->network_cost)
        && same_stun_number(&a->nomination, &b->nomination)
        && same_address(&a->mapped, &b->mapped)
        && same_address(&a->peer, &b->peer)
        && same_address(&a->relayed, &b->relayed)
        && same_stun_transaction(&a->id, &b->id)
        && a->method == b->method
        && a->cls == b->cls
        && a->use_candidate == b->use_candidate
        && a->has_integrity == b->has_integrity
        && a->has_fingerprint == b->has_fingerprint
        && a->requested_transport == b->requested_transport
        && a->requested_family == b->requested_family;
}

static inline bool same_stun_span(const is_ice_stun_span *a, const is_ice_stun_span *b)
{
    return a->start == b->start
        && a->length == b->length
        && a->is_set == b->is_set;
}

static inline bool same_stun_texts(const is_ice_stun_texts *a, const is_ice_stun_texts *b)
{
    return same_stun_span(&a->username, &b->username)
        && same_stun_span(&a->reason, &b->reason)
        && same_stun_span(&a->data, &b->data)
        && same_stun_span(&a->realm, &b->realm)
        && same_stun_span(&a->nonce, &b->nonce)
        && same_stun_span(&a->software, &b->software);
}

static inline bool same_datagram(const is_ice_datagram *a, const is_ice_datagram *b)
{
    return same_address(&a->source, &b->source)
        && same_address(&a->destination, &b->destination)
        && a->offset == b->offset
        && a->length == b->length;
}

static inline bool same_server_event(const is_ice_server_event *a, const is_ice_server_event *b)
{
    return same_address(&a->local, &b->local)
        && same_address(&a->server, &b->server)
        && same_address(&a->relayed, &b->relayed)
        && same_address(&a->mapped, &b->mapped)
        && same_address(&a->peer, &b->peer)
        && a->kind == b->kind
        && a->why == b->why
        && a->code == b->code
        && a->unverified == b->unverified
        && a->protocol == b->protocol
        && a->has_mapped == b->has_mapped;
}

static inline bool same_server_url(const is_ice_server_url *a, const is_ice_server_url *b)
{
    return a->host_start == b->host_start
        && a->host_length == b->host_length
        && a->port == b->port
        && a->scheme == b->scheme
        && a->protocol == b->protocol;
}

#endif
