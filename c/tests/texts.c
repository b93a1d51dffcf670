/* Tests candidates as texts and as JSON, without an agent: the lines of RFC 8839 and RFC 6544, and what browsers signal. */
#include "is_ice.h"
#include <stdio.h>
#include <stdlib.h>
#include <string.h>

#define HOLD(fact) hold(__LINE__, #fact, fact)
#define TEXT(text) (const uint8_t *)text, strlen(text)

/* The example of RTCIceCandidate in MDN, and its line with an extension of RFC 8839, section 5.1. */
static const char line[] = "candidate:4234997325 1 udp 2043278322 192.0.2.172 44323 typ host";
static const char named[] = "candidate:4234997325 1 udp 2043278322 192.0.2.172 44323 typ host ufrag EsAw";
/* RTCIceCandidateInit as browsers document it, in two orders and spacings; not captured from one. */
static const char compact[] =
    "{\"candidate\":\"candidate:4234997325 1 udp 2043278322 192.0.2.172 44323 typ host\",\"sdpMid\":\"0\",\"sdpMLineIndex\":0,"
    "\"usernameFragment\":\"EsAw\"}";
static const char spaced[] =
    "{ \"candidate\": \"candidate:4234997325 1 UDP 2043278322 192.0.2.172 44323 typ host\", \"sdpMLineIndex\": 0, \"sdpMid\": \"0\","
    " \"usernameFragment\": \"EsAw\" }";
static const char without[] =
    "{\"candidate\":\"candidate:4234997325 1 udp 2043278322 192.0.2.172 44323 typ host\",\"sdpMLineIndex\":0,\"sdpMid\":null,"
    "\"usernameFragment\":null}";
static const char fraction[] = "{\"candidate\":\"candidate:1 1 udp 7 10.0.0.9 9 typ host\",\"x\":[1.5]}";
static const char numbered[] = "{\"candidate\":\"candidate:1 1 udp 7 10.0.0.9 9 typ host\",\"usernameFragment\":7}";
/* The end of candidates: an empty candidate. */
static const char ended[] = "{\"candidate\":\"\",\"sdpMid\":\"0\",\"sdpMLineIndex\":0,\"usernameFragment\":\"EsAw\"}";

static uint8_t buffer[256];
static size_t length;

static void hold(int at, const char *fact, bool holds)
{
    if (holds) return;
    printf("line %d: %s\n", at, fact);
    exit(1);
}

static bool holds_text(const char *text)
{
    return length == strlen(text) && memcmp(buffer, text, length) == 0;
}

static void json(void)
{
    HOLD(is_ice_line_to_json(TEXT(line), buffer, sizeof buffer, &length) == IS_ICE_OK && holds_text(without));
    HOLD(is_ice_line_to_json(TEXT(line), buffer, length - 1, &length) == IS_ICE_BUFFER_TOO_SHORT && holds_text(without));
    HOLD(is_ice_line_from_json(TEXT(without), buffer, sizeof buffer, &length) == IS_ICE_OK && holds_text(line));
    HOLD(is_ice_line_from_json(TEXT(compact), buffer, sizeof buffer, &length) == IS_ICE_OK && holds_text(named));
    HOLD(is_ice_line_from_json(TEXT(spaced), buffer, sizeof buffer, &length) == IS_ICE_OK && holds_text(named));
    HOLD(is_ice_line_to_json(TEXT(named), buffer, sizeof buffer, &length) == IS_ICE_OK);
    HOLD(is_ice_line_to_json(TEXT("\xff"), buffer, sizeof buffer, &length) == IS_ICE_NOT_UTF8);
    HOLD(is_ice_line_to_json(TEXT(""), buffer, sizeof buffer, &length) == IS_ICE_BAD_CANDIDATE);
    HOLD(is_ice_line_from_json(TEXT(compact), buffer, sizeof named - 2, &length) == IS_ICE_BUFFER_TOO_SHORT);
    HOLD(length == sizeof named - 1);
    HOLD(is_ice_line_from_json(TEXT("\xff"), buffer, sizeof buffer, &length) == IS_ICE_NOT_UTF8);
}

static void refusals(void)
{
    HOLD(is_ice_line_from_json(TEXT(ended), buffer, sizeof buffer, &length) == IS_ICE_BAD_CANDIDATE);
    HOLD(is_ice_json_refusal(TEXT(ended), buffer, sizeof buffer, &length) == IS_ICE_OK);
    HOLD(is_ice_json_refusal(TEXT("[]"), buffer, sizeof buffer, &length) == IS_ICE_OK);
    HOLD(holds_text("candidate info is not an object"));
    HOLD(is_ice_json_refusal(TEXT(fraction), buffer, sizeof buffer, &length) == IS_ICE_OK);
    HOLD(holds_text("candidate info holds a fraction"));
    HOLD(is_ice_json_refusal(TEXT(numbered), buffer, sizeof buffer, &length) == IS_ICE_OK);
    HOLD(holds_text("bad usernameFragment"));
    HOLD(is_ice_json_refusal(TEXT("{"), buffer, 3, &length) == IS_ICE_BUFFER_TOO_SHORT && length == 26);
    HOLD(is_ice_json_refusal(TEXT(compact), buffer, sizeof buffer, &length) == IS_ICE_NOTHING);
    HOLD(is_ice_json_refusal(TEXT("\xff"), buffer, sizeof buffer, &length) == IS_ICE_NOT_UTF8);
}

/* Eight opening brackets, of which seven are the value of "x"; and one more, in a string. */
static void brackets(void)
{
    static const char eight[] = "{\"candidate\":\"candidate:1 1 udp 7 10.0.0.9 9 typ host\",\"x\":[{\"y\":[[[[[]]]]]}]}";
    static const char nine[] = "{\"candidate\":\"candidate:1 1 udp 7 10.0.0.9 9 typ host x [\",\"x\":[{\"y\":[[[[[]]]]]}]}";
    HOLD(is_ice_line_from_json(TEXT(eight), buffer, sizeof buffer, &length) == IS_ICE_OK);
    HOLD(holds_text("candidate:1 1 udp 7 10.0.0.9 9 typ host"));
    HOLD(is_ice_line_from_json(TEXT(nine), buffer, sizeof buffer, &length) == IS_ICE_BAD_CANDIDATE);
    HOLD(is_ice_json_refusal(TEXT(nine), buffer, sizeof buffer, &length) == IS_ICE_OK);
    HOLD(holds_text("candidate info has more than 8 opening brackets"));
}

static void lines(void)
{
    /* RFC 8445, section 5.1.2.1: 126 * 2^24 + 65534 * 2^8 + 255 over UDP. */
    static const is_ice_candidate host = {{4, {10, 0, 0, 1}, 1000, 0, 0}, {4, {10, 0, 0, 1}, 1000, 0, 0}, IS_ICE_HOST, IS_ICE_UDP, 0};
    static const char rest[] = " 1 udp 2130706175 10.0.0.1 1000 typ host";
    is_ice_candidate other = host;
    HOLD(is_ice_candidate_line(&host, buffer, sizeof buffer, &length) == IS_ICE_OK && length > sizeof rest);
    HOLD(memcmp(buffer + length + 1 - sizeof rest, rest, sizeof rest - 1) == 0);
    other.tcptype = IS_ICE_TCP_ACTIVE;
    HOLD(is_ice_candidate_line(&other, buffer, sizeof buffer, &length) == IS_ICE_BAD_ADDRESS);
    other.protocol = IS_ICE_TCP;
    HOLD(is_ice_candidate_line(&other, buffer, sizeof buffer, &length) == IS_ICE_OK);
    HOLD(memcmp(buffer + length - 24, " typ host tcptype active", 24) == 0);
    HOLD(is_ice_candidate_line(&other, buffer, length - 1, &length) == IS_ICE_BUFFER_TOO_SHORT && length > 24);
    other.tcptype = 4;
    HOLD(is_ice_candidate_line(&other, buffer, sizeof buffer, &length) == IS_ICE_BAD_ADDRESS);
    HOLD(is_ice_candidate_refusal(&other, buffer, sizeof buffer, &length) == IS_ICE_BAD_ADDRESS);
    other = host, other.address.bytes[0] = 0, other.address.bytes[3] = 0;
    HOLD(is_ice_candidate_line(&other, buffer, sizeof buffer, &length) == IS_ICE_BAD_CANDIDATE);
    HOLD(is_ice_line_with_ufrag(TEXT(""), TEXT("EsAw"), buffer, sizeof buffer, &length) == IS_ICE_BAD_CANDIDATE);
    HOLD(is_ice_line_with_ufrag(TEXT(line), TEXT("EsAw"), buffer, sizeof named - 2, &length) == IS_ICE_BUFFER_TOO_SHORT);
    HOLD(is_ice_line_with_ufrag(TEXT(line), TEXT("EsAw"), buffer, sizeof buffer, &length) == IS_ICE_OK && holds_text(named));
    HOLD(is_ice_line_with_ufrag(TEXT(line), TEXT("\xff"), buffer, sizeof buffer, &length) == IS_ICE_NOT_UTF8 && holds_text(named));
}

/* The texts of the calls without fields, and the fields. */
static void fields(void)
{
    static const char hidden[] = "candidate:1 1 udp 2122262783 1f4712db-ea17-4bcf-a596-105139dfd8bf.local 54596 typ host";
    is_ice_address at = {4, {192, 0, 2, 7}, 0, 0, 0};
    is_ice_fields f;
    memset(&f, 0xaa, sizeof f);
    HOLD(is_ice_json_fields(TEXT(compact), buffer, sizeof buffer, &length, &f) == IS_ICE_OK && holds_text(named));
    HOLD(f.ufrag_length == 4 && f.foundation_length == 10 && f.priority == 2043278322 && f.address.port == 44323);
    is_ice_fields given = f;
    HOLD(is_ice_fields_line(&given, TEXT("4234997325"), buffer, sizeof buffer, &length, &f) == IS_ICE_OK && holds_text(line));
    HOLD(f.ufrag_length == 0 && f.foundation_length == 10 && f.priority == 2043278322 && f.address.port == 44323);
    given.kind = IS_ICE_SERVER_REFLEXIVE, given.protocol = IS_ICE_TCP, given.tcptype = IS_ICE_TCP_PASSIVE, given.component = 2;
    given.related = at, given.related.port = 9, given.address.scope = 7;
    HOLD(is_ice_fields_line(&given, TEXT("a+/1"), buffer, sizeof buffer, &length, &f) == IS_ICE_OK && f.address.scope == 0);
    HOLD(holds_text("candidate:a+/1 2 tcp 2043278322 192.0.2.172 44323 typ srflx raddr 192.0.2.7 rport 9 tcptype passive"));
    HOLD(is_ice_fields_line(&given, TEXT("a+/1"), buffer, length - 1, &length, &f) == IS_ICE_BUFFER_TOO_SHORT);
    HOLD(is_ice_fields_line(&given, TEXT(""), buffer, sizeof buffer, &length, &f) == IS_ICE_BAD_CANDIDATE);
    HOLD(is_ice_fields_line(&given, TEXT("a b"), buffer, sizeof buffer, &length, &f) == IS_ICE_BAD_CANDIDATE);
    HOLD(is_ice_fields_line(&given, TEXT("\xff"), buffer, sizeof buffer, &length, &f) == IS_ICE_NOT_UTF8);
    given.tcptype = 4;
    HOLD(is_ice_fields_line(&given, TEXT("1"), buffer, sizeof buffer, &length, &f) == IS_ICE_BAD_ADDRESS && f.component == 2);
    HOLD(is_ice_line_with_ufrag_fields(TEXT(line), TEXT("EsAwE"), buffer, sizeof buffer, &length, &f) == IS_ICE_OK);
    HOLD(f.ufrag_length == 5 && memcmp(buffer + length - 5, "EsAwE", 5) == 0);
    HOLD(is_ice_line_with_address_fields(TEXT(hidden), &at, buffer, sizeof buffer, &length, &f) == IS_ICE_OK);
    HOLD(holds_text("candidate:1 1 udp 2122262783 192.0.2.7 54596 typ host") && memcmp(f.address.bytes, at.bytes, 4) == 0);
    HOLD(f.address.port == 54596 && f.ufrag_length == 0 && f.kind == IS_ICE_HOST);
    HOLD(is_ice_line_with_address_fields(TEXT(hidden), &at, buffer, length - 1, &length, &f) == IS_ICE_BUFFER_TOO_SHORT);
    at.family = 5;
    HOLD(is_ice_line_with_address_fields(TEXT(hidden), &at, buffer, sizeof buffer, &length, &f) == IS_ICE_BAD_ADDRESS);
    HOLD(is_ice_line_with_ufrag_fields(TEXT(line), TEXT("a b"), buffer, sizeof buffer, &length, &f) == IS_ICE_BAD_CANDIDATE);
    HOLD(is_ice_json_fields(TEXT(ended), buffer, sizeof buffer, &length, &f) == IS_ICE_BAD_CANDIDATE && f.address.port == 54596);
}

/* The credentials of RFC 8839, section 5.6, and texts at the limits of sections 5.1 and 5.4. */
static void grammar(void)
{
    uint8_t many[257];
    memset(many, 'z', sizeof many);
    HOLD(is_ice_check_text(IS_ICE_TEXT_UFRAG, TEXT("8hhY")) == IS_ICE_OK && is_ice_check_text(IS_ICE_TEXT_UFRAG, many, 256) == IS_ICE_OK);
    HOLD(is_ice_check_text(IS_ICE_TEXT_PASS, TEXT("asd88fgpdd777uzjYhagZg")) == IS_ICE_OK);
    HOLD(is_ice_check_text(IS_ICE_TEXT_PASS, many, 256) == IS_ICE_OK && is_ice_check_text(IS_ICE_TEXT_PASS, many, 21) == IS_ICE_NOTHING);
    HOLD(is_ice_check_text(IS_ICE_TEXT_FOUNDATION, TEXT("1")) == IS_ICE_OK);
    HOLD(is_ice_check_text(IS_ICE_TEXT_FOUNDATION, many, 32) == IS_ICE_OK);
    HOLD(is_ice_check_text(IS_ICE_TEXT_FOUNDATION, many, 33) == IS_ICE_NOTHING);
    HOLD(is_ice_check_text(IS_ICE_TEXT_FOUNDATION, many, 0) == IS_ICE_NOTHING);
    HOLD(is_ice_check_text(IS_ICE_TEXT_UFRAG, many, 3) == IS_ICE_NOTHING);
    HOLD(is_ice_check_text(IS_ICE_TEXT_UFRAG, many, 257) == IS_ICE_NOTHING);
    HOLD(is_ice_check_text(IS_ICE_TEXT_PASS, many, 257) == IS_ICE_NOTHING && is_ice_check_text(3, TEXT("8hhY")) == IS_ICE_NOTHING);
    for (int byte = 0; byte < 256; byte++) {
        const char *chars = "ABCDEFGHIJKLMNOPQRSTUVWXYZabcdefghijklmnopqrstuvwxyz0123456789+/";
        many[2] = (uint8_t)byte;
        bool is_one = byte != 0 && strchr(chars, byte) != NULL;
        HOLD(is_ice_check_text(IS_ICE_TEXT_UFRAG, many, 9) == (is_one ? IS_ICE_OK : IS_ICE_NOTHING));
    }
}

/* RFC 8445, section 5.1.1.1, by the blocks of RFC 6890, 4291 and 3879. */
static void hosts(void)
{
    static const struct { uint8_t family, bytes[16]; bool is_host; } rows[] = {
        {4, {10, 0, 0, 1}, true}, {4, {126, 255, 255, 255}, true}, {4, {127, 0, 0, 1}, false}, {4, {128, 0, 0, 1}, true},
        {4, {169, 254, 1, 1}, false}, {4, {169, 253, 1, 1}, true}, {4, {168, 254, 1, 1}, true}, {4, {223, 255, 255, 255}, true},
        {4, {224, 0, 0, 1}, false}, {4, {239, 255, 255, 255}, false}, {4, {240, 0, 0, 1}, true}, {4, {255, 255, 255, 254}, true},
        {4, {255, 255, 255, 255}, false}, {4, {0, 0, 0, 0}, false}, {4, {0, 0, 0, 1}, true},
        {6, {0x20, 1, 0xd, 0xb8}, true}, {6, {0xfd, 0xff}, true}, {6, {0xfe, 0x7f}, true}, {6, {0xfe, 0x80}, false},
        {6, {0xfe, 0xbf}, false}, {6, {0xfe, 0xc0}, false}, {6, {0xfe, 0xff}, false}, {6, {0xff, 2}, false}, {6, {0}, false},
        {6, {[15] = 1}, false}, {6, {[12] = 10, [15] = 1}, false}, {6, {[10] = 255, [11] = 255, [12] = 10}, false},
        {6, {[10] = 255, [11] = 254}, true}, {6, {[9] = 1}, true}, {6, {0, 0x64, 0xff, 0x9b, [15] = 1}, true}};
    for (size_t i = 0; i < sizeof rows / sizeof *rows; i++) {
        is_ice_address address = {rows[i].family, {0}, 1, 0, 0};
        memcpy(address.bytes, rows[i].bytes, sizeof address.bytes);
        HOLD(is_ice_is_host_address(&address) == (rows[i].is_host ? IS_ICE_OK : IS_ICE_NOTHING));
        address.family = 5;
        HOLD(is_ice_is_host_address(&address) == IS_ICE_BAD_ADDRESS);
    }
}

/* RFC 8445, section 6.1.1: of two agents one is controlling. */
static void roles(void)
{
    HOLD(is_ice_role(true, false, false) == IS_ICE_OK && is_ice_role(false, false, false) == IS_ICE_NOTHING);
    HOLD(is_ice_role(true, true, true) == IS_ICE_OK && is_ice_role(false, true, true) == IS_ICE_NOTHING);
    HOLD(is_ice_role(true, true, false) == IS_ICE_NOTHING && is_ice_role(false, false, true) == IS_ICE_OK);
    HOLD(is_ice_role(false, true, false) == IS_ICE_NOTHING && is_ice_role(true, false, true) == IS_ICE_OK);
}

/* The RTO doubles up to the longest one (RFC 8489, section 6.2.1). */
static void retransmits(void)
{
    const uint64_t ms = UINT64_C(1000000), delays[] = {0, 250, 500, 1000, 2000, 2900, 2900};
    uint64_t time = 7;
    for (size_t sent = 0; sent < sizeof delays / sizeof *delays; sent++)
        HOLD(is_ice_retransmit_delay(250 * ms, 2900 * ms, 11, sent, &time) == IS_ICE_OK && time == delays[sent] * ms);
    HOLD(is_ice_retransmit_timeout(250 * ms, 2900 * ms, 11, &time) == IS_ICE_OK && time == 26700 * ms);
    HOLD(is_ice_retransmit_timeout(250 * ms, 2900 * ms, 0, &time) == IS_ICE_BAD_LIMIT && time == 26700 * ms);
}

static void preferences(void)
{
    static const is_ice_candidate v6 = {{6, {0x20, 1, 0xd, 0xb8}, 1, 0, 0}, {6, {0x20, 1, 0xd, 0xb8}, 1, 0, 0}, IS_ICE_HOST, 0, 0};
    uint32_t preference = 7;
    HOLD(is_ice_candidate_preference(&v6, 0, &preference) == IS_ICE_OK && preference == 65535);
    HOLD(is_ice_line_preference(TEXT(line), 3, &preference) == IS_ICE_OK && preference == 65528);
    HOLD(is_ice_line_preference(TEXT(""), 3, &preference) == IS_ICE_BAD_CANDIDATE && preference == 65528);
    HOLD(is_ice_line_preference(TEXT("\xff"), 3, &preference) == IS_ICE_NOT_UTF8 && preference == 65528);
    HOLD(is_ice_line_preference(TEXT(line), SIZE_MAX, &preference) == IS_ICE_OK && preference == 0);
    is_ice_candidate other = v6;
    other.kind = 3;
    HOLD(is_ice_candidate_preference(&other, 0, &preference) == IS_ICE_BAD_ADDRESS && preference == 0);
    other = v6, memset(other.address.bytes, 0, sizeof other.address.bytes);
    HOLD(is_ice_candidate_preference(&other, 0, &preference) == IS_ICE_BAD_CANDIDATE && preference == 0);
}

static void pairs(void)
{
    static const is_ice_candidate host = {{4, {10, 0, 0, 1}, 1000, 0, 0}, {4, {10, 0, 0, 1}, 1000, 0, 0}, IS_ICE_HOST, IS_ICE_UDP, 0};
    is_ice_agent agent = {false, NULL};
    is_ice_pair pair;
    size_t index;
    memset(&pair, 0xaa, sizeof pair);
    HOLD(is_ice_find_pair(&agent, TEXT(line), &pair) == IS_ICE_NO_AGENT);
    HOLD(is_ice_agent_new(&agent, TEXT("near"), TEXT("nearpass"), 7) == IS_ICE_OK);
    HOLD(is_ice_add_local(&agent, &host, &index) == IS_ICE_OK && is_ice_find_pair(&agent, TEXT(line), &pair) == IS_ICE_NOTHING);
    HOLD(is_ice_add_remote(&agent, TEXT("candidate:1 1 udp 7 192.0.2.1 1 typ host"), &index) == IS_ICE_OK);
    HOLD(is_ice_add_remote(&agent, TEXT(line), &index) == IS_ICE_OK && index == 1);
    HOLD(is_ice_find_pair(&agent, TEXT(named), &pair) == IS_ICE_OK && pair.local == 0 && pair.remote == 1);
    HOLD(is_ice_find_pair(&agent, TEXT("\xff"), &pair) == IS_ICE_NOT_UTF8 && pair.remote == 1);
    HOLD(is_ice_find_pair(&agent, TEXT(""), &pair) == IS_ICE_BAD_CANDIDATE && pair.remote == 1);
    HOLD(pair.state == IS_ICE_PAIR_WAITING && !pair.nominated && !pair.selected && !pair.has_rtt && !pair.has_request);
    is_ice_agent_free(&agent);
}

/* At the limit none is added to either side, and the agent is as before; a text that is not a candidate has its own error. An invalidated
 * candidate makes room. */
static void limits(void)
{
    is_ice_candidate host = {{4, {10, 0, 0, 1}, 1000, 0, 0}, {4, {10, 0, 0, 1}, 1000, 0, 0}, IS_ICE_HOST, IS_ICE_UDP, 0};
    is_ice_agent agent = {false, NULL};
    size_t index = 9;
    HOLD(is_ice_set_max_candidates(&agent, 1) == IS_ICE_NO_AGENT);
    HOLD(is_ice_agent_new(&agent, TEXT("near"), TEXT("nearpass"), 7) == IS_ICE_OK);
    for (uint16_t i = 0; i < 100; i++) {
        host.address.port = (uint16_t)(1000 + i);
        HOLD(is_ice_add_local(&agent, &host, &index) == IS_ICE_OK && index == i);
    }
    host.address.port = 999;
    HOLD(is_ice_add_local(&agent, &host, &index) == IS_ICE_TOO_MANY_CANDIDATES && index == 99);
    HOLD(is_ice_local_candidate(&agent, 100, buffer, sizeof buffer, &length) == IS_ICE_NOTHING);
    HOLD(is_ice_add_remote(&agent, TEXT(line), &index) == IS_ICE_OK && index == 0);
    HOLD(is_ice_set_max_candidates(&agent, 1) == IS_ICE_OK);
    HOLD(is_ice_add_remote(&agent, TEXT("candidate:1 1 udp 7 192.0.2.1 1 typ host"), &index) == IS_ICE_TOO_MANY_CANDIDATES && index == 0);
    HOLD(is_ice_add_remote(&agent, TEXT("candidate:1 2 udp 7 192.0.2.1 1 typ host"), &index) == IS_ICE_TOO_MANY_CANDIDATES && index == 0);
    HOLD(is_ice_add_remote(&agent, TEXT(line), &index) == IS_ICE_TOO_MANY_CANDIDATES && index == 0);
    HOLD(is_ice_add_remote(&agent, TEXT("\xff"), &index) == IS_ICE_NOT_UTF8 && index == 0);
    HOLD(is_ice_add_remote(&agent, TEXT("candidate:1"), &index) == IS_ICE_BAD_CANDIDATE && index == 0);
    HOLD(is_ice_remote_candidate(&agent, 1, buffer, sizeof buffer, &length) == IS_ICE_NOTHING);
    HOLD(is_ice_invalidate(&agent, TEXT(line)) == IS_ICE_OK);
    HOLD(is_ice_add_remote(&agent, TEXT("candidate:1 1 udp 7 192.0.2.1 1 typ host"), &index) == IS_ICE_OK && index == 0);
    HOLD(is_ice_set_max_candidates(&agent, IS_ICE_NO_LIMIT) == IS_ICE_OK);
    HOLD(is_ice_add_local(&agent, &host, &index) == IS_ICE_OK && index == 100);
    is_ice_agent_free(&agent);
}

/* A username fragment that is empty or has white space: the other agent does not take the text of a candidate. */
static void fragments(void)
{
    static const char *const all[] = {"", " ", "a b", "a b c", "a\xc2\xa0z"};
    const is_ice_candidate host = {{4, {10, 0, 0, 1}, 1000, 0, 0}, {0, {0}, 0, 0, 0}, IS_ICE_HOST, IS_ICE_UDP, 0};
    for (size_t i = 0; i < sizeof all / sizeof *all; i++) {
        is_ice_agent near = {false, NULL}, far = {false, NULL};
        size_t index;
        HOLD(is_ice_agent_new(&near, TEXT(all[i]), TEXT("pass"), 1) == IS_ICE_OK);
        HOLD(is_ice_agent_new(&far, TEXT("ufrag"), TEXT("pass"), 2) == IS_ICE_OK);
        HOLD(is_ice_set_remote_credentials(&far, TEXT(all[i]), TEXT("pass")) == IS_ICE_OK);
        HOLD(is_ice_add_local(&near, &host, &index) == IS_ICE_OK);
        HOLD(is_ice_local_candidate(&near, 0, buffer, sizeof buffer, &length) == IS_ICE_OK);
        HOLD(is_ice_add_remote(&far, buffer, length, &index) != IS_ICE_OK);
        HOLD(is_ice_remote_candidate(&far, 0, buffer, sizeof buffer, &length) == IS_ICE_NOTHING);
        is_ice_agent_free(&near);
        is_ice_agent_free(&far);
    }
}

int main(void)
{
    json();
    refusals();
    brackets();
    lines();
    fields();
    grammar();
    roles();
    hosts();
    retransmits();
    preferences();
    pairs();
    limits();
    fragments();
    return 0;
}
