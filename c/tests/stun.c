/* Tests the STUN calls: the samples of RFC 5769, read and written; a request, responses of servers, malformed messages. */
#include "is_ice.h"
#include <stdio.h>
#include <stdlib.h>
#include <string.h>

#define HOLD(fact) hold(__LINE__, #fact, fact)
#define AT(type, field, offset) HOLD(sizeof(void *) != 8 || offsetof(type, field) == (offset))

/* RFC 5769, sections 2.1 to 2.3. Their SOFTWARE has type 0x8022, which is skipped. */
static const char password[] = "VOkJxbRl1RmTxUk/WvJxBt";
static const char request_hex[] =
    "000100582112a442b7e7a701bc34d686fa87dfae802200105354554e207465737420636c69656e74002400046e0001ff80290008932ff9b151263b36"
    "000600096576746a3a68367659202020000800149aeaa70cbfd8cb56781ef2b5b2d3f249c1b571a280280004e57a3bcf";
static const char v4_hex[] =
    "0101003c2112a442b7e7a701bc34d686fa87dfae8022000b7465737420766563746f7220002000080001a147e112a643"
    "000800142b91f599fd9e90c38c7489f92af9ba53f06be7d780280004c07d4c96";
static const char v6_hex[] =
    "010100482112a442b7e7a701bc34d686fa87dfae8022000b7465737420766563746f7220002000140002a1470113a9faa5d3f179bc25f4b5bed2b9d9"
    "00080014a382954e4be67bf11784c97c8292c275bfe3ed4180280004c8fb0b4c";
static const is_ice_stun_transaction id = {{0xb7, 0xe7, 0xa7, 0x01, 0xbc, 0x34, 0xd6, 0x86, 0xfa, 0x87, 0xdf, 0xae}};

/* Responses of a server to a request without credentials: mapped to 192.0.2.1:32853, and 401 "no". */
static const char plain_hex[] = "0101000c2112a442b7e7a701bc34d686fa87dfae002000080001a147e112a643";
static const char failed_hex[] = "0111000c2112a442b7e7a701bc34d686fa87dfae00090006000004016e6f0000";

static void hold(int line, const char *fact, bool holds)
{
    if (holds) return;
    printf("line %d: %s\n", line, fact);
    exit(1);
}

static size_t unhex(const char *hex, uint8_t *bytes)
{
    size_t length = strlen(hex) / 2;
    for (size_t i = 0; i < length; i++) {
        unsigned byte = 0;
        HOLD(sscanf(hex + 2 * i, "%2x", &byte) == 1);
        bytes[i] = (uint8_t)byte;
    }
    return length;
}

static void offsets(void)
{
    AT(is_ice_stun_result, mapped, 0), AT(is_ice_stun_result, error_code, 28);
    AT(is_ice_stun_number, value, 0), AT(is_ice_stun_number, is_set, 8);
    AT(is_ice_stun_message, priority, 0), AT(is_ice_stun_message, controlled, 16), AT(is_ice_stun_message, controlling, 32);
    AT(is_ice_stun_message, error_code, 48), AT(is_ice_stun_message, lifetime, 64), AT(is_ice_stun_message, channel_number, 80);
    AT(is_ice_stun_message, network_id, 96), AT(is_ice_stun_message, network_cost, 112), AT(is_ice_stun_message, nomination, 128);
    AT(is_ice_stun_message, mapped, 144), AT(is_ice_stun_message, peer, 172), AT(is_ice_stun_message, relayed, 200);
    AT(is_ice_stun_message, id, 228), AT(is_ice_stun_message, method, 240), AT(is_ice_stun_message, cls, 242);
    AT(is_ice_stun_message, use_candidate, 243), AT(is_ice_stun_message, has_integrity, 244), AT(is_ice_stun_message, has_fingerprint, 245);
    AT(is_ice_stun_message, requested_transport, 246), AT(is_ice_stun_message, requested_family, 247);
    AT(is_ice_stun_span, start, 0), AT(is_ice_stun_span, length, 8), AT(is_ice_stun_span, is_set, 16);
    AT(is_ice_stun_texts, username, 0), AT(is_ice_stun_texts, reason, 24), AT(is_ice_stun_texts, data, 48);
    AT(is_ice_stun_texts, realm, 72), AT(is_ice_stun_texts, nonce, 96), AT(is_ice_stun_texts, software, 120);
}

/* The CRC-32 of FINGERPRINT, bit by bit (RFC 8489, section 14.7). */
static uint32_t crc32(const uint8_t *bytes, size_t length)
{
    uint32_t crc = 0xffffffff;
    for (size_t i = 0; i < length; i++) {
        crc ^= bytes[i];
        for (int bit = 0; bit < 8; bit++) crc = crc & 1 ? crc >> 1 ^ 0xedb88320 : crc >> 1;
    }
    return ~crc;
}

static void writes_a_request(void)
{
    static const uint8_t header[8] = {0, 1, 0, 8, 0x21, 0x12, 0xa4, 0x42}, fingerprint[4] = {0x80, 0x28, 0, 4};
    uint8_t buffer[32], wanted[4];
    size_t length = 0;
    memset(buffer, 0xaa, sizeof buffer);
    HOLD(is_ice_stun_request(&id, buffer, 27, &length) == IS_ICE_BUFFER_TOO_SHORT && length == 28 && buffer[0] == 0xaa);
    length = 0;
    HOLD(is_ice_stun_request(&id, buffer, sizeof buffer, &length) == IS_ICE_OK && length == IS_ICE_STUN_REQUEST_LENGTH);
    HOLD(memcmp(buffer, header, 8) == 0 && memcmp(buffer + 8, id.bytes, 12) == 0 && memcmp(buffer + 20, fingerprint, 4) == 0);
    uint32_t crc = crc32(buffer, 20) ^ 0x5354554e;
    for (int i = 0; i < 4; i++) wanted[i] = (uint8_t)(crc >> (24 - 8 * i));
    HOLD(memcmp(buffer + 24, wanted, 4) == 0 && buffer[28] == 0xaa);
}

static void reads_responses(void)
{
    static const uint8_t v4[4] = {192, 0, 2, 1};
    static const uint8_t v6[16] = {0x20, 1, 0xd, 0xb8, 0x12, 0x34, 0x56, 0x78, 0, 0x11, 0x22, 0x33, 0x44, 0x55, 0x66, 0x77};
    is_ice_stun_transaction other = id;
    is_ice_stun_result result;
    uint8_t bytes[128], text[8];
    size_t length;
    const char *samples[2] = {v4_hex, plain_hex};
    for (int i = 0; i < 2; i++) {
        memset(&result, 0xaa, sizeof result);
        HOLD(is_ice_stun_response(&id, bytes, unhex(samples[i], bytes), &result) == IS_ICE_OK && result.error_code == 0);
        HOLD(result.mapped.family == 4 && result.mapped.port == 32853 && memcmp(result.mapped.bytes, v4, 4) == 0);
    }
    HOLD(is_ice_stun_response(&id, bytes, unhex(v6_hex, bytes), &result) == IS_ICE_OK && result.error_code == 0);
    HOLD(result.mapped.family == 6 && result.mapped.port == 32853 && memcmp(result.mapped.bytes, v6, 16) == 0);
    HOLD(result.mapped.flow == 0 && result.mapped.scope == 0);
    size_t size = unhex(failed_hex, bytes);
    HOLD(is_ice_stun_response(&id, bytes, size, &result) == IS_ICE_OK && result.error_code == 401 && result.mapped.family == 6);
    HOLD(is_ice_stun_text(IS_ICE_STUN_ERROR_CODE, bytes, size, text, sizeof text, &length) == IS_ICE_OK);
    HOLD(length == 2 && memcmp(text, "no", 2) == 0);
    HOLD(is_ice_stun_text(IS_ICE_STUN_ERROR_CODE, bytes, size, text, 1, &length) == IS_ICE_BUFFER_TOO_SHORT && length == 2);
    other.bytes[11] ^= 1;
    result.error_code = 7;
    HOLD(is_ice_stun_response(&other, bytes, size, &result) == IS_ICE_NOTHING && result.error_code == 7);
    HOLD(is_ice_stun_response(&id, bytes, unhex(request_hex, bytes), &result) == IS_ICE_NOTHING && result.error_code == 7);
    size = unhex(plain_hex, bytes);
    for (size_t i = 0; i < size; i++) HOLD(is_ice_stun_response(&id, bytes, i, &result) == IS_ICE_UNPARSED);
    bytes[25] = 3; /* an unknown family */
    HOLD(is_ice_stun_response(&id, bytes, size, &result) == IS_ICE_UNPARSED && result.error_code == 7);
}

static void reads_any_message(void)
{
    uint8_t bytes[128], text[32];
    is_ice_stun_message m;
    size_t length = 99, size = unhex(request_hex, bytes);
    memset(&m, 0xaa, sizeof m);
    HOLD(is_ice_stun_read(bytes, size, &m) == IS_ICE_OK);
    HOLD(m.method == IS_ICE_STUN_BINDING && m.cls == IS_ICE_STUN_REQUEST && memcmp(m.id.bytes, id.bytes, 12) == 0);
    HOLD(m.priority.is_set && m.priority.value == 0x6e0001ff && !m.use_candidate);
    HOLD(m.controlled.is_set && m.controlled.value == UINT64_C(0x932ff9b151263b36) && !m.controlling.is_set);
    HOLD(!m.error_code.is_set && !m.lifetime.is_set && !m.channel_number.is_set && !m.network_id.is_set && !m.network_cost.is_set);
    HOLD(!m.nomination.is_set && m.nomination.value == 0);
    HOLD(m.mapped.family == 0 && m.peer.family == 0 && m.relayed.family == 0 && m.has_integrity && m.has_fingerprint);
    HOLD(m.requested_transport == 0 && m.requested_family == 0);
    HOLD(is_ice_stun_text(IS_ICE_STUN_USERNAME, bytes, size, text, sizeof text, &length) == IS_ICE_OK);
    HOLD(length == 9 && memcmp(text, "evtj:h6vY", 9) == 0);
    HOLD(is_ice_stun_text(IS_ICE_STUN_REALM, bytes, size, text, sizeof text, &length) == IS_ICE_NOTHING && length == 9);
    HOLD(is_ice_stun_text(0x0024, bytes, size, text, sizeof text, &length) == IS_ICE_NOTHING && length == 9);
    HOLD(is_ice_stun_verify(bytes, size, (const uint8_t *)password, sizeof password - 1) == IS_ICE_OK);
    HOLD(is_ice_stun_verify(bytes, size, (const uint8_t *)password, sizeof password - 2) == IS_ICE_NOTHING);
    bytes[60] ^= 1; /* in the tie-breaker */
    HOLD(is_ice_stun_verify(bytes, size, (const uint8_t *)password, sizeof password - 1) == IS_ICE_NOTHING);
    HOLD(is_ice_stun_read(bytes, size - 1, &m) == IS_ICE_UNPARSED && m.priority.value == 0x6e0001ff);
    HOLD(is_ice_stun_read(bytes, unhex(failed_hex, bytes), &m) == IS_ICE_OK && m.cls == IS_ICE_STUN_FAILURE);
    HOLD(m.error_code.is_set && m.error_code.value == 401 && !m.has_integrity && !m.has_fingerprint);
    HOLD(is_ice_stun_verify(bytes, unhex(plain_hex, bytes), (const uint8_t *)password, 0) == IS_ICE_NOTHING);
}

/* What is_ice_stun_read says of the bytes, which have this text if it is not null. */
static void same_again(
    const is_ice_stun_message *wanted, uint16_t attribute, const char *text, const uint8_t *bytes, size_t size)
{
    uint8_t found[64];
    size_t length;
    is_ice_stun_message m;
    memset(&m, 0, sizeof m);
    HOLD(is_ice_stun_read(bytes, size, &m) == IS_ICE_OK);
    HOLD(m.method == wanted->method && m.cls == wanted->cls && memcmp(m.id.bytes, wanted->id.bytes, 12) == 0);
    HOLD(m.priority.is_set == wanted->priority.is_set && m.priority.value == wanted->priority.value);
    HOLD(m.controlled.is_set == wanted->controlled.is_set && m.controlled.value == wanted->controlled.value);
    HOLD(m.controlling.is_set == wanted->controlling.is_set && m.controlling.value == wanted->controlling.value);
    HOLD(m.error_code.is_set == wanted->error_code.is_set && m.error_code.value == wanted->error_code.value);
    HOLD(m.lifetime.is_set == wanted->lifetime.is_set && m.lifetime.value == wanted->lifetime.value);
    HOLD(m.channel_number.is_set == wanted->channel_number.is_set && m.channel_number.value == wanted->channel_number.value);
    HOLD(m.network_id.is_set == wanted->network_id.is_set && m.network_id.value == wanted->network_id.value);
    HOLD(m.network_cost.is_set == wanted->network_cost.is_set && m.network_cost.value == wanted->network_cost.value);
    HOLD(m.nomination.is_set == wanted->nomination.is_set && m.nomination.value == wanted->nomination.value);
    HOLD(m.mapped.family == wanted->mapped.family && m.mapped.port == wanted->mapped.port);
    HOLD(m.mapped.family == 0 || memcmp(m.mapped.bytes, wanted->mapped.bytes, m.mapped.family == 4 ? 4 : 16) == 0);
    HOLD(m.use_candidate == wanted->use_candidate && m.has_integrity == wanted->has_integrity && m.has_fingerprint);
    HOLD(m.requested_transport == wanted->requested_transport && m.requested_family == wanted->requested_family);
    HOLD(is_ice_stun_verify(bytes, size, (const uint8_t *)password, sizeof password - 1) == (m.has_integrity ? 0 : 1));
    if (text == NULL) return;
    HOLD(is_ice_stun_text(attribute, bytes, size, found, sizeof found, &length) == IS_ICE_OK);
    HOLD(length == strlen(text) && memcmp(found, text, length) == 0);
}

static int32_t write_it(const is_ice_stun_message *m, const is_ice_stun_texts *texts, const char *text, uint8_t *buffer,
                        size_t size, size_t *length)
{
    return is_ice_stun_write(m, texts, (const uint8_t *)text, strlen(text), (const uint8_t *)password,
                             sizeof password - 1, buffer, size, length);
}

/* The samples without their SOFTWARE, which has another type, and with zeros as padding, which the RFC has as spaces. */
static void writes_the_samples(void)
{
    static const char *samples[3] = {request_hex, v4_hex, v6_hex};
    static const size_t lengths[3] = {88, 64, 76};
    for (int i = 0; i < 3; i++) {
        uint8_t bytes[128], written[128];
        size_t length = 0, size = unhex(samples[i], bytes);
        is_ice_stun_message m;
        is_ice_stun_texts texts;
        memset(&texts, 0, sizeof texts);
        memset(written, 0xaa, sizeof written);
        HOLD(is_ice_stun_read(bytes, size, &m) == IS_ICE_OK);
        if (i == 0) texts.username.length = 9, texts.username.is_set = true;
        HOLD(write_it(&m, &texts, "evtj:h6vY", written, lengths[i] - 1, &length) == IS_ICE_BUFFER_TOO_SHORT);
        HOLD(length == 0 && written[0] == 0xaa);
        HOLD(write_it(&m, &texts, "evtj:h6vY", written, sizeof written, &length) == IS_ICE_OK);
        HOLD(length == lengths[i] && written[length] == 0xaa);
        HOLD(memcmp(written, bytes, 2) == 0 && memcmp(written + 4, bytes + 4, 16) == 0);
        same_again(&m, IS_ICE_STUN_USERNAME, i == 0 ? "evtj:h6vY" : NULL, written, length);
        /* XOR-MAPPED-ADDRESS as in the RFC, byte by byte */
        if (i > 0) HOLD(memcmp(written + 20, bytes + 36, i == 1 ? 12 : 24) == 0);
        uint32_t crc = crc32(written, length - 8) ^ 0x5354554e;
        for (int j = 0; j < 4; j++) HOLD(written[length - 4 + (size_t)j] == (uint8_t)(crc >> (24 - 8 * j)));
        m.has_integrity = false;
        HOLD(write_it(&m, &texts, "evtj:h6vY", written, sizeof written, &length) == IS_ICE_OK && length == lengths[i] - 24);
        same_again(&m, IS_ICE_STUN_USERNAME, i == 0 ? "evtj:h6vY" : NULL, written, length);
    }
}

/* The response of a server to a request without credentials, byte by byte: 401 "no". */
static void writes_an_error(void)
{
    uint8_t bytes[64], written[64];
    size_t length, size = unhex(failed_hex, bytes);
    is_ice_stun_message m;
    is_ice_stun_texts texts;
    memset(&texts, 0, sizeof texts);
    HOLD(is_ice_stun_read(bytes, size, &m) == IS_ICE_OK);
    texts.reason.start = 5, texts.reason.length = 2, texts.reason.is_set = true;
    HOLD(write_it(&m, &texts, "not: no", written, sizeof written, &length) == IS_ICE_OK && length == size + 8);
    bytes[3] = (uint8_t)(bytes[3] + 8); /* FINGERPRINT */
    HOLD(memcmp(written, bytes, size) == 0);
    same_again(&m, IS_ICE_STUN_ERROR_CODE, "no", written, length);
    texts.reason.is_set = false;
    HOLD(write_it(&m, &texts, "not: no", written, sizeof written, &length) == IS_ICE_OK && length == size + 4);
    same_again(&m, IS_ICE_STUN_ERROR_CODE, "", written, length);
    m.error_code.is_set = false;
    texts.reason.is_set = true;
    HOLD(write_it(&m, &texts, "not: no", written, sizeof written, &length) == IS_ICE_OK && length == 28);
}

/* A Binding request without credentials and with NOMINATION: its attribute, byte by byte (draft-thatcher-ice-renomination). */
static void writes_a_nomination(void)
{
    static const uint8_t header[8] = {0, 1, 0, 16, 0x21, 0x12, 0xa4, 0x42}, attribute[8] = {0xc0, 1, 0, 4, 0x12, 0x34, 0x56, 0x78};
    uint8_t written[48];
    size_t length;
    is_ice_stun_message m;
    is_ice_stun_texts none;
    memset(&m, 0, sizeof m);
    memset(&none, 0, sizeof none);
    memset(written, 0xaa, sizeof written);
    m.method = IS_ICE_STUN_BINDING, m.id = id, m.nomination.value = 0x12345678, m.nomination.is_set = true;
    HOLD(write_it(&m, &none, "", written, sizeof written, &length) == IS_ICE_OK && length == 36 && written[36] == 0xaa);
    HOLD(memcmp(written, header, 8) == 0 && memcmp(written + 8, id.bytes, 12) == 0 && memcmp(written + 20, attribute, 8) == 0);
    same_again(&m, 0, NULL, written, length);
    static const uint64_t numbers[] = {0, 1, UINT32_MAX};
    for (size_t i = 0; i < sizeof numbers / sizeof *numbers; i++) {
        m.nomination.value = numbers[i];
        HOLD(write_it(&m, &none, "", written, sizeof written, &length) == IS_ICE_OK && length == 36);
        same_again(&m, 0, NULL, written, length);
    }
    /* LIFETIME made a NOMINATION of three bytes: it is left out */
    m.nomination.is_set = false, m.nomination.value = 0, m.lifetime.value = 1, m.lifetime.is_set = true;
    HOLD(write_it(&m, &none, "", written, sizeof written, &length) == IS_ICE_OK && length == 36);
    written[20] = 0xc0, written[21] = 1, written[23] = 3;
    HOLD(is_ice_stun_read(written, length, &m) == IS_ICE_OK && !m.nomination.is_set && m.nomination.value == 0 && !m.lifetime.is_set);
}

/* An Allocate request without credentials, byte by byte (RFC 8656, sections 18.6 and 18.7). */
static void writes_an_allocate(void)
{
    static const uint8_t header[8] = {0, 3, 0, 24, 0x21, 0x12, 0xa4, 0x42};
    static const uint8_t asked[16] = {0, 0x17, 0, 4, 2, 0, 0, 0, 0, 0x19, 0, 4, 17, 0, 0, 0};
    uint8_t written[64];
    size_t length;
    is_ice_stun_message m;
    is_ice_stun_texts none;
    memset(&m, 0, sizeof m);
    memset(&none, 0, sizeof none);
    m.method = IS_ICE_STUN_ALLOCATE, m.id = id, m.requested_transport = IS_ICE_STUN_UDP, m.requested_family = 6;
    HOLD(write_it(&m, &none, "", written, sizeof written, &length) == IS_ICE_OK && length == 44);
    HOLD(memcmp(written, header, 8) == 0 && memcmp(written + 8, id.bytes, 12) == 0 && memcmp(written + 20, asked, 16) == 0);
    same_again(&m, 0, NULL, written, length);
    written[24] = 3; /* a family that RFC 8656 does not define is left out */
    HOLD(is_ice_stun_read(written, length, &m) == IS_ICE_OK && m.requested_family == 0 && m.requested_transport == IS_ICE_STUN_UDP);
    m.requested_family = 4;
    HOLD(write_it(&m, &none, "", written, sizeof written, &length) == IS_ICE_OK && length == 44 && written[24] == 1);
    same_again(&m, 0, NULL, written, length);
    written[35] = 1, written[31] = 3; /* REQUESTED-TRANSPORT of three bytes is left out */
    HOLD(is_ice_stun_read(written, length, &m) == IS_ICE_OK && m.requested_family == 4 && m.requested_transport == 0);
    m.requested_family = 5;
    HOLD(write_it(&m, &none, "", written, sizeof written, &length) == IS_ICE_BAD_ADDRESS);
}

static is_ice_stun_span whole(size_t length)
{
    is_ice_stun_span span = {0, 0, true};
    span.length = length;
    return span;
}

/* The longest message without DATA. */
static void writes_all_attributes(void)
{
    static char text[509];
    uint8_t written[IS_ICE_STUN_WRITE_LENGTH + 1];
    size_t length;
    is_ice_stun_message m;
    is_ice_stun_texts texts;
    is_ice_stun_number *numbers[9] = {&m.priority, &m.controlled, &m.controlling, &m.error_code, &m.lifetime,
                                      &m.channel_number, &m.network_id, &m.network_cost, &m.nomination};
    memset(text, 'x', 508);
    memset(&m, 0, sizeof m);
    memset(&texts, 0, sizeof texts);
    m.method = IS_ICE_STUN_CHANNEL_BIND, m.cls = IS_ICE_STUN_INDICATION, m.id = id;
    for (int i = 0; i < 9; i++) numbers[i]->value = 0x4000 + (uint64_t)i, numbers[i]->is_set = true;
    m.error_code.value = 699;
    m.mapped.family = m.peer.family = m.relayed.family = 6;
    m.use_candidate = m.has_integrity = true;
    m.requested_transport = 255, m.requested_family = 6;
    texts.username = whole(508);
    texts.reason = texts.realm = texts.nonce = texts.software = whole(128);
    HOLD(write_it(&m, &texts, text, written, sizeof written, &length) == IS_ICE_OK && length == IS_ICE_STUN_WRITE_LENGTH);
    same_again(&m, 0, NULL, written, length);
    texts.software = whole(129);
    HOLD(write_it(&m, &texts, text, written, sizeof written, &length) == IS_ICE_MESSAGE_TOO_LONG);
    texts.software = whole(0);
    HOLD(write_it(&m, &texts, text, written, sizeof written, &length) == IS_ICE_OK);
    same_again(&m, IS_ICE_STUN_SOFTWARE, "", written, length);
}

static int32_t refused(const is_ice_stun_message *m, const is_ice_stun_texts *texts, const char *text)
{
    uint8_t written[64];
    size_t length = 77;
    memset(written, 0xaa, sizeof written);
    int32_t code = write_it(m, texts, text, written, sizeof written, &length);
    HOLD(length == 77 && written[0] == 0xaa);
    return code;
}

static void refuses_what_is_no_message(void)
{
    is_ice_stun_message good, m;
    is_ice_stun_texts none, texts;
    memset(&good, 0, sizeof good);
    memset(&none, 0, sizeof none);
    good.method = IS_ICE_STUN_BINDING;
    is_ice_stun_number big = {UINT64_C(0x100000000), true}, small = {7, true};
    m = good, m.method = IS_ICE_STUN_OTHER, HOLD(refused(&m, &none, "") == IS_ICE_BAD_MESSAGE);
    m = good, m.method = 2, HOLD(refused(&m, &none, "") == IS_ICE_BAD_MESSAGE);
    m = good, m.cls = 4, HOLD(refused(&m, &none, "") == IS_ICE_BAD_MESSAGE);
    m = good, m.priority = big, HOLD(refused(&m, &none, "") == IS_ICE_BAD_MESSAGE);
    m = good, m.lifetime = big, HOLD(refused(&m, &none, "") == IS_ICE_BAD_MESSAGE);
    m = good, m.nomination = big, HOLD(refused(&m, &none, "") == IS_ICE_BAD_MESSAGE);
    m = good, m.channel_number = big, HOLD(refused(&m, &none, "") == IS_ICE_BAD_MESSAGE);
    m = good, m.error_code = small, HOLD(refused(&m, &none, "") == IS_ICE_BAD_MESSAGE);
    m = good, m.network_id = small, HOLD(refused(&m, &none, "") == IS_ICE_BAD_MESSAGE);
    m = good, m.network_cost = small, HOLD(refused(&m, &none, "") == IS_ICE_BAD_MESSAGE);
    m = good, m.peer.family = 5, HOLD(refused(&m, &none, "") == IS_ICE_BAD_ADDRESS);
    texts = none, texts.username = whole(4), HOLD(refused(&good, &texts, "a:b") == IS_ICE_BAD_MESSAGE);
    texts = none, texts.nonce = whole(SIZE_MAX), texts.nonce.start = 2, HOLD(refused(&good, &texts, "a:b") == IS_ICE_BAD_MESSAGE);
    texts = none, texts.realm = whole(1), HOLD(refused(&good, &texts, "\xff") == IS_ICE_NOT_UTF8);
}

/* The strict reading is that of is_ice_handle_packet: the samples of RFC 5769 have what ICE requires, the response of a server has not. */
static void reads_strictly(void)
{
    uint8_t bytes[128];
    is_ice_stun_message m, same;
    memset(&m, 0xaa, sizeof m);
    memset(&same, 0xaa, sizeof same);
    HOLD(is_ice_stun_read_strict(bytes, unhex(plain_hex, bytes), &m) == IS_ICE_UNPARSED && memcmp(&m, &same, sizeof m) == 0);
    HOLD(is_ice_stun_read(bytes, unhex(plain_hex, bytes), &m) == IS_ICE_OK && m.cls == IS_ICE_STUN_SUCCESS);
    HOLD(is_ice_stun_read_strict(bytes, unhex(failed_hex, bytes), &m) == IS_ICE_OK && m.cls == IS_ICE_STUN_FAILURE);
    HOLD(is_ice_stun_read_strict(bytes, unhex(v4_hex, bytes), &m) == IS_ICE_OK && m.mapped.family == 4 && m.mapped.port == 32853);
    HOLD(!m.priority.is_set && m.priority.value == 0 && m.peer.family == 0 && m.peer.port == 0 && m.relayed.family == 0);
    HOLD(is_ice_stun_read_strict(bytes, unhex(request_hex, bytes), &m) == IS_ICE_OK && m.cls == IS_ICE_STUN_REQUEST);
    HOLD(m.priority.is_set && m.priority.value == 0x6e0001ff && !m.error_code.is_set && m.error_code.value == 0 && m.mapped.family == 0);
    HOLD(is_ice_stun_read_strict(bytes, 7, &m) == IS_ICE_UNPARSED);
}

/* The two top bits of a message are 0 (RFC 8489, section 5). The calls do not look at them: a program tells STUN by its first byte. */
static void reads_whatever_the_top_bits(void)
{
    uint8_t bytes[128];
    is_ice_stun_message m;
    size_t size = unhex(request_hex, bytes);
    for (unsigned top = 0; top < 4; top++) {
        bytes[0] = (uint8_t)(top << 6);
        memset(&m, 0xaa, sizeof m);
        HOLD(is_ice_stun_read(bytes, size, &m) == IS_ICE_OK && m.method == IS_ICE_STUN_BINDING && m.cls == IS_ICE_STUN_REQUEST);
        HOLD(is_ice_stun_read_strict(bytes, size, &m) == IS_ICE_OK && m.method == IS_ICE_STUN_BINDING && m.cls == IS_ICE_STUN_REQUEST);
        /* the MAC is of these bits too */
        int32_t wanted = top == 0 ? IS_ICE_OK : IS_ICE_NOTHING;
        HOLD(is_ice_stun_verify(bytes, size, (const uint8_t *)password, sizeof password - 1) == wanted);
    }
}

/* "evtj:h6vY": evtj is the receiver of the request of RFC 5769, h6vY its sender. */
static void names_receiver_and_sender(void)
{
    uint8_t bytes[128], name[16];
    size_t length = 77, receiver = 77, size = unhex(request_hex, bytes);
    memset(name, 0xaa, sizeof name);
    HOLD(is_ice_stun_username(bytes, size, name, 8, &length, &receiver) == IS_ICE_BUFFER_TOO_SHORT);
    HOLD(length == 9 && receiver == 4 && name[0] == 0xaa);
    HOLD(is_ice_stun_username(bytes, size, name, sizeof name, &length, &receiver) == IS_ICE_OK && length == 9 && receiver == 4);
    HOLD(memcmp(name, "evtj:h6vY", 9) == 0 && name[9] == 0xaa);
    bytes[64] = 0xff; /* the first byte of the USERNAME */
    HOLD(is_ice_stun_username(bytes, size, name, sizeof name, &length, &receiver) == IS_ICE_UNPARSED);
    bytes[64] = 'e', bytes[68] = '.'; /* without the colon */
    HOLD(is_ice_stun_username(bytes, size, name, sizeof name, &length, &receiver) == IS_ICE_NOTHING);
    size = unhex(v4_hex, bytes);
    HOLD(is_ice_stun_username(bytes, size, name, sizeof name, &length, &receiver) == IS_ICE_NOTHING);
    HOLD(length == 9 && receiver == 4 && memcmp(name, "evtj:h6vY", 9) == 0);
}

static void finds_what_begins_as_stun(void)
{
    uint8_t bytes[128];
    size_t size = unhex(request_hex, bytes);
    HOLD(is_ice_is_stun(bytes, size) == IS_ICE_OK && is_ice_is_stun(bytes, 20) == IS_ICE_OK && is_ice_is_stun(bytes, 19) == IS_ICE_NOTHING);
    for (size_t at = 4; at < 8; at++) {
        bytes[at] ^= 1;
        HOLD(is_ice_is_stun(bytes, size) == IS_ICE_NOTHING);
        bytes[at] ^= 1;
    }
    for (int first = 0; first < 256; first++) {
        bytes[0] = (uint8_t)first;
        HOLD(is_ice_is_stun(bytes, size) == (first < 64 ? IS_ICE_OK : IS_ICE_NOTHING));
    }
}

/* Of a USERNAME that is in no message, `is_ice_username_parts` finds the receiver's part: it is before the first colon. */
static void splits_a_username(void)
{
    static const char *const halves[] = {"", ":", "evtj", "evtj:"};
    size_t receiver = 77;
    for (size_t i = 0; i < sizeof halves / sizeof *halves; i++)
        HOLD(is_ice_username_parts((const uint8_t *)halves[i], strlen(halves[i]), &receiver) == IS_ICE_NOTHING && receiver == 77);
    HOLD(is_ice_username_parts((const uint8_t *)"\xff:a", 3, &receiver) == IS_ICE_NOT_UTF8 && receiver == 77);
    HOLD(is_ice_username_parts((const uint8_t *)"evtj:h6vY", 9, &receiver) == IS_ICE_OK && receiver == 4);
    HOLD(is_ice_username_parts((const uint8_t *)":a:b", 4, &receiver) == IS_ICE_OK && receiver == 0);
}

/* The cases of RFC 2202, section 3, with the longest and the shortest key. */
static void computes_macs(void)
{
    static const char longer[] = "Test Using Larger Than Block-Size Key and Larger Than One Block-Size Data";
    uint8_t key[80], mac[21], wanted[20];
    size_t length = 0;
    memset(key, 0xaa, sizeof key);
    memset(mac, 0x77, sizeof mac);
    HOLD(is_ice_hmac_sha1(key, sizeof key, (const uint8_t *)longer, sizeof longer - 1, mac, 19, &length) == IS_ICE_BUFFER_TOO_SHORT);
    HOLD(length == IS_ICE_HMAC_LENGTH && mac[0] == 0x77);
    HOLD(is_ice_hmac_sha1(key, sizeof key, (const uint8_t *)longer, sizeof longer - 1, mac, sizeof mac, &length) == IS_ICE_OK);
    HOLD(unhex("e8e99d0f45237d786d6bbaa7965c7808bbff1a91", wanted) == 20 && memcmp(mac, wanted, 20) == 0 && mac[20] == 0x77);
    HOLD(is_ice_hmac_sha1((const uint8_t *)"Jefe", 4, (const uint8_t *)"what do ya want for nothing?", 28, mac, 20, &length) == IS_ICE_OK);
    HOLD(unhex("effcdf6ae5eb2fa2d27416d5f184df9c259a7c79", wanted) == 20 && memcmp(mac, wanted, 20) == 0);
}

int main(void)
{
    offsets();
    writes_the_samples();
    writes_an_error();
    writes_a_nomination();
    writes_an_allocate();
    writes_all_attributes();
    refuses_what_is_no_message();
    writes_a_request();
    reads_responses();
    reads_any_message();
    reads_strictly();
    reads_whatever_the_top_bits();
    names_receiver_and_sender();
    finds_what_begins_as_stun();
    splits_a_username();
    computes_macs();
    return 0;
}
