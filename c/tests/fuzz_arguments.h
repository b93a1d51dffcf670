/* The arguments of fuzz.c's calls, as the input says: addresses, texts, messages, and buffers with what they must hold afterwards. */
#ifndef FUZZ_ARGUMENTS_H
#define FUZZ_ARGUMENTS_H

#include "candidate_words.h"
#include "fuzz_calls.h"

/* ---- arguments */

/* Changes some bytes, if the input says so. */
static void change(uint8_t *bytes, size_t length)
{
    if (length == 0 || !one_in(3)) return;
    for (size_t many = 1 + below(4); many > 0; many--) {
        size_t place = below(length);
        bytes[place] = one_in(2) ? bytes[place] ^ (uint8_t)(1 << below(8)) : take();
    }
}

struct bytes {
    uint8_t *bytes;
    size_t length;
};

static struct bytes argument_of(const void *from, size_t length)
{
    struct bytes made = {argument(length), length};
    memcpy(made.bytes, from, length);
    return made;
}

/* Up to 255 bytes of the input, or one of them many times. */
static struct bytes raw(void)
{
    uint8_t kind = take();
    if (kind > 250) {
        struct bytes many = {argument((size_t)(kind - 250) * 13000), (size_t)(kind - 250) * 13000};
        memset(many.bytes, take(), many.length);
        return many;
    }
    struct bytes made = {argument(kind % 64), kind % 64};
    for (size_t i = 0; i < made.length; i++) made.bytes[i] = take();
    return made;
}

static is_ice_address address(void)
{
    is_ice_address made;
    uint8_t kind = take();
    memset(&made, 0, sizeof made);
    made.family = kind % 16 == 15 ? take() : kind % 4 == 3 ? 6 : 4;
    if (made.family == 4) made.bytes[0] = 10, made.bytes[3] = (uint8_t)(1 + kind / 64);
    else memcpy(made.bytes, "\x20\x01\x0d\xb8", 4), made.bytes[15] = (uint8_t)(1 + kind / 64);
    made.port = (uint16_t)(5000 + kind / 16 % 2);
    if (!one_in(8)) return made;
    made.bytes[below(16)] = take();
    made.port = (uint16_t)number();
    made.flow = (uint32_t)number(), made.scope = (uint32_t)number();
    return made;
}

static const is_ice_address *address_argument(void)
{
    is_ice_address made = address();
    return (const is_ice_address *)(const void *)argument_of(&made, sizeof made).bytes;
}

static const is_ice_candidate *candidate_argument(void)
{
    is_ice_candidate made;
    memset(&made, 0, sizeof made);
    made.address = address();
    made.base = one_in(2) ? address() : made.address;
    uint8_t kind = take();
    made.kind = kind % 4, made.protocol = kind / 4 % 8 == 7 ? take() : kind / 4 % 4, made.tcptype = made.protocol ? kind / 32 % 4 : 0;
    if (kind == 255) made.kind = take(), made.tcptype = take();
    return (const is_ice_candidate *)(const void *)argument_of(&made, sizeof made).bytes;
}

static void add(char *text, size_t *length, const char *word)
{
    size_t size = strlen(word);
    if (*length + size > TEXT_SIZE) return;
    memcpy(text + *length, word, size);
    *length += size;
}

/* Words between which the text of a candidate may have these spaces. */
static void add_line(char *text, size_t *length)
{
    static const char *const spaces[] = {" ", " ", " ", " ", "  ", "\t", "\r\n", "\xc2\xa0", "\xe2\x80\xa8", "\xe3\x80\x80", "\x1c", "\x1f",
        "\x0b", ""};
    static const char *const extensions[] = {" raddr 10.0.0.1 rport 5000", " raddr 2001:db8::1 rport 5000", " raddr x rport 1",
        " tcptype active", " tcptype passive", " tcptype so", " tcptype x", " ufrag left", " ufrag rght", " ufrag a:b", " ufrag",
        " ufrag \xc2\xa0", " generation 0", " network-cost 10 network-id 1"};
    uint8_t odd = take();
    for (size_t i = 0; i < COUNT(candidate_words); i++) {
        if (i > 0) add(text, length, odd & 1 ? spaces[below(COUNT(spaces))] : " ");
        add(text, length, candidate_words[i][odd & 2 || i == 4 ? below(8) : 0]);
    }
    for (size_t many = odd >> 2 & 3; many > 0; many--) add(text, length, extensions[below(COUNT(extensions))]);
}

static void add_json(char *text, size_t *length)
{
    static const char *const members[] = {",\"usernameFragment\":\"left\"", ",\"usernameFragment\":\"\"", ",\"usernameFragment\":\" \"",
        ",\"usernameFragment\":null", ",\"usernameFragment\":\"\\u00a0\\ud800\"", ",\"sdpMid\":\"0\",\"sdpMLineIndex\":0", ",\"x\":1e999",
        ",\"candidate\":\"\"", ",\"x\":{\"y\":[1,-0.5e-7,true,false,\"\\\"\"]}", ",", "}"};
    static const char *const opens[] = {"[", "{\"a\":", "[[[[[[[[", "[1,", "{\"a\":{\"b\":["};
    add(text, length, "{\"candidate\":\"");
    add_line(text, length);
    add(text, length, "\"");
    for (size_t many = below(4); many > 0; many--) add(text, length, members[below(COUNT(members))]);
    if (one_in(4)) {
        const char *open = opens[below(COUNT(opens))];
        add(text, length, ",\"x\":");
        for (size_t many = below(256); many > 0; many--) add(text, length, open);
    }
    add(text, length, "}");
}

static struct bytes text_of(void (*add_text)(char *, size_t *))
{
    static char text[TEXT_SIZE];
    size_t length = 0;
    if (one_in(8)) return raw();
    add_text(text, &length);
    struct bytes made = argument_of(text, length);
    change(made.bytes, made.length);
    return made;
}

static struct bytes line(void)
{
    return text_of(add_line);
}

/* A username fragment or a password. */
static struct bytes secret(const char *const *known)
{
    if (one_in(3)) return raw();
    const char *text = known[below(AGENTS)];
    return argument_of(text, strlen(text));
}

/* Where a call writes a text or bytes. */
struct out {
    uint8_t *bytes;
    size_t size, *length;
};

static const size_t unset = (size_t)UINT64_C(0xaaaaaaaaaaaaaaaa);

static struct out out(void)
{
    size_t size = one_in(4) ? below(700) : 1024;
    struct out made = {argument(size), size, argument(sizeof(size_t))};
    return made;
}

/* The call wrote what its code says, and nothing else. */
static void written(int32_t code, struct out o, bool is_text)
{
    size_t kept = 0;
    if (code == IS_ICE_OK) {
        if (*o.length > o.size) stop("a result is longer than its buffer");
        if (is_text && !is_utf8(o.bytes, *o.length)) stop("a text is not UTF-8");
        kept = *o.length;
    } else if (code == IS_ICE_BUFFER_TOO_SHORT) {
        if (*o.length <= o.size) stop("the buffer is long enough");
    } else if (*o.length != unset) {
        stop("a length was written after an error");
    }
    all_are(o.bytes + kept, o.size - kept, FRESH, "a buffer was written past the result, or after an error");
}

/* A struct that a call fills only if it returns IS_ICE_OK. */
static void filled(int32_t code, const void *bytes, size_t size)
{
    if (code != IS_ICE_OK) all_are(bytes, size, FRESH, "a result was written after another code");
}

/* ---- messages */

static is_ice_stun_number stun_number(uint64_t limit)
{
    is_ice_stun_number made;
    memset(&made, 0, sizeof made);
    if (!one_in(3)) return made;
    made.is_set = true;
    made.value = one_in(8) ? number() : number() % limit;
    return made;
}

/* The fields of a message, mostly of a Binding request or response. */
static is_ice_stun_message fields(void)
{
    static const uint8_t methods[] = {1, 1, 1, 1, 3, 4, 6, 7, 8, 9};
    is_ice_stun_message m;
    memset(&m, 0, sizeof m);
    uint8_t kind = take();
    m.method = one_in(8) ? methods[below(COUNT(methods))] : 1;
    m.cls = kind & 3;
    m.use_candidate = kind >> 2 & 1, m.has_integrity = !(kind >> 3 & 1), m.has_fingerprint = true;
    m.priority.is_set = !(kind >> 4 & 1), m.priority.value = one_in(4) ? number() : 1853824767;
    m.controlling.is_set = kind >> 5 & 1, m.controlled.is_set = kind >> 6 & 1;
    m.controlling.value = one_in(4) ? number() : 2, m.controlled.value = one_in(4) ? number() : 1;
    if (kind >> 7) {
        m.error_code = stun_number(700), m.lifetime = stun_number(UINT32_MAX), m.channel_number = stun_number(0x8000);
        m.network_id = stun_number(65536), m.network_cost = stun_number(65536), m.nomination = stun_number(UINT32_MAX);
        m.peer = address(), m.relayed = address();
        m.requested_transport = take(), m.requested_family = one_in(8) ? take() : (uint8_t)(2 * below(4));
        if (one_in(8)) m.method = (uint16_t)number(), m.cls = take();
    }
    if (m.cls == IS_ICE_STUN_SUCCESS || one_in(8)) m.mapped = address();
    for (size_t i = 0; i < sizeof m.id.bytes; i++) m.id.bytes[i] = 7;
    if (sent > 0 && one_in(2)) memcpy(m.id.bytes, wires[below(sent < WIRE ? sent : WIRE)].bytes + 8, sizeof m.id.bytes);
    return m;
}

/* Writes a message for an agent, which its own password signs, or that of the other one if it is a response. */
static size_t write_message(uint8_t *to, size_t size)
{
    is_ice_stun_message m = fields();
    is_ice_stun_texts texts;
    char name[16];
    size_t length = 0, receiver = below(AGENTS), key = m.cls == IS_ICE_STUN_REQUEST ? receiver : (receiver + 1) % 2;
    memset(&texts, 0, sizeof texts);
    int name_length = snprintf(name, sizeof name, "%s:%s", ufrags[receiver], ufrags[(receiver + 1) % 2]);
    texts.username.length = (size_t)name_length;
    texts.username.is_set = m.cls == IS_ICE_STUN_REQUEST || one_in(4);
    int32_t code = is_ice_stun_write(&m, &texts, (const uint8_t *)name, (size_t)name_length, TEXT(passwords[key]), to, size, &length);
    return code == IS_ICE_OK ? length : 0;
}

/* A packet that an agent sent, a written message, or other bytes; perhaps changed. */
static struct bytes message(void)
{
    static uint8_t bytes[1500];
    size_t length = 0;
    uint8_t kind = take();
    if (kind % 8 == 7) return raw();
    if (kind % 8 < 3 && sent > 0) {
        const struct wire *w = &wires[below(sent < WIRE ? sent : WIRE)];
        memcpy(bytes, w->bytes, length = w->packet.length);
    } else {
        length = write_message(bytes, sizeof bytes);
    }
    if (one_in(16)) length = below(length + 1);
    struct bytes made = argument_of(bytes, length);
    change(made.bytes, made.length);
    if (one_in(16) && length >= 20) made.bytes[2] = (uint8_t)((length - 20) >> 8), made.bytes[3] = (uint8_t)(length - 20);
    return made;
}

#endif
