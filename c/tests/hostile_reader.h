/* Another reader of messages (RFC 8489, sections 5 and 14; RFC 8445, sections 7.1 and 7.2.5), which says of any bytes what the library has to
 * say of them, for hostile.c. */
#ifndef HOSTILE_READER_H
#define HOSTILE_READER_H

#include "is_ice.h"

/* What bytes are: no message; a message without an attribute that ICE requires; a message that an agent looks at. */
enum form { NO_MESSAGE, INCOMPLETE, COMPLETE };

struct found {
    bool has_integrity, has_name, has_priority, has_mapped;
};

static inline size_t u16_at(const uint8_t *bytes)
{
    return (size_t)bytes[0] << 8 | bytes[1];
}

static inline bool is_text(const uint8_t *text, size_t length, size_t limit)
{
    if (length > limit) return false;
    for (size_t i = 0; i < length;) {
        const uint8_t lead = text[i++], first = i < length ? text[i] : 0;
        size_t more = lead < 0x80 ? 0 : lead < 0xe0 ? 1 : lead < 0xf0 ? 2 : 3;
        if (lead >= 0x80 && (lead < 0xc2 || lead > 0xf4)) return false;
        if ((lead == 0xe0 && first < 0xa0) || (lead == 0xed && first > 0x9f)) return false;
        if ((lead == 0xf0 && first < 0x90) || (lead == 0xf4 && first > 0x8f)) return false;
        for (; more > 0; more--, i++)
            if (i >= length || text[i] >> 6 != 2) return false;
    }
    return true;
}

/* Whether something follows the first colon. */
static inline bool is_name(const uint8_t *text, size_t length)
{
    for (size_t i = 0; i + 1 < length; i++)
        if (text[i] == ':') return true;
    return false;
}

static inline bool is_value(size_t type, const uint8_t *v, size_t length)
{
    switch (type) {
    case 0x0006: return is_text(v, length, 513); /* USERNAME */
    case 0x0008: return length == 20;            /* MESSAGE-INTEGRITY */
    case 0x0009: return length >= 4 && v[0] == 0 && v[1] == 0 && v[2] >= 3 && v[2] <= 6 && is_text(v + 4, length - 4, 763); /* ERROR-CODE */
    case 0x000c: return length == 4 && v[0] >= 0x40 && v[0] <= 0x7f; /* CHANNEL-NUMBER */
    case 0x000d: case 0x0024: case 0x8028: return length == 4;       /* LIFETIME, PRIORITY, FINGERPRINT */
    case 0x0012: case 0x0016: case 0x0020: return (length >= 8 && v[1] == 1) || (length >= 20 && v[1] == 2); /* XOR-..-ADDRESS */
    case 0x0014: case 0x0015: case 0x0022: return is_text(v, length, 763); /* REALM, NONCE, SOFTWARE */
    case 0x0025: return length == 0;              /* USE-CANDIDATE */
    case 0x8029: case 0x802a: return length == 8; /* ICE-CONTROLLED, ICE-CONTROLLING */
    default: return true;
    }
}

/* Notes an attribute. After MESSAGE-INTEGRITY only FINGERPRINT is read. */
static inline bool is_attribute(struct found *found, size_t type, const uint8_t *value, size_t length)
{
    if (found->has_integrity) return type != 0x8028 || length == 4;
    if (!is_value(type, value, length)) return false;
    found->has_integrity |= type == 0x0008;
    found->has_priority |= type == 0x0024;
    found->has_mapped |= type == 0x0020;
    if (type == 0x0006) found->has_name = is_name(value, length);
    return true;
}

static inline bool has_header(const uint8_t *bytes, size_t length)
{
    return length >= 20 && length % 4 == 0 && u16_at(bytes + 2) + 20 == length && u16_at(bytes + 4) == 0x2112 && u16_at(bytes + 6) == 0xa442;
}

static inline enum form form_of(const uint8_t *bytes, size_t length)
{
    struct found found = {false, false, false, false};
    if (!has_header(bytes, length)) return NO_MESSAGE;
    for (size_t at = 20; at + 4 <= length;) {
        const size_t size = u16_at(bytes + at + 2);
        if (size > length - at - 4 || !is_attribute(&found, u16_at(bytes + at), bytes + at + 4, size)) return NO_MESSAGE;
        at += 4 + (size + 3) / 4 * 4;
    }
    const size_t type = u16_at(bytes) & 0x3fff; /* a Binding request is 1, a success response to it 0x101 */
    if (type == 0x0001) return found.has_integrity && found.has_name && found.has_priority ? COMPLETE : INCOMPLETE;
    if (type == 0x0101) return found.has_integrity && found.has_mapped ? COMPLETE : INCOMPLETE;
    return COMPLETE;
}

#endif
