/* A differential test: what is_ice_line_fields says of a text is what an agent lists, and where it sends its checks. So a program may
 * filter a peer's candidates by their fields.
 *
 * Random texts have white space of Unicode, what only some languages take for white space, line ends, repeated keys, a foundation that
 * looks like a whole candidate, lone surrogates and other bytes that are not UTF-8. Each is read as a text and in JSON.
 *
 * odd_texts [N]: with so many texts, 20,000 without a number. */
#define _GNU_SOURCE
#include "candidate_words.h"
#include "measuring.h"

enum { COUNT = 20000, SIZE = 4096, HOSTS = 8 };

struct text {
    uint8_t bytes[SIZE];
    size_t length;
};

/* What is said of a candidate. */
struct said {
    struct text text;
    is_ice_fields fields;
};

struct world {
    uint64_t random;
    size_t added, checked;
};

static const char *const spaces[] = {
    " ", "  ", "\t", "\n", "\r\n", "\v", "\f", "\x1c", "\x1d", "\x1e", "\x1f", "\xc2\x85", "\xc2\xa0", "\xe1\x9a\x80", "\xe2\x80\x83",
    "\xe2\x80\x8b", "\xe2\x80\xa8", "\xe2\x80\xa9", "\xe2\x80\xaf", "\xe2\x81\x9f", "\xe2\x81\xa0", "\xe3\x80\x80", "\xef\xbb\xbf", "",
    "\xed\xa0\x80", "\xff"};

static const char *const keys[][6] = {
    {"raddr", "10.0.0.9", "2001:db8::9", "0.0.0.0", "x", ""}, {"rport", "9", "0", "65536", "x", "1"},
    {"tcptype", "active", "passive", "so", "x", "ACTIVE"}, {"ufrag", "EsAw", "farr", "a:b", "\xc3\xa9", ""},
    {"generation", "0", "1", "x", "", "7"}, {"network-cost", "10", "999", "x", "", "typ"}};

/* ---- random texts */

static size_t below(struct world *w, size_t limit)
{
    w->random = w->random * UINT64_C(6364136223846793005) + UINT64_C(1442695040888963407);
    return (size_t)(w->random >> 33) % limit;
}

static void add(struct text *t, const char *word)
{
    size_t length = strlen(word);
    if (t->length + length > SIZE / 8) return; /* in JSON a byte has six at most */
    memcpy(t->bytes + t->length, word, length);
    t->length += length;
}

static const char *odd_space(struct world *w)
{
    return spaces[below(w, sizeof spaces / sizeof *spaces)];
}

/* A foundation with the words of another candidate, between which is an odd space. */
static void add_deceiving(struct world *w, struct text *t)
{
    static const char *const other[] = {"candidate:1", "1", "udp", "1", "9.9.9.9", "5", "typ", "host"};
    const char *space = odd_space(w);
    for (size_t i = 0; i < 8; i++) {
        if (i > 0) add(t, space);
        add(t, other[i]);
    }
}

static void add_keys(struct world *w, struct text *t, const char *space)
{
    for (size_t many = below(w, 6); many > 0; many--) {
        const char *const *key = keys[below(w, sizeof keys / sizeof *keys)];
        add(t, space), add(t, key[0]);
        if (below(w, 20) > 0) add(t, space), add(t, key[1 + below(w, 5)]);
    }
}

static void make(struct world *w, struct text *t)
{
    const char *usual = below(w, 4) == 0 ? odd_space(w) : " ";
    size_t odd = below(w, 3) == 0 ? below(w, 8) : 8; /* this word is another one than usual, if any */
    bool is_deceiving = below(w, 6) == 0;
    t->length = 0;
    for (size_t i = 0; i < 8; i++) {
        if (i > 0) add(t, below(w, 30) == 0 ? odd_space(w) : usual);
        if (i == 0 && is_deceiving) add_deceiving(w, t);
        else add(t, candidate_words[i][i == odd || i == 4 || i == 7 ? below(w, 8) : 0]);
    }
    add_keys(w, t, usual);
    if (below(w, 4) == 0) add(t, odd_space(w));
    if (below(w, 10) == 0 && t->length > 0) t->bytes[below(w, t->length)] = (uint8_t)below(w, 256);
}

/* The text as the candidate of a JSON object. */
static void to_json(const struct text *t, struct text *json)
{
    json->length = (size_t)snprintf((char *)json->bytes, SIZE, "{\"candidate\":\"");
    for (size_t i = 0; i < t->length; i++) {
        uint8_t byte = t->bytes[i];
        bool is_plain = byte >= ' ' && byte != '"' && byte != '\\';
        if (is_plain) json->bytes[json->length++] = byte;
        else json->length += (size_t)snprintf((char *)json->bytes + json->length, SIZE - json->length, "\\u%04x", byte);
    }
    memcpy(json->bytes + json->length, "\"}", 2);
    json->length += 2;
}

/* ---- what is said of them */

static void expect(bool holds, const struct text *t, const char *what)
{
    if (holds) return;
    printf("odd_texts: %s:", what);
    for (size_t i = 0; i < t->length; i++) printf(" %02x", t->bytes[i]);
    printf("\n");
    exit(1);
}

static bool is_same(const struct text *a, const struct text *b)
{
    return a->length == b->length && memcmp(a->bytes, b->bytes, a->length) == 0;
}

static bool is_at(const is_ice_address *a, const is_ice_address *b)
{
    return a->family == b->family && a->port == b->port && memcmp(a->bytes, b->bytes, sizeof a->bytes) == 0;
}

/* Of an agent's candidate too, whose text has no username fragment: all have that of the peer. */
static bool says_the_same(const is_ice_fields *a, const is_ice_fields *b)
{
    return is_at(&a->address, &b->address) && is_at(&a->related, &b->related) && is_at(&a->local, &b->local)
        && a->foundation_length == b->foundation_length && a->priority == b->priority && a->component == b->component
        && a->kind == b->kind && a->protocol == b->protocol && a->tcptype == b->tcptype;
}

static int32_t read_text(const struct text *t, struct said *said)
{
    struct text *printed = &said->text;
    return is_ice_line_fields(t->bytes, t->length, printed->bytes, SIZE, &printed->length, &said->fields);
}

/* The text has single spaces and no other white space of ASCII, and is read as it was, also from JSON. */
static void compare_texts(const struct text *t, const struct said *said)
{
    static struct said again;
    static struct text json;
    const struct text *printed = &said->text;
    for (size_t i = 0; i < printed->length; i++) {
        bool is_double = printed->bytes[i] == ' ' && (i + 1 == printed->length || printed->bytes[i + 1] == ' ');
        expect(!is_double && !(printed->bytes[i] >= '\t' && printed->bytes[i] <= '\r'), t, "odd white space is printed");
    }
    expect(read_text(printed, &again) == IS_ICE_OK && is_same(&again.text, printed), t, "its text is read as another one");
    expect(says_the_same(&again.fields, &said->fields), t, "its text is read with other fields");
    to_json(t, &json);
    int32_t code = is_ice_line_from_json(json.bytes, json.length, again.text.bytes, SIZE, &again.text.length);
    expect(code == IS_ICE_OK && is_same(&again.text, printed), t, "in JSON it is another one");
}

/* An agent with a host candidate of both IP versions, of each protocol, for the peer with the text's username fragment. */
static int32_t begin(is_ice_agent *agent, const struct said *said)
{
    static const uint8_t v4[4] = {10, 9, 9, 9}, v6[4] = {0x20, 1, 0xd, 0xb8};
    const uint8_t *ufrag = said->text.bytes + said->text.length - said->fields.ufrag_length;
    size_t length = said->fields.ufrag_length, index;
    must("new", is_ice_agent_new(agent, TEXT("near"), TEXT("password"), 1), IS_ICE_OK);
    for (size_t i = 0; i < HOSTS; i++) {
        is_ice_candidate host;
        memset(&host, 0, sizeof host);
        host.address.family = i % 2 == 0 ? 4 : 6, host.address.port = 9, host.protocol = (uint8_t)(i / 2);
        memcpy(host.address.bytes, i % 2 == 0 ? v4 : v6, 4);
        must("host", is_ice_add_local(agent, &host, &index), IS_ICE_OK);
    }
    if (length == 0) ufrag = (const uint8_t *)"farr", length = 4;
    return is_ice_set_remote_credentials(agent, ufrag, length, TEXT("password"));
}

/* The agent lists what the text says, and sends its check there. */
static void compare_agent(struct world *w, is_ice_agent *agent, const struct text *t, const struct said *said)
{
    static struct said listed;
    static const uint8_t random[IS_ICE_TIMEOUT_RANDOM] = {1};
    uint8_t bytes[LONGEST];
    is_ice_packet check;
    struct text *text = &listed.text;
    must("listed", is_ice_remote_fields(agent, 0, text->bytes, SIZE, &text->length, &listed.fields), IS_ICE_OK);
    expect(says_the_same(&listed.fields, &said->fields) && listed.fields.ufrag_length == 0, t, "it is listed with other fields");
    expect(text->length <= said->text.length && memcmp(text->bytes, said->text.bytes, text->length) == 0, t, "it is listed as another text");
    must("timeout", is_ice_handle_timeout(agent, 60 * SECOND, random, sizeof random), IS_ICE_OK);
    if (is_ice_poll_transmit(agent, bytes, sizeof bytes, &check) == IS_ICE_OK) {
        w->checked++;
        expect(is_at(&check.destination, &said->fields.address), t, "its check goes to another address");
        expect(check.protocol == said->fields.protocol, t, "its check is of another protocol");
    }
    must("invalidate", is_ice_invalidate(agent, t->bytes, t->length), IS_ICE_OK);
    must("listed", is_ice_remote_candidate(agent, 0, text->bytes, SIZE, &text->length), IS_ICE_NOTHING);
}

static void compare_text(struct world *w, const struct text *t)
{
    static struct said said;
    is_ice_agent agent;
    size_t index;
    memset(&agent, 0, sizeof agent), memset(&said, 0, sizeof said);
    int32_t read = read_text(t, &said), known = begin(&agent, &said);
    int32_t added = is_ice_add_remote(&agent, t->bytes, t->length, &index);
    expect(read == IS_ICE_OK || read == IS_ICE_BAD_CANDIDATE || read == IS_ICE_NOT_UTF8, t, "it is read with another code");
    if (read != IS_ICE_OK) {
        expect(added == read, t, "the agent reads it otherwise");
    } else {
        compare_texts(t, &said);
        int32_t wanted = said.fields.component == 1 ? IS_ICE_OK : IS_ICE_OTHER_COMPONENT;
        expect(known != IS_ICE_OK || added == wanted, t, "the agent adds it otherwise");
        if (known == IS_ICE_OK && added == IS_ICE_OK) w->added++, compare_agent(w, &agent, t, &said);
    }
    is_ice_agent_free(&agent);
}

int main(int argc, char **arguments)
{
    static struct text t;
    struct world w = {1, 0, 0};
    size_t count = argc > 1 ? (size_t)strtoul(arguments[1], NULL, 10) : COUNT;
    for (size_t i = 0; i < count; i++) make(&w, &t), compare_text(&w, &t);
    if (w.added * 20 < count || w.checked * 40 < count) fail("odd_texts", "few of the texts are candidates");
    printf("%zu texts, %zu of them candidates of component 1, %zu of which get a check at once\n", count, w.added, w.checked);
    return 0;
}
