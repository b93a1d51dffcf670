/* Signaling: one line for each message to the other peer and from it. */
#include "peer.h"
#include <stdio.h>
#include <string.h>

enum { LINE = 1024 };

/* ---- credentials */

struct creds {
    uint8_t ufrag[IS_ICE_UFRAG_LENGTH], pass[IS_ICE_PASS_LENGTH];
};

static int32_t draw(struct creds *creds)
{
    uint8_t random[IS_ICE_CREDENTIALS_RANDOM];
    if (!net_random(random, sizeof random)) return IS_ICE_TOO_FEW_RANDOM_BYTES;
    return is_ice_make_credentials(random, sizeof random, creds->ufrag, sizeof creds->ufrag, creds->pass, sizeof creds->pass);
}

int32_t signal_begin(is_ice_agent *agent)
{
    struct creds creds;
    uint64_t tie_breaker;
    int32_t code = draw(&creds);
    if (code != IS_ICE_OK) return code;
    if (!net_random(&tie_breaker, sizeof tie_breaker)) return IS_ICE_TOO_FEW_RANDOM_BYTES;
    return is_ice_agent_new(agent, creds.ufrag, sizeof creds.ufrag, creds.pass, sizeof creds.pass, tie_breaker);
}

int32_t signal_add_hosts(is_ice_agent *agent, const struct net *net)
{
    int32_t code = IS_ICE_OK;
    for (size_t i = 0; i < net->count && code >= 0; i++) {
        size_t added;
        is_ice_candidate host = {0};
        host.kind = IS_ICE_HOST;
        host.protocol = IS_ICE_UDP;
        host.address = net->addresses[i];
        code = is_ice_add_local(agent, &host, &added);
    }
    return code < 0 ? code : IS_ICE_OK;
}

int32_t signal_renew(is_ice_agent *agent, const struct net *net)
{
    struct creds creds;
    int32_t code = draw(&creds);
    if (code != IS_ICE_OK) return code;
    code = is_ice_restart(agent, creds.ufrag, sizeof creds.ufrag, creds.pass, sizeof creds.pass, net == NULL);
    return code == IS_ICE_OK && net ? signal_add_hosts(agent, net) : code;
}

int32_t signal_restart(is_ice_agent *agent)
{
    int32_t code = signal_renew(agent, NULL);
    return code == IS_ICE_OK ? signal_print(agent) : code;
}

/* ---- printing */

int32_t signal_print(is_ice_agent *agent)
{
    uint8_t ufrag[LINE], pass[LINE], line[LINE];
    size_t ufrag_length, pass_length, length;
    int32_t code = is_ice_local_ufrag(agent, ufrag, sizeof ufrag, &ufrag_length);
    if (code == IS_ICE_OK) code = is_ice_local_pass(agent, pass, sizeof pass, &pass_length);
    if (code != IS_ICE_OK) return code;
    printf("signal %.*s %.*s", (int)ufrag_length, (const char *)ufrag, (int)pass_length, (const char *)pass);
    for (size_t i = 0; (code = is_ice_local_candidate(agent, i, line, sizeof line, &length)) == IS_ICE_OK; i++)
        printf("%c%.*s", i == 0 ? ' ' : ',', (int)length, (const char *)line);
    printf("\n");
    fflush(stdout);
    return code;
}

int32_t signal_print_candidate(is_ice_agent *agent, size_t index)
{
    uint8_t line[LINE];
    size_t length;
    int32_t code = is_ice_local_candidate(agent, index, line, sizeof line, &length);
    if (code == IS_ICE_OK) printf("%.*s\n", (int)length, (const char *)line);
    fflush(stdout);
    return code;
}

/* ---- taking */

/* The text before the next of these characters, zero-terminated; *rest is the text after it. NULL if it is empty. */
static char *word(char **rest, const char *ends)
{
    char *begin = *rest + strspn(*rest, ends);
    size_t length = strcspn(begin, ends);
    if (length == 0) return NULL;
    *rest = begin + length;
    if (**rest) *(*rest)++ = '\0';
    return begin;
}

int32_t signal_take_candidate(struct is_ice_gather *gather, const char *line)
{
    uint8_t name[LINE], why[LINE];
    size_t length, added;
    const uint8_t *text = (const uint8_t *)line;
    if (is_ice_line_name(text, strlen(line), name, sizeof name, &length) == IS_ICE_OK) {
        fprintf(stderr, "peer: left out a candidate with an mDNS name: %s\n", line);
        return IS_ICE_NOTHING;
    }
    int32_t code = is_ice_gather_remote(gather, net_now(), text, strlen(line), &added);
    if (code == IS_ICE_BAD_CANDIDATE && is_ice_line_refusal(text, strlen(line), why, sizeof why, &length) == IS_ICE_OK)
        fprintf(stderr, "peer: %.*s\n", (int)length, (const char *)why);
    else if (code == IS_ICE_BAD_CANDIDATE || code == IS_ICE_NOT_UTF8)
        fprintf(stderr, "peer: candidate: %s\n", is_ice_code_text(code));
    else
        return code;
    return IS_ICE_NOTHING;
}

/* Compares the other peer's username fragment with the known one: IS_ICE_OK if they are equal, IS_ICE_NOTHING if none is
 * known, and IS_ICE_HAS_AGENT if another one is known. */
static int32_t known(is_ice_agent *agent, const char *ufrag)
{
    uint8_t before[LINE];
    size_t length;
    int32_t code = is_ice_remote_ufrag(agent, before, sizeof before, &length);
    if (code != IS_ICE_OK) return code;
    return length == strlen(ufrag) && memcmp(before, ufrag, length) == 0 ? IS_ICE_OK : IS_ICE_HAS_AGENT;
}

int32_t signal_take(struct is_ice_gather *gather, char *text)
{
    is_ice_agent *agent = gather->agent;
    const char *ufrag = word(&text, " \t"), *pass = ufrag ? word(&text, " \t") : NULL, *line;
    if (!pass) {
        fprintf(stderr, "peer: malformed signal; it is: signal UFRAG PASSWORD CANDIDATE,CANDIDATE,..\n");
        return IS_ICE_NOTHING;
    }
    int32_t code = known(agent, ufrag);
    if (code == IS_ICE_HAS_AGENT) code = signal_restart(agent);
    if (code == IS_ICE_NOTHING)
        code = is_ice_set_remote_credentials(agent, (const uint8_t *)ufrag, strlen(ufrag), (const uint8_t *)pass, strlen(pass));
    while (code >= 0 && (line = word(&text, ",")) != NULL) code = signal_take_candidate(gather, line);
    return code;
}
