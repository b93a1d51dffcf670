/* The eight words of a candidate's text, for fuzz_arguments.h and odd_texts.c: of each the usual one, and then others that may stand in its
 * place. */
#ifndef CANDIDATE_WORDS_H
#define CANDIDATE_WORDS_H

static const char *const candidate_words[8][8] = {
    {"candidate:1", "candidate:tmp_prflx", "candidate:", "a=candidate:7", "candidate:\xc3\xa9", "candidate:1", "candidate:2", "1"},
    {"1", "1", "1", "2", "0", "256", "65536", "one"},
    {"udp", "UDP", "tcp", "TCP", "ssltcp", "tls", "sctp", "udp"},
    {"2130706431", "1694498815", "1", "0", "4294967295", "4294967296", "-1", "2130706175"},
    {"10.0.0.1", "10.0.0.2", "10.0.0.3", "2001:db8::1", "::", "3f2b8c1e.local", "010.0.0.1", "fe80::1%1"},
    {"5000", "5001", "9", "0", "65535", "65536", "x", "5000"},
    {"typ", "typ", "typ", "typ", "typ", "typ", "type", ""},
    {"host", "srflx", "prflx", "relay", "hosts", "host", "srflx", "relay"}};

#endif
