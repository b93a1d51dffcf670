/* What peer_net.c needs for TLS over a connection: that of OpenSSL, if it is built with -DPEER_TLS and linked with -lssl -lcrypto.
 * Otherwise there is none. Agent and servers know nothing of it: to them the connection is one over TCP. */
#ifndef TLS_H
#define TLS_H

#include "peer.h"

#ifdef PEER_TLS

#include <openssl/err.h>
#include <openssl/ssl.h>
#include <signal.h>

static bool tls_is_there(void)
{
    return true;
}

/* Whom the certificate has to name. A name goes to the server too, which may have several certificates. */
static bool tls_expects(SSL *ssl, const char *host)
{
    if (X509_VERIFY_PARAM_set1_ip_asc(SSL_get0_param(ssl), host) == 1) return true;
    return SSL_set1_host(ssl, host) == 1 && SSL_set_tlsext_host_name(ssl, host) == 1;
}

/* Begins TLS with a server whose certificate has to name this host, and has to be trusted by the system, or by SSL_CERT_FILE. */
static bool tls_begin(struct stream *stream, const char *host)
{
    SSL_CTX *context = SSL_CTX_new(TLS_client_method());
    SSL *ssl = context && SSL_CTX_set_default_verify_paths(context) == 1 ? SSL_new(context) : NULL;
    SSL_CTX_free(context); /* the connection keeps it */
    stream->tls = ssl;
    if (!ssl || !tls_expects(ssl, host) || SSL_set_fd(ssl, (int)stream->socket) != 1) return false;
    SSL_set_verify(ssl, SSL_VERIFY_PEER, NULL);
    SSL_set_mode(ssl, SSL_MODE_ENABLE_PARTIAL_WRITE | SSL_MODE_ACCEPT_MOVING_WRITE_BUFFER); /* what waits moves and grows */
    SSL_set_connect_state(ssl); /* the first call below begins the handshake */
#ifdef SIGPIPE
    signal(SIGPIPE, SIG_IGN); /* OpenSSL may write to a connection that the server has closed */
#endif
    return true;
}

/* What a call of OpenSSL means: a length, 0: not yet, or -1: the connection is broken. */
static ssize_t tls_result(SSL *ssl, int done)
{
    int error = SSL_get_error(ssl, done);
    if (done > 0) return done;
    if (error == SSL_ERROR_WANT_READ || error == SSL_ERROR_WANT_WRITE) return 0;
    long verified = SSL_get_verify_result(ssl);
    const char *reason = ERR_reason_error_string(ERR_peek_error());
    if (verified != X509_V_OK) reason = X509_verify_cert_error_string(verified);
    if (reason) fprintf(stderr, "peer: TLS: %s\n", reason);
    return -1;
}

static ssize_t tls_send(struct stream *stream, const void *bytes, size_t length)
{
    SSL *ssl = (SSL *)stream->tls;
    ERR_clear_error();
    int done = SSL_write(ssl, bytes, (int)length);
    stream->waits_for_input = SSL_want_read(ssl); /* in the handshake it is the server's turn */
    return tls_result(ssl, done);
}

static ssize_t tls_receive(struct stream *stream, void *bytes, size_t size)
{
    SSL *ssl = (SSL *)stream->tls;
    ERR_clear_error();
    int done = SSL_read(ssl, bytes, (int)size);
    if (SSL_is_init_finished(ssl)) stream->waits_for_input = false;
    return tls_result(ssl, done);
}

static void tls_end(struct stream *stream)
{
    if (stream->tls && !stream->is_broken) SSL_shutdown((SSL *)stream->tls);
    SSL_free((SSL *)stream->tls);
}

#else

static bool tls_is_there(void)
{
    return false;
}

static bool tls_begin(struct stream *stream, const char *host)
{
    (void)stream, (void)host;
    return false;
}

static ssize_t tls_send(struct stream *stream, const void *bytes, size_t length)
{
    (void)stream, (void)bytes, (void)length;
    return -1;
}

static ssize_t tls_receive(struct stream *stream, void *bytes, size_t size)
{
    (void)stream, (void)bytes, (void)size;
    return -1;
}

static void tls_end(struct stream *stream)
{
    (void)stream;
}

#endif
#endif
