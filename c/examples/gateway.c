/*
 * A gateway: many connections by epoll, one proved endpoint for each, and TLS by OpenSSL if it is built with -DWITH_TLS.
 * A link has to be for one of the addresses that it knows, else it is refused. It accepts each message, or rejects it and says why, and
 * tells at the end of a connection how many came.
 *
 *     gateway PORT [CONNECTIONS]                        ends after so many connections, if that is said
 *     gateway-tls PORT CERTIFICATE KEY [CONNECTIONS]    both in PEM
 */
#define _GNU_SOURCE
#include "wuleshomia.h"
#include <arpa/inet.h>
#include <errno.h>
#include <netinet/tcp.h>
#include <stdio.h>
#include <stdlib.h>
#include <string.h>
#include <sys/epoll.h>
#include <sys/socket.h>
#include <time.h>
#include <unistd.h>
#ifdef WITH_TLS
#include <openssl/ssl.h>
static SSL_CTX *tls;
#endif

static const char *const known[] = {"queue", "orders"}; /* addresses */

enum { CREDIT = 100, WINDOW = 2048, MAX_MESSAGE = 1 << 20, IDLE_SECONDS = 30 };

struct peer {
    struct peer *next, **place; /* in the list of all */
    int fd;
    int is_stuck; /* its socket took no more: nothing is read of it until it does */
    time_t heard, said;
    unsigned long messages, bytes;
    wule_endpoint endpoint;
    uint8_t out[16384]; /* what waits for the socket: from `sent` to `written` */
    size_t sent, written;
#ifdef WITH_TLS
    SSL *ssl;
    BIO *from_peer, *for_peer;
#endif
};

static struct peer *peers;
static uint8_t message[MAX_MESSAGE];
static int poller, left; /* so many connections are still to come; 0: any number */

static time_t now(void) {
    struct timespec t;
    clock_gettime(CLOCK_MONOTONIC, &t);
    return t.tv_sec;
}

/* ---- bytes for the peer */

/* Takes what the endpoint has for the peer, through TLS if there is it. */
static void refill(struct peer *p) {
    p->sent = p->written = 0;
#ifdef WITH_TLS
    static uint8_t plain[8192];
    size_t n;
    int k;
    if (SSL_is_init_finished(p->ssl) && (n = wule_output(&p->endpoint, plain, sizeof plain)) > 0) SSL_write(p->ssl, plain, (int)n);
    if ((k = BIO_read(p->for_peer, p->out, sizeof p->out)) > 0) p->written = (size_t)k;
#else
    p->written = wule_output(&p->endpoint, p->out, sizeof p->out);
#endif
}

/* Sends what waits. 1: all of it; 0: the socket is full; -1: it is gone. */
static int send_all(struct peer *p) {
    for (;;) {
        ssize_t k;
        if (p->sent == p->written) refill(p);
        if (p->sent == p->written) return 1;
        k = send(p->fd, p->out + p->sent, p->written - p->sent, MSG_NOSIGNAL);
        if (k < 0) return errno == EAGAIN || errno == EWOULDBLOCK ? 0 : -1;
        p->sent += (size_t)k;
        p->said = now();
    }
}

/* ---- bytes of the peer */

/* Whether the target of a link is one of the addresses that are known. */
static int is_known(struct peer *p, uint32_t channel, uint32_t handle) {
    wule_address address;
    uint8_t name[64];
    size_t i;
    if (wule_link_address(&p->endpoint, channel, handle, &address, name, sizeof name) != WULE_OK || address.kind != WULE_ADDRESS_NAMED) return 0;
    for (i = 0; i < sizeof known / sizeof *known; i++)
        if (address.len == strlen(known[i]) && memcmp(name, known[i], address.len) == 0) return 1;
    return 0;
}

/* Takes a link, or refuses it before it has sent anything. */
static void greet_link(struct peer *p, uint32_t channel, uint32_t handle) {
    uint32_t dropped;
    if (is_known(p, channel, handle)) wule_top_up(&p->endpoint, channel, CREDIT, WINDOW);
    else wule_refuse(&p->endpoint, channel, handle, WULE_SYMBOL_NOT_FOUND, "no such address", &dropped);
}

/* What is wrong with a message; NULL if nothing is. */
static const char *fault_of(const wule_taken *taken) {
    if (taken->format != 0) return "the message-format is not 0";
    return taken->len > 0 ? NULL : "the message is empty";
}

static void receive(struct peer *p, uint32_t channel, uint32_t handle) {
    wule_taken taken;
    const char *fault;
    if (wule_take(&p->endpoint, channel, handle, &taken, message, sizeof message) != WULE_OK) return;
    fault = fault_of(&taken);
    p->messages++; /* here it is processed, unless it has a fault: taken.len bytes of `message` */
    p->bytes += taken.len;
    if (!taken.settled && fault) wule_settle_with(&p->endpoint, channel, taken.id, WULE_SYMBOL_DECODE_ERROR, fault);
    if (!taken.settled && !fault) wule_settle(&p->endpoint, channel, taken.id, WULE_ACCEPTED);
    wule_top_up(&p->endpoint, channel, CREDIT, WINDOW);
}

/* Does what an event asks for. */
static void follow(struct peer *p, const wule_fed *fed) {
    switch (fed->event) {
    case WULE_READY:
        receive(p, fed->channel, fed->handle);
        return;
    case WULE_ATTACHED:
        greet_link(p, fed->channel, fed->handle);
        return;
    case WULE_FAILED:
        fprintf(stderr, "failed: scope %u, %s\n", (unsigned)fed->scope, wule_condition_symbol(fed->condition));
        return;
    default:
        return;
    }
}

/* Takes bytes of the peer. 1: it goes on; 0: the connection is over, or has to be given up. */
static int hear(struct peer *p, const uint8_t *bytes, size_t n) {
    wule_fed fed;
    size_t at = 0;
    do {
        wule_feed(&p->endpoint, bytes + at, n - at, &fed);
        at += (size_t)fed.used;
        if (fed.outcome == WULE_EVENT) follow(p, &fed);
        if (fed.outcome == WULE_STARVED) return 0;
        if (fed.outcome == WULE_BLOCKED && send_all(p) <= 0) return 0; /* it doesn't read what it is answered */
    } while (at < n && fed.outcome != WULE_DEAD);
    return !wule_is_over(&p->endpoint);
}

static int read_some(struct peer *p) {
    static uint8_t in[65536];
    ssize_t k = recv(p->fd, in, sizeof in, 0);
    if (k < 0) return errno == EAGAIN || errno == EWOULDBLOCK;
    if (k == 0) return 0;
    p->heard = now();
#ifdef WITH_TLS
    BIO_write(p->from_peer, in, (int)k);
    for (;;) {
        int n = SSL_read(p->ssl, in, sizeof in);
        if (n <= 0) return SSL_get_error(p->ssl, n) == SSL_ERROR_WANT_READ;
        if (!hear(p, in, (size_t)n)) return 0;
    }
#else
    return hear(p, in, (size_t)k);
#endif
}

/* ---- connections */

static int watch(struct peer *p, int operation) {
    struct epoll_event e;
    e.events = p->is_stuck ? EPOLLOUT : EPOLLIN;
    e.data.ptr = p;
    return epoll_ctl(poller, operation, p->fd, &e);
}

static void greet(int fd) {
    static const wule_settings settings = {65536, 7, 7, 2 * CREDIT, MAX_MESSAGE, WINDOW, IDLE_SECONDS * 1000};
    struct peer *p = calloc(1, sizeof *p);
    int one = 1;
    if (!p || wule_open(&p->endpoint, &settings, "gateway", 7, NULL, 0, NULL) != WULE_OK) {
        free(p);
        close(fd);
        return;
    }
    setsockopt(fd, IPPROTO_TCP, TCP_NODELAY, &one, sizeof one); /* answers are small, and none waits for the next */
    p->fd = fd;
    p->heard = p->said = now();
#ifdef WITH_TLS
    p->ssl = SSL_new(tls);
    p->from_peer = BIO_new(BIO_s_mem());
    p->for_peer = BIO_new(BIO_s_mem());
    SSL_set_bio(p->ssl, p->from_peer, p->for_peer);
    SSL_set_accept_state(p->ssl);
#endif
    p->next = peers;
    p->place = &peers;
    if (peers) peers->place = &p->next;
    peers = p;
    watch(p, EPOLL_CTL_ADD);
}

static void leave(struct peer *p) {
    static const char *const ends[] = {"none", "failed", "closed", "inside", "between"};
    send_all(p);
    printf("%s, %lu messages, %lu bytes\n", ends[wule_finish(&p->endpoint, NULL)], p->messages, p->bytes);
    fflush(stdout);
    wule_free(&p->endpoint);
#ifdef WITH_TLS
    SSL_free(p->ssl); /* with both of its BIOs */
#endif
    close(p->fd);
    *p->place = p->next;
    if (p->next) p->next->place = p->place;
    free(p);
    if (left > 0 && --left == 0) exit(0);
}

/* Whatever a peer may do: reads of it, or sends to it what it did not take. */
static void attend(struct peer *p) {
    int goes_on = p->is_stuck ? 1 : read_some(p), sent = send_all(p);
    if (!goes_on || sent < 0) {
        leave(p);
    } else if (p->is_stuck != !sent) {
        p->is_stuck = !sent;
        watch(p, EPOLL_CTL_MOD);
    }
}

/* Gives up the peers that were silent for twice as long as they were asked to be at most, and tells the others that this side is here. */
static void look_at_the_clock(void) {
    time_t t = now();
    struct peer *p, *next;
    uint32_t dropped;
    for (p = peers; p; p = next) {
        next = p->next;
        if (t - p->heard > 2 * IDLE_SECONDS) {
            wule_close_with(&p->endpoint, WULE_SYMBOL_RESOURCE_LIMIT_EXCEEDED, "silent for too long", &dropped);
            leave(p);
        } else if (t - p->said > IDLE_SECONDS / 2 && !p->is_stuck && wule_heartbeat(&p->endpoint) == WULE_OK) {
            send_all(p);
        }
    }
}

int main(int argc, char **argv) {
    struct sockaddr_in address = {.sin_family = AF_INET, .sin_addr.s_addr = htonl(INADDR_LOOPBACK)};
    struct epoll_event listening = {.events = EPOLLIN}, events[64];
    int listener = socket(AF_INET, SOCK_STREAM, 0), one = 1, count_at = 2;
    time_t looked = now();
    poller = epoll_create1(0);
#ifdef WITH_TLS
    count_at = 4;
    tls = SSL_CTX_new(TLS_server_method());
    if (argc < 4 || SSL_CTX_use_certificate_chain_file(tls, argv[2]) != 1 || SSL_CTX_use_PrivateKey_file(tls, argv[3], SSL_FILETYPE_PEM) != 1)
        return fputs("usage: gateway-tls PORT CERTIFICATE KEY [CONNECTIONS]\n", stderr), 2;
#endif
    if (argc < 2) return fputs("usage: gateway PORT [CONNECTIONS]\n", stderr), 2;
    left = argc > count_at ? atoi(argv[count_at]) : 0;
    address.sin_port = htons((uint16_t)atoi(argv[1]));
    setsockopt(listener, SOL_SOCKET, SO_REUSEADDR, &one, sizeof one);
    if (bind(listener, (struct sockaddr *)&address, sizeof address) || listen(listener, 64) || epoll_ctl(poller, EPOLL_CTL_ADD, listener, &listening))
        return perror("listen"), 2;
    for (;;) {
        int i, n = epoll_wait(poller, events, 64, 1000);
        for (i = 0; i < n; i++) {
            int fd = events[i].data.ptr ? -1 : accept4(listener, NULL, NULL, SOCK_NONBLOCK);
            if (fd >= 0) greet(fd);
            if (events[i].data.ptr) attend(events[i].data.ptr);
        }
        if (now() != looked) {
            looked = now();
            look_at_the_clock();
        }
    }
}
