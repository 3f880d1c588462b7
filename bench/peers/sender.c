/* sender PORT COUNT SIZE [PEERS]: sends so many messages of so many bytes, unsettled, as credit allows, on Qpid Proton's C library, without
 * SASL and TLS, over each of PEERS connections (1). It waits for each outcome and closes. On standard output it prints how many were
 * accepted in all, and the seconds from the first credit to the last outcome; its status is 0 where all were. */
#include <proton/connection.h>
#include <proton/delivery.h>
#include <proton/link.h>
#include <proton/proactor.h>
#include <proton/session.h>
#include <proton/transport.h>
#include <stdio.h>
#include <stdlib.h>
#include <time.h>

static struct {
    unsigned long count, size, accepted;
    char *message;
    double first, last;
} sending;

/* What one connection has sent, and how much of it was answered. */
struct peer {
    unsigned long sent, answered;
};

static double now(void) {
    struct timespec time;
    clock_gettime(CLOCK_MONOTONIC, &time);
    return time.tv_sec + time.tv_nsec / 1e9;
}

static void open_all(pn_connection_t *connection) {
    pn_connection_set_container(connection, "sender");
    pn_connection_open(connection);
    pn_session_t *session = pn_session(connection);
    pn_session_open(session);
    pn_link_t *link = pn_sender(session, "bench");
    pn_terminus_set_address(pn_link_target(link), "queue");
    pn_link_set_snd_settle_mode(link, PN_SND_UNSETTLED);
    pn_link_open(link);
}

static struct peer *peer_of(pn_connection_t *connection) {
    return pn_connection_get_context(connection);
}

static void send_all(pn_link_t *link, struct peer *peer) {
    if (!sending.first) sending.first = now();
    while (pn_link_credit(link) > 0 && peer->sent < sending.count) {
        char tag[24];
        int length = snprintf(tag, sizeof tag, "%lu", peer->sent);
        pn_delivery(link, pn_dtag(tag, length));
        pn_link_send(link, sending.message, sending.size);
        pn_link_advance(link);
        peer->sent++;
    }
}

static void hear(pn_delivery_t *delivery, pn_connection_t *connection) {
    if (!pn_delivery_remote_state(delivery) && !pn_delivery_settled(delivery)) return;
    if (pn_delivery_remote_state(delivery) == PN_ACCEPTED) sending.accepted++;
    pn_delivery_settle(delivery);
    if (++peer_of(connection)->answered == sending.count) {
        sending.last = now();
        pn_connection_close(connection);
    }
}

static void act_on(pn_event_t *event) {
    pn_connection_t *connection = pn_event_connection(event);
    switch (pn_event_type(event)) {
    case PN_CONNECTION_INIT: open_all(connection); break;
    case PN_LINK_FLOW: send_all(pn_event_link(event), peer_of(connection)); break;
    case PN_DELIVERY: hear(pn_event_delivery(event), connection); break;
    case PN_LINK_REMOTE_CLOSE:
    case PN_LINK_REMOTE_DETACH:
    case PN_SESSION_REMOTE_CLOSE:
    case PN_CONNECTION_REMOTE_CLOSE: pn_connection_close(connection); break;
    default: break;
    }
}

int main(int argc, char **argv) {
    if (argc != 4 && argc != 5) {
        fprintf(stderr, "usage: sender PORT COUNT SIZE [PEERS]\n");
        return 2;
    }
    unsigned long peers = argc == 5 ? strtoul(argv[4], NULL, 10) : 1;
    struct peer *all = calloc(peers, sizeof *all);
    if (!all) return 1;
    sending.count = strtoul(argv[2], NULL, 10);
    sending.size = strtoul(argv[3], NULL, 10);
    sending.message = malloc(sending.size + 1);
    if (!sending.message) return 1;
    for (unsigned long at = 0; at < sending.size; at++) sending.message[at] = 'a' + at % 26;
    char address[64];
    pn_proactor_addr(address, sizeof address, "127.0.0.1", argv[1]);
    pn_proactor_t *proactor = pn_proactor();
    for (unsigned long at = 0; at < peers; at++) {
        pn_connection_t *connection = pn_connection();
        pn_connection_set_context(connection, &all[at]);
        pn_proactor_connect2(proactor, connection, NULL, address);
    }
    for (int is_over = 0; !is_over;) {
        pn_event_batch_t *batch = pn_proactor_wait(proactor);
        pn_event_t *event;
        while ((event = pn_event_batch_next(batch))) {
            if (pn_event_type(event) == PN_PROACTOR_INACTIVE) is_over = 1;
            act_on(event);
        }
        pn_proactor_done(proactor, batch);
    }
    pn_proactor_free(proactor);
    printf("accepted=%lu seconds=%.6f\n", sending.accepted, sending.last - sending.first);
    return sending.accepted == peers * sending.count ? 0 : 1;
}
