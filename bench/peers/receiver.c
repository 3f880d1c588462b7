/* receiver PORT CREDIT [PEERS]: the receiver that `amqp recv` is compared with, and with PEERS `amqp gateway`, on Qpid Proton's C library,
 * without SASL and TLS.
 *
 * It serves one connection, or with PEERS so many at a time until all have ended, keeps each link at so much credit, accepts and settles each message, and does what `amqp recv` does of its
 * standard output: a record of each message (channel 2 bytes, handle, delivery-id, message-format and length 4 each, big-endian, then
 * the message), through a buffer of 64 KiB that is flushed behind each batch of events, before the answers of that batch are written.
 * With PEERS the records of a batch, which are one connection's, are a block, as `amqp gateway` writes them: its number (8 bytes), the
 * length of the records (4 bytes), and they.
 * On standard error stand "listening" once it listens, and at the end how many messages came. */
#include <proton/connection.h>
#include <proton/delivery.h>
#include <proton/link.h>
#include <proton/listener.h>
#include <proton/proactor.h>
#include <proton/session.h>
#include <proton/transport.h>
#include <stdio.h>
#include <stdlib.h>
#include <string.h>

static struct {
    int credit;
    unsigned long peers, opened, ended;
    unsigned long messages;
    char *message;
    size_t room;
    /* with PEERS: the records of the batch */
    char *block;
    size_t length, most;
} receiving;

static void put(unsigned char *at, unsigned long number, int bytes) {
    while (bytes--) {
        at[bytes] = number;
        number >>= 8;
    }
}

static void record(const char *message, size_t length) {
    unsigned char head[18] = {0};
    put(head + 6, receiving.messages, 4);
    put(head + 14, length, 4);
    if (!receiving.peers) {
        fwrite(head, 1, sizeof head, stdout);
        fwrite(message, 1, length, stdout);
        return;
    }
    size_t end = receiving.length + sizeof head + length;
    if (end > receiving.most) {
        receiving.most = 2 * end;
        receiving.block = realloc(receiving.block, receiving.most);
        if (!receiving.block) exit(1);
    }
    memcpy(receiving.block + receiving.length, head, sizeof head);
    memcpy(receiving.block + receiving.length + sizeof head, message, length);
    receiving.length = end;
}

static void end_block(pn_connection_t *connection) {
    if (!receiving.length) return;
    unsigned char head[12];
    put(head, connection ? (unsigned long)pn_connection_get_context(connection) : 0, 8);
    put(head + 8, receiving.length, 4);
    fwrite(head, 1, sizeof head, stdout);
    fwrite(receiving.block, 1, receiving.length, stdout);
    receiving.length = 0;
}

static void take(pn_delivery_t *delivery) {
    pn_link_t *link = pn_delivery_link(delivery);
    if (!pn_delivery_readable(delivery) || pn_delivery_partial(delivery)) return;
    size_t length = pn_delivery_pending(delivery);
    if (length > receiving.room) {
        receiving.room = 2 * length;
        receiving.message = realloc(receiving.message, receiving.room);
        if (!receiving.message) exit(1);
    }
    pn_link_recv(link, receiving.message, length);
    record(receiving.message, length);
    receiving.messages++;
    pn_link_advance(link);
    pn_delivery_update(delivery, PN_ACCEPTED);
    pn_delivery_settle(delivery);
    int credit = pn_link_credit(link);
    if (credit <= receiving.credit / 2) pn_link_flow(link, receiving.credit - credit);
}

static void open_link(pn_link_t *link) {
    pn_terminus_copy(pn_link_target(link), pn_link_remote_target(link));
    pn_link_open(link);
    pn_link_flow(link, receiving.credit);
}

static void open_connection(pn_connection_t *connection) {
    pn_connection_set_context(connection, (void *)++receiving.opened);
    pn_connection_set_container(connection, "receiver");
    pn_connection_open(connection);
}

static void accept_one(pn_listener_t *listener) {
    pn_transport_t *transport = pn_transport();
    pn_transport_set_server(transport);
    pn_transport_set_max_frame(transport, 65536);
    pn_listener_accept2(listener, NULL, transport);
}

static void act_on(pn_event_t *event, pn_listener_t *listener) {
    switch (pn_event_type(event)) {
    case PN_LISTENER_OPEN: fprintf(stderr, "listening\n"); break;
    case PN_LISTENER_ACCEPT: accept_one(listener); break;
    case PN_CONNECTION_REMOTE_OPEN: open_connection(pn_event_connection(event)); break;
    case PN_SESSION_REMOTE_OPEN: pn_session_open(pn_event_session(event)); break;
    case PN_LINK_REMOTE_OPEN: open_link(pn_event_link(event)); break;
    case PN_DELIVERY: take(pn_event_delivery(event)); break;
    case PN_LINK_REMOTE_CLOSE: pn_link_close(pn_event_link(event)); break;
    case PN_SESSION_REMOTE_CLOSE: pn_session_close(pn_event_session(event)); break;
    case PN_CONNECTION_REMOTE_CLOSE: pn_connection_close(pn_event_connection(event)); break;
    case PN_TRANSPORT_CLOSED:
        if (++receiving.ended >= receiving.peers) pn_listener_close(listener);
        break;
    default: break;
    }
}

int main(int argc, char **argv) {
    if (argc != 3 && argc != 4) {
        fprintf(stderr, "usage: receiver PORT CREDIT [PEERS]\n");
        return 2;
    }
    if (argc == 4) receiving.peers = strtoul(argv[3], NULL, 10);
    char address[64];
    snprintf(address, sizeof address, "127.0.0.1:%s", argv[1]);
    receiving.credit = atoi(argv[2]);
    setvbuf(stdout, NULL, _IOFBF, 65536);
    pn_proactor_t *proactor = pn_proactor();
    pn_listener_t *listener = pn_listener();
    pn_proactor_listen(proactor, listener, address, receiving.peers > 16 ? receiving.peers : 16);
    for (int is_over = 0; !is_over;) {
        pn_event_batch_t *batch = pn_proactor_wait(proactor);
        pn_event_t *event;
        pn_connection_t *connection = NULL;
        while ((event = pn_event_batch_next(batch))) {
            if (pn_event_type(event) == PN_PROACTOR_INACTIVE) is_over = 1;
            if (pn_event_connection(event)) connection = pn_event_connection(event);
            act_on(event, listener);
        }
        end_block(connection);
        fflush(stdout);
        pn_proactor_done(proactor, batch);
    }
    pn_proactor_free(proactor);
    fprintf(stderr, "messages=%lu\n", receiving.messages);
    return 0;
}
