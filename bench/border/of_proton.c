/* of_proton FILE CREDIT: the same on the engine of Qpid Proton's C library (its connection driver). */
#include <proton/connection.h>
#include <proton/connection_driver.h>
#include <proton/delivery.h>
#include <proton/link.h>
#include <proton/session.h>
#include <proton/transport.h>
#include <stdio.h>
#include <stdlib.h>
#include <string.h>
#include <time.h>

enum { PIECE = 4096 };

static char message[1 << 24];
static unsigned long messages;
static int credit, used;

static void take(pn_delivery_t *delivery) {
    pn_link_t *link = pn_delivery_link(delivery);
    if (!pn_delivery_readable(delivery) || pn_delivery_partial(delivery)) return;
    pn_link_recv(link, message, sizeof message);
    messages++;
    pn_link_advance(link);
    pn_delivery_update(delivery, PN_ACCEPTED);
    pn_delivery_settle(delivery);
    if (++used >= credit / 2) pn_link_flow(link, used), used = 0;
}

static void act_on(pn_event_t *event) {
    pn_link_t *link = pn_event_link(event);
    switch (pn_event_type(event)) {
    case PN_CONNECTION_REMOTE_OPEN: pn_connection_open(pn_event_connection(event)); break;
    case PN_SESSION_REMOTE_OPEN: pn_session_open(pn_event_session(event)); break;
    case PN_LINK_REMOTE_OPEN:
        pn_terminus_copy(pn_link_target(link), pn_link_remote_target(link));
        pn_link_open(link);
        pn_link_flow(link, credit);
        break;
    case PN_DELIVERY: take(pn_event_delivery(event)); break;
    case PN_CONNECTION_REMOTE_CLOSE: pn_connection_close(pn_event_connection(event)); break;
    default: break;
    }
}

/* How long the opening is, up to the first transfer: Proton takes no transfer that comes with it. */
static size_t opening_of(const char *bytes, size_t size) {
    const unsigned char *b = (const unsigned char *)bytes;
    size_t at = 8;
    while (at + 11 < size && b[at + 10] != 0x14) at += (size_t)b[at] << 24 | (size_t)b[at + 1] << 16 | (size_t)b[at + 2] << 8 | b[at + 3];
    return at;
}

static void act_on_all(pn_connection_driver_t *driver) {
    pn_event_t *event;
    while ((event = pn_connection_driver_next_event(driver))) act_on(event);
}

int main(int argc, char **argv) {
    pn_connection_driver_t driver;
    struct timespec first, last;
    size_t size, at = 0, opening;
    unsigned long wrote = 0;
    FILE *in = argc > 1 ? fopen(argv[1], "rb") : NULL;
    char *bytes;
    if (!in) return 2;
    credit = argc > 2 ? atoi(argv[2]) : 1000;
    fseek(in, 0, SEEK_END);
    size = (size_t)ftell(in);
    rewind(in);
    bytes = malloc(size);
    if (!bytes || fread(bytes, 1, size, in) != size) return 2;
    opening = opening_of(bytes, size);
    pn_connection_driver_init(&driver, NULL, NULL);
    pn_transport_set_server(driver.transport);
    pn_transport_set_max_frame(driver.transport, 65536);
    pn_connection_set_container(driver.connection, "bench");
    clock_gettime(CLOCK_MONOTONIC, &first);
    while (at < size && !pn_connection_driver_finished(&driver)) {
        pn_rwbytes_t room = pn_connection_driver_read_buffer(&driver);
        size_t n = size - at < PIECE ? size - at : PIECE;
        pn_bytes_t out;
        if (at < opening) n = opening - at;
        if (n > room.size) n = room.size;
        if (n == 0) break;
        memcpy(room.start, bytes + at, n);
        pn_connection_driver_read_done(&driver, n);
        at += n;
        act_on_all(&driver);
        for (out = pn_connection_driver_write_buffer(&driver); out.size > 0; out = pn_connection_driver_write_buffer(&driver)) {
            wrote += out.size;
            pn_connection_driver_write_done(&driver, out.size);
        }
        act_on_all(&driver);
    }
    clock_gettime(CLOCK_MONOTONIC, &last);
    printf("messages=%lu wrote=%lu seconds=%.4f\n", messages, wrote, (double)(last.tv_sec - first.tv_sec) + (double)(last.tv_nsec - first.tv_nsec) / 1e9);
    pn_connection_driver_destroy(&driver);
    free(bytes);
    return 0;
}
