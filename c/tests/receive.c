/* The twin of crates/example_receive: over the same file it prints the same lines.   receive FILE [PIECE] */
#include "wuleshomia.h"
#include <stdio.h>
#include <stdlib.h>

enum { CREDIT = 16, WINDOW = 2048, CHANNELS = 8, SHOWN = 60 };

static void print_escaped(const uint8_t *bytes, size_t len) {
    size_t i;
    for (i = 0; i < len; i++) {
        uint8_t b = bytes[i];
        if (b == '\t') fputs("\\t", stdout);
        else if (b == '\n') fputs("\\n", stdout);
        else if (b == '\r') fputs("\\r", stdout);
        else if (b == '\'' || b == '"' || b == '\\') printf("\\%c", b);
        else if (b >= 32 && b < 127) putchar(b);
        else printf("\\x%02x", b);
    }
}

static void give_up(const char *call, uint32_t code) {
    fprintf(stderr, "%s: %s\n", call, wule_code_text(code));
    exit(3);
}

static void receive(wule_endpoint *e, uint32_t channel, uint32_t handle) {
    uint8_t front[SHOWN], name[255];
    wule_taken taken;
    wule_link_state link;
    uint32_t code = wule_take(e, channel, handle, &taken, front, sizeof front);
    if (code != WULE_OK) give_up("take", code);
    if (wule_link(e, channel, handle, &link, name, sizeof name) == WULE_OK) {
        print_escaped(name, link.name_len);
        printf(": %lu bytes, ", (unsigned long)taken.len);
        print_escaped(front, taken.len < sizeof front ? (size_t)taken.len : sizeof front);
        putchar('\n');
    }
    if (!taken.settled && (code = wule_settle(e, channel, taken.id, WULE_ACCEPTED)) != WULE_OK) give_up("settle", code);
}

static void tell_failure(const wule_fed *fed) {
    fputs("failed: ", stdout);
    if (fed->scope == WULE_CONNECTION) fputs("Connection", stdout);
    if (fed->scope == WULE_SESSION) printf("Session { channel: %u }", (unsigned)fed->channel);
    if (fed->scope == WULE_LINK) printf("Link { channel: %u, handle: %u }", (unsigned)fed->channel, (unsigned)fed->handle);
    printf(", %s\n", wule_condition_symbol(fed->condition));
}

/* Credit and windows as crates/example_receive gives them. */
static void top_up(wule_endpoint *e) {
    uint32_t channel, handle, places, open;
    for (channel = 0; channel < CHANNELS; channel++) {
        if (wule_window(e, channel, &places) != WULE_OK) continue;
        if (places <= WINDOW / 2) wule_widen(e, channel, WINDOW - places);
        for (handle = 0; handle < CHANNELS; handle++) {
            wule_link_state link;
            if (wule_link(e, channel, handle, &link, NULL, 0) != WULE_OK) continue;
            open = link.credit + link.opened;
            if (open <= CREDIT / 2) wule_grant(e, channel, handle, CREDIT - open);
        }
    }
}

int main(int argc, char **argv) {
    static const char *const ends[] = {"?", "Failed", "Closed", "Inside", "Between"};
    static uint8_t file[1 << 24], out[512];
    size_t size, piece, at = 0;
    wule_endpoint e = WULE_ENDPOINT_INIT;
    wule_settings settings = WULE_SETTINGS_INIT;
    wule_fed fed = {0, 0, 0, 0, 0, 0, 0, 0, 0};
    uint32_t end;
    FILE *in = argc > 1 ? fopen(argv[1], "rb") : NULL;
    if (!in) return 2;
    size = fread(file, 1, sizeof file, in);
    fclose(in);
    piece = argc > 2 ? (size_t)atol(argv[2]) : sizeof file;
    if (wule_open(&e, &settings, "receive", 7, NULL, 0, NULL) != WULE_OK) return 2;
    while (at < size && !wule_is_over(&e)) {
        size_t behind = size - at < piece ? size : at + piece;
        do {
            wule_feed(&e, file + at, behind - at, &fed);
            at += (size_t)fed.used;
            if (fed.event == WULE_READY) receive(&e, fed.channel, fed.handle);
            if (fed.event == WULE_FAILED) tell_failure(&fed);
            if (fed.outcome == WULE_STARVED) return 4;
            top_up(&e);
            while (wule_output(&e, out, sizeof out) > 0) {
            }
        } while (at < behind && fed.outcome != WULE_DEAD);
        if (fed.outcome == WULE_DEAD) break;
    }
    end = wule_finish(&e, NULL);
    printf("the end: %s\n", ends[end]);
    wule_free(&e);
    return 0;
}
