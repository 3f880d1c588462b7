/* of_ours FILE CREDIT: feeds a stream from memory to an endpoint by the calls of wuleshomia.h, in pieces of 4096 bytes. Each message is
 * copied out and accepted, and its link topped up to so much credit; the answers are thrown away. */
#include "wuleshomia.h"
#include <stdio.h>
#include <stdlib.h>
#include <time.h>

enum { PIECE = 4096 };

static uint8_t message[1 << 24], out[8192];

static uint8_t *read_file(const char *name, size_t *size) {
    FILE *in = fopen(name, "rb");
    uint8_t *bytes;
    if (!in) exit(2);
    fseek(in, 0, SEEK_END);
    *size = (size_t)ftell(in);
    rewind(in);
    bytes = malloc(*size);
    if (!bytes || fread(bytes, 1, *size, in) != *size) exit(2);
    fclose(in);
    return bytes;
}

int main(int argc, char **argv) {
    static const wule_settings settings = {65536, 7, 7, 1024, 1 << 24, 1 << 30, 0};
    wule_endpoint e = WULE_ENDPOINT_INIT;
    wule_fed fed;
    wule_taken taken;
    struct timespec first, last;
    size_t size, at = 0, behind;
    unsigned long messages = 0, wrote = 0;
    uint32_t credit = argc > 2 ? (uint32_t)atol(argv[2]) : 1000, used = 0;
    uint8_t *bytes = argc > 1 ? read_file(argv[1], &size) : NULL;
    if (!bytes || wule_open(&e, &settings, "bench", 5, NULL, 0, NULL) != WULE_OK) return 2;
    clock_gettime(CLOCK_MONOTONIC, &first);
    while (at < size) {
        for (behind = size - at < PIECE ? size : at + PIECE; at < behind; at += (size_t)fed.used) {
            wule_feed(&e, bytes + at, behind - at, &fed);
            if (fed.event == WULE_READY) {
                if (wule_take(&e, fed.channel, fed.handle, &taken, message, sizeof message) != WULE_OK) return 3;
                messages++;
                wule_settle(&e, fed.channel, taken.id, WULE_ACCEPTED);
                if (++used >= credit / 2) wule_grant(&e, fed.channel, fed.handle, used), used = 0;
            }
            if (fed.event == WULE_ATTACHED) wule_grant(&e, fed.channel, fed.handle, credit);
            if (fed.outcome == WULE_DEAD) at = behind = size;
            if (fed.outcome == WULE_BLOCKED || fed.outcome == WULE_DEAD) wrote += wule_output(&e, out, sizeof out);
        }
        wrote += wule_output(&e, out, sizeof out);
    }
    clock_gettime(CLOCK_MONOTONIC, &last);
    printf("messages=%lu wrote=%lu end=%u seconds=%.4f\n", messages, wrote, (unsigned)wule_finish(&e, NULL),
           (double)(last.tv_sec - first.tv_sec) + (double)(last.tv_nsec - first.tv_nsec) / 1e9);
    wule_free(&e);
    free(bytes);
    return 0;
}
