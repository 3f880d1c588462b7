/* How much stack the calls take: a session runs on a stack that was painted.   stack FILE */
#define _GNU_SOURCE
#include "wuleshomia.h"
#include <pthread.h>
#include <stdio.h>
#include <stdlib.h>
#include <string.h>
#include <sys/mman.h>

enum { STACK = 1 << 20, PAINT = 0xa5 };

static uint8_t file[1 << 24], message[1 << 20], out[8192];
static size_t size;

static void by_calls(void) {
    static wule_endpoint e;
    static const wule_settings settings = {65536, 255, 255, 1024, 1 << 20, 1 << 20, 0};
    static wule_fed fed;
    static wule_taken taken;
    static char condition[65], description[256];
    static size_t at;
    memset(condition, 'c', 64), memset(description, 'd', 255);
    if (wule_open(&e, &settings, "stack", 5, NULL, 0, NULL) != WULE_OK) exit(2);
    while (at < size && fed.outcome != WULE_DEAD) {
        wule_feed(&e, file + at, size - at < 4096 ? size - at : 4096, &fed);
        at += (size_t)fed.used;
        if (fed.event == WULE_READY && wule_take(&e, fed.channel, fed.handle, &taken, message, sizeof message) == WULE_OK)
            wule_settle_with(&e, fed.channel, taken.id, condition, description);
        if (fed.event == WULE_READY || fed.event == WULE_ATTACHED) wule_top_up(&e, fed.channel, 16, 2048);
        while (wule_output(&e, out, sizeof out) > 0) {
        }
    }
    wule_finish(&e, NULL);
    wule_free(&e);
}

static void by_steps(void) {
    static wule_endpoint e;
    static const wule_settings settings = WULE_SETTINGS_INIT;
    static const wule_rule rule = {16, 8, WULE_ACCEPTED};
    static wule_step step;
    static size_t at;
    if (wule_open(&e, &settings, "stack", 5, NULL, 0, NULL) != WULE_OK) exit(2);
    while (at < size && step.fed.outcome != WULE_DEAD) {
        if (wule_serve_step(&e, &rule, file + at, size - at < 4096 ? size - at : 4096, &step) != WULE_OK) exit(2);
        at += (size_t)step.fed.used;
        while (wule_records(&e, message, sizeof message) > 0) {
        }
        while (wule_output(&e, out, sizeof out) > 0) {
        }
    }
    wule_free(&e);
}

/* Sums are made of bytes that are not whole too. */
static void by_spools(void) {
    static const uint8_t introduction[20] = {1};
    static uint8_t bytes[256];
    static wule_spool_head head;
    static wule_spool_batch batch;
    static wule_spool_entry entry;
    static wule_spool_end end;
    static wule_spool_floor lowest;
    static wule_spool_position position;
    if (wule_spool_read_head(bytes, sizeof bytes, &head) != WULE_NOT_WHOLE) exit(2);
    if (wule_spool_read_batch(&head, 0, bytes, sizeof bytes, &batch) != WULE_NOT_WHOLE) exit(2);
    if (wule_spool_read_entry(introduction, sizeof introduction, &entry) != WULE_OK) exit(2);
    if (wule_spool_read_end(bytes, WULE_SPOOL_END, &end) != WULE_NOT_WHOLE) exit(2);
    if (wule_spool_read_floor(bytes, WULE_SPOOL_FLOOR, &lowest) != WULE_NOT_WHOLE) exit(2);
    if (wule_spool_write_position(&position, bytes, sizeof bytes) != WULE_SPOOL_POSITION) exit(2);
    if (wule_spool_read_position(bytes, WULE_SPOOL_POSITION, &position) != WULE_OK) exit(2);
}

static void by_none(void) {}

static void *run(void *session) {
    (*(void (**)(void))session)();
    return NULL;
}

static size_t used_by(void (*session)(void)) {
    uint8_t *stack = mmap(NULL, STACK, PROT_READ | PROT_WRITE, MAP_PRIVATE | MAP_ANONYMOUS, -1, 0);
    pthread_attr_t attributes;
    pthread_t thread;
    size_t left = 0;
    memset(stack, PAINT, STACK);
    pthread_attr_init(&attributes);
    pthread_attr_setstack(&attributes, stack, STACK);
    if (pthread_create(&thread, &attributes, run, &session) != 0) exit(2);
    pthread_join(thread, NULL);
    while (left < STACK && stack[left] == PAINT) left++;
    return STACK - left;
}

int main(int argc, char **argv) {
    size_t own, calls, steps, spools;
    FILE *in = argc > 1 ? fopen(argv[1], "rb") : NULL;
    if (!in) return 2;
    size = fread(file, 1, sizeof file, in);
    fclose(in);
    own = used_by(by_none);
    calls = used_by(by_calls);
    steps = used_by(by_steps);
    spools = used_by(by_spools);
    printf("stack: calls %lu bytes, steps %lu, spools %lu, of which the thread's own are %lu\n", (unsigned long)calls, (unsigned long)steps,
           (unsigned long)spools, (unsigned long)own);
    return calls > 16384 || steps > 16384 || spools > 16384;
}
