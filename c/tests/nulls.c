/* Each call, by a pointer to its function: NULL with the length 0 is no bytes, and NULL with another length is refused before anything
 * happens.
 *     nulls FILE                  the pointers are those of the program
 *     nulls-by-name FILE LIBRARY  they are what dlsym() finds; built with -DBY_NAME */
#include "wuleshomia.h"
#include <stdio.h>
#include <stdlib.h>
#include <string.h>
#ifdef BY_NAME
#include <dlfcn.h>
#endif

#define EACH(X) \
    X(version) X(open) X(free) X(feed) X(output) X(has_output) X(close) X(close_with) X(heartbeat) X(finish) X(is_over) X(grant) X(widen) \
    X(drain) X(settle) X(settle_range) X(settle_with) X(settle_range_with) X(detach) X(refuse) X(top_up) X(take) X(message_read) X(message_drop) X(held) X(window) X(link) X(link_source) \
    X(link_target) X(link_address) X(first_lacking) X(serve_step) X(records) X(spool_read_head) X(spool_batch_size) X(spool_read_batch) \
    X(spool_read_entry) X(spool_read_end) X(spool_read_floor) X(spool_read_position) X(spool_write_position)

#define POINTER(name) __typeof__(wule_##name) *name;
static struct { EACH(POINTER) } call;

#define IS_UNTOUCHED(report) is_all((const uint8_t *)&(report), sizeof(report), 0xee)

static int failures;

#define IS(got, wanted)                                                                                      \
    do {                                                                                                     \
        unsigned long long got_ = (unsigned long long)(got), wanted_ = (unsigned long long)(wanted);         \
        if (got_ != wanted_) printf("line %d: %s is %llu, not %llu\n", __LINE__, #got, got_, wanted_), failures++; \
    } while (0)

static const size_t lengths[] = {1, 2, 4096, (size_t)-1 / 2, (size_t)-1};
enum { LENGTHS = sizeof lengths / sizeof *lengths };

static uint8_t file[1 << 20];
static size_t size;

static int is_all(const uint8_t *bytes, size_t len, uint8_t byte) {
    while (len > 0 && *bytes == byte) bytes++, len--;
    return len == 0;
}

/* What each call that takes bytes, a room or rows does with NULL and a length that is not 0: nothing, whatever the handle holds. */
static void refuse(wule_endpoint *e) {
    static const wule_settings settings = WULE_SETTINGS_INIT;
    static const wule_rule rule = {16, 15, WULE_ACCEPTED}, bad = {16, 15, 7};
    wule_fed fed;
    wule_taken taken;
    wule_link_state link;
    wule_address address;
    wule_step step;
    wule_endpoint before = *e;
    uint64_t held = call.held(e);
    size_t row, i;
    uint32_t waits = call.has_output(e);
    memset(&fed, 0xee, sizeof fed);
    memset(&taken, 0xee, sizeof taken);
    memset(&link, 0xee, sizeof link);
    memset(&address, 0xee, sizeof address);
    memset(&step, 0xee, sizeof step);
    memset(&row, 0xee, sizeof row);
    for (i = 0; i < LENGTHS; i++) {
        size_t n = lengths[i];
        IS(call.open(e, &settings, NULL, n, NULL, 0, &row), WULE_NULL);
        IS(call.open(e, &settings, "x", 1, NULL, n, &row), WULE_NULL);
        IS(call.open(e, &settings, NULL, n, NULL, n, NULL), WULE_NULL);
        IS(call.feed(e, NULL, n, &fed), WULE_NULL);
        IS(call.output(e, NULL, n), 0);
        IS(call.take(e, 0, 0, &taken, NULL, n), WULE_NULL);
        IS(call.message_read(e, 0, NULL, n), 0);
        IS(call.link(e, 0, 0, &link, NULL, n), WULE_NULL);
        IS(call.link_source(e, 0, 0, NULL, n), WULE_NULL);
        IS(call.link_target(e, 0, 0, NULL, n), WULE_NULL);
        IS(call.link_address(e, 0, 0, &address, NULL, n), WULE_NULL);
        IS(call.serve_step(e, &rule, NULL, n, &step), WULE_NULL);
        IS(call.serve_step(e, &bad, NULL, n, &step), WULE_NULL);
        IS(call.records(e, NULL, n), 0);
    }
    IS(IS_UNTOUCHED(fed) && IS_UNTOUCHED(taken) && IS_UNTOUCHED(link) && IS_UNTOUCHED(address) && IS_UNTOUCHED(step) && IS_UNTOUCHED(row), 1);
    IS(memcmp(e, &before, sizeof before), 0);
    IS(call.held(e), held);
    IS(call.has_output(e), waits);
}

/* The same of the calls on a spool; and NULL is no bytes, which are not whole. */
static void refuse_spools(void) {
    static const wule_spool_head segment;
    static const wule_spool_position at;
    wule_spool_head head;
    wule_spool_batch batch;
    wule_spool_entry entry;
    wule_spool_end end;
    wule_spool_floor floor;
    wule_spool_position position;
    size_t i;
    memset(&head, 0xee, sizeof head);
    memset(&batch, 0xee, sizeof batch);
    memset(&entry, 0xee, sizeof entry);
    memset(&end, 0xee, sizeof end);
    memset(&floor, 0xee, sizeof floor);
    memset(&position, 0xee, sizeof position);
    for (i = 0; i <= LENGTHS; i++) {
        size_t n = i < LENGTHS ? lengths[i] : 0;
        uint32_t code = n > 0 ? WULE_NULL : WULE_NOT_WHOLE;
        IS(call.spool_read_head(NULL, n, &head), code);
        IS(call.spool_batch_size(NULL, n), 0);
        IS(call.spool_read_batch(&segment, 1, NULL, n, &batch), code);
        IS(call.spool_read_entry(NULL, n, &entry), code);
        IS(call.spool_read_end(NULL, n, &end), code);
        IS(call.spool_read_floor(NULL, n, &floor), code);
        IS(call.spool_read_position(NULL, n, &position), code);
        IS(call.spool_write_position(&at, NULL, n), 0);
    }
    IS(IS_UNTOUCHED(head) && IS_UNTOUCHED(batch) && IS_UNTOUCHED(entry), 1);
    IS(IS_UNTOUCHED(end) && IS_UNTOUCHED(floor) && IS_UNTOUCHED(position), 1);
}

static void on_none(void) {
    static const wule_settings settings = WULE_SETTINGS_INIT;
    static const wule_rule rule = {16, 15, WULE_ACCEPTED};
    wule_endpoint e = WULE_ENDPOINT_INIT;
    wule_fed fed;
    wule_taken taken;
    wule_link_state link;
    wule_address address;
    wule_step step;
    uint32_t n = 7;
    refuse(&e);
    IS(call.version(), WULE_VERSION);
    IS(call.feed(&e, NULL, 0, &fed), WULE_NO_ENDPOINT);
    IS(call.output(&e, NULL, 0), 0);
    IS(call.has_output(&e), 0);
    IS(call.close(&e, &n), WULE_NO_ENDPOINT);
    IS(call.heartbeat(&e), WULE_NO_ENDPOINT);
    IS(call.finish(&e, NULL), 0);
    IS(call.is_over(&e), 1);
    IS(call.grant(&e, 0, 0, 1), WULE_NO_ENDPOINT);
    IS(call.widen(&e, 0, 1), WULE_NO_ENDPOINT);
    IS(call.drain(&e, 0, 0), WULE_NO_ENDPOINT);
    IS(call.settle(&e, 0, 0, WULE_ACCEPTED), WULE_NO_ENDPOINT);
    IS(call.settle_range(&e, 0, 0, 0, WULE_ACCEPTED, &n), WULE_NO_ENDPOINT);
    IS(call.detach(&e, 0, 0, &n), WULE_NO_ENDPOINT);
    IS(call.refuse(&e, 0, 0, NULL, NULL, &n), WULE_NO_ENDPOINT);
    IS(call.settle_with(&e, 0, 0, NULL, NULL), WULE_NO_ENDPOINT);
    IS(call.settle_range_with(&e, 0, 0, 0, NULL, NULL, &n), WULE_NO_ENDPOINT);
    IS(call.close_with(&e, NULL, NULL, &n), WULE_NO_ENDPOINT);
    IS(call.top_up(&e, 0, 1, 1), WULE_NO_ENDPOINT);
    IS(call.take(&e, 0, 0, &taken, NULL, 0), WULE_NO_ENDPOINT);
    IS(call.message_read(&e, 0, NULL, 0), 0);
    call.message_drop(&e);
    IS(call.held(&e), 0);
    IS(call.window(&e, 0, &n), WULE_NO_ENDPOINT);
    IS(call.link(&e, 0, 0, &link, NULL, 0), WULE_NO_ENDPOINT);
    IS(call.link_source(&e, 0, 0, NULL, 0), WULE_NO_ENDPOINT);
    IS(call.link_target(&e, 0, 0, NULL, 0), WULE_NO_ENDPOINT);
    IS(call.link_address(&e, 0, 0, &address, NULL, 0), WULE_NO_ENDPOINT);
    IS(call.first_lacking(&e, 0, 0, 1, &n), WULE_NO_ENDPOINT);
    IS(call.serve_step(&e, &rule, NULL, 0, &step), WULE_NO_ENDPOINT);
    IS(call.records(&e, NULL, 0), 0);
    IS(call.open(&e, &settings, NULL, 0, NULL, 0, NULL), WULE_BAD_SETTINGS);
    IS(n, 7);
    call.free(&e);
}

/* A session by calls, up to its first message, which is taken with no room at all. */
static void by_calls(void) {
    static const wule_settings settings = WULE_SETTINGS_INIT;
    static uint8_t room[1 << 16];
    wule_endpoint e = WULE_ENDPOINT_INIT;
    wule_fed fed = {0, 0, 0, 0, 0, 0, 0, 0, 0};
    wule_taken taken;
    wule_link_state link;
    wule_address address;
    uint32_t n = 7;
    size_t at = 0, len = 0;
    IS(call.open(&e, &settings, "x", 1, NULL, 0, NULL), WULE_OK);
    refuse(&e);
    while (at < size && fed.event != WULE_READY) {
        IS(call.feed(&e, file + at, size - at, &fed), WULE_OK);
        at += (size_t)fed.used;
        if (fed.event == WULE_ATTACHED) IS(call.top_up(&e, fed.channel, 16, 2048), WULE_OK);
        if (fed.event != WULE_READY) len += call.output(&e, room, sizeof room);
    }
    IS(fed.event, WULE_READY);
    IS(len > 0, 1);
    IS(call.grant(&e, fed.channel, fed.handle, 0), WULE_OK); /* which writes a frame */
    IS(call.has_output(&e), 1);
    refuse(&e);
    IS(call.output(&e, NULL, 0), 0);
    IS(call.has_output(&e), 1);
    IS(call.output(&e, room, sizeof room) > 0, 1);
    IS(call.link(&e, fed.channel, fed.handle, &link, NULL, 0), WULE_OK);
    IS(link.ready, 1);
    IS(call.link_source(&e, fed.channel, fed.handle, NULL, 0), WULE_OK);
    IS(call.link_target(&e, fed.channel, fed.handle, NULL, 0), WULE_OK);
    IS(call.link_address(&e, fed.channel, fed.handle, &address, NULL, 0), WULE_OK);
    memset(&taken, 0xee, sizeof taken);
    IS(call.take(&e, fed.channel, fed.handle, &taken, NULL, 0), WULE_OK);
    IS(taken.tag_len <= sizeof taken.tag, 1);
    IS(is_all(taken.tag + taken.tag_len, sizeof taken.tag - taken.tag_len, 0), 1);
    refuse(&e);
    IS(call.message_read(&e, 0, NULL, 0), 0);
    IS(call.message_read(&e, 0, room, sizeof room), taken.len);
    IS(call.settle_with(&e, fed.channel, taken.id, NULL, NULL), WULE_BAD_ERROR); /* no condition is an empty one */
    IS(call.settle_range_with(&e, fed.channel, taken.id, taken.id, NULL, "text", &n), WULE_BAD_ERROR);
    IS(call.refuse(&e, fed.channel, fed.handle, NULL, "text", &n), WULE_BAD_ERROR);
    IS(call.close_with(&e, NULL, NULL, &n), WULE_BAD_ERROR);
    IS(n, 7);
    IS(call.settle_with(&e, fed.channel, taken.id, "a:b", NULL), WULE_OK);
    IS(call.refuse(&e, fed.channel, fed.handle, "a:b", NULL, &n), WULE_OK);
    IS(call.output(&e, room, sizeof room) > 0, 1);
    IS(call.feed(&e, NULL, 0, &fed), WULE_OK);
    IS(fed.used, 0);
    IS(call.finish(&e, NULL) != 0, 1);
    call.free(&e);
}

/* A session by steps, up to its first record. */
static void by_steps(void) {
    static const wule_settings settings = WULE_SETTINGS_INIT;
    static const wule_rule rule = {16, 15, WULE_ACCEPTED};
    static uint8_t room[1 << 16];
    wule_endpoint e = WULE_ENDPOINT_INIT;
    wule_step step = {{0, 0, 0, 0, 0, 0, 0, 0, 0}, 0, 0, 0, 0, 0, 0, 0, 0};
    size_t at = 0, n = 0;
    IS(call.open(&e, &settings, "x", 1, NULL, 0, NULL), WULE_OK);
    IS(call.serve_step(&e, &rule, NULL, 0, &step), WULE_OK);
    while (call.output(&e, room, sizeof room) > 0) {
    }
    while (at < size && n == 0) {
        IS(call.serve_step(&e, &rule, file + at, size - at, &step), WULE_OK);
        at += (size_t)step.fed.used;
        refuse(&e);
        IS(call.records(&e, NULL, 0), 0);
        n = call.records(&e, room, sizeof room);
        while (call.output(&e, room, sizeof room) > 0) {
        }
    }
    IS(n, 18 + step.len);
    call.free(&e);
}

int main(int argc, char **argv) {
    FILE *in = argc > 1 ? fopen(argv[1], "rb") : NULL;
    if (!in) return 2;
    size = fread(file, 1, sizeof file, in);
    fclose(in);
#ifdef BY_NAME
    {
        void *library = argc > 2 ? dlopen(argv[2], RTLD_NOW) : NULL, *found;
        if (!library) return 2;
#define FIND(name)                                                            \
    if (!(found = dlsym(library, "wule_" #name))) return puts("no " #name), 2; \
    memcpy(&call.name, &found, sizeof found);
        EACH(FIND)
    }
#else
#define TAKE(name) call.name = wule_##name;
    EACH(TAKE)
#endif
    on_none();
    refuse_spools();
    by_calls();
    by_steps();
    printf("nulls: %s\n", failures ? "failed" : "ok");
    return failures != 0;
}
