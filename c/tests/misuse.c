/* Each call on a handle that holds no endpoint, settings and limits that are refused, credit beside unsettled deliveries, words of errors,
 * bytes of a spool that are cut or changed, and a whole session, by calls and by steps, in which each request for memory is refused in turn.   misuse FILE
 * It is linked with --wrap=malloc,--wrap=realloc,--wrap=free, and run under valgrind and AddressSanitizer too. */
#include "wuleshomia.h"
#include <stdio.h>
#include <stdlib.h>
#include <string.h>

static int failures;

#define IS(got, wanted)                                                                                      \
    do {                                                                                                     \
        unsigned long long got_ = (unsigned long long)(got), wanted_ = (unsigned long long)(wanted);         \
        if (got_ != wanted_) printf("line %d: %s is %llu, not %llu\n", __LINE__, #got, got_, wanted_), failures++; \
    } while (0)

/* ---- memory, of which one request is refused */

static long until_refusal = -1; /* so many requests are granted before one is refused; below 0: all are */
static long blocks;

void *__real_malloc(size_t size);
void *__real_realloc(void *at, size_t size);
void __real_free(void *at);
void *__wrap_malloc(size_t size);
void *__wrap_realloc(void *at, size_t size);
void __wrap_free(void *at);

static int is_refused(void) { return until_refusal >= 0 && until_refusal-- == 0; }

void *__wrap_malloc(size_t size) {
    void *at = is_refused() ? NULL : __real_malloc(size);
    if (at) blocks++;
    return at;
}

void *__wrap_realloc(void *at, size_t size) {
    void *new_at = is_refused() ? NULL : __real_realloc(at, size);
    if (new_at && !at) blocks++;
    return new_at;
}

void __wrap_free(void *at) {
    if (at) blocks--;
    __real_free(at);
}

/* ---- no endpoint */

static void ask_none(void) {
    wule_endpoint e = WULE_ENDPOINT_INIT;
    wule_rule rule = {1, 0, WULE_ACCEPTED};
    wule_fed fed;
    wule_taken taken;
    wule_link_state link;
    wule_address address;
    wule_step step;
    uint8_t room[8] = {1, 1, 1, 1, 1, 1, 1, 1};
    uint64_t inside = 7;
    uint32_t n = 7;
    IS(wule_version(), WULE_VERSION);
    IS(wule_feed(&e, room, 8, &fed), WULE_NO_ENDPOINT);
    IS(wule_feed(&e, NULL, 0, &fed), WULE_NO_ENDPOINT);
    IS(wule_output(&e, room, 8), 0);
    IS(wule_has_output(&e), 0);
    IS(wule_close(&e, &n), WULE_NO_ENDPOINT);
    IS(wule_heartbeat(&e), WULE_NO_ENDPOINT);
    IS(wule_finish(&e, &inside), 0);
    IS(wule_is_over(&e), 1);
    IS(wule_grant(&e, 0, 0, 1), WULE_NO_ENDPOINT);
    IS(wule_widen(&e, 0, 1), WULE_NO_ENDPOINT);
    IS(wule_drain(&e, 0, 0), WULE_NO_ENDPOINT);
    IS(wule_settle(&e, 0, 0, WULE_ACCEPTED), WULE_NO_ENDPOINT);
    IS(wule_settle(&e, 0, 0, 7), WULE_BAD_OUTCOME);
    IS(wule_settle_range(&e, 0, 0, 0, WULE_ACCEPTED, &n), WULE_NO_ENDPOINT);
    IS(wule_settle_range(&e, 0, 0, 0, 0xffffffff, &n), WULE_BAD_OUTCOME);
    IS(wule_detach(&e, 0, 0, &n), WULE_NO_ENDPOINT);
    IS(wule_refuse(&e, 0, 0, "a:b", "text", &n), WULE_NO_ENDPOINT);
    IS(wule_settle_with(&e, 0, 0, "", NULL), WULE_NO_ENDPOINT);
    IS(wule_settle_range_with(&e, 0, 0, 0, NULL, "text", &n), WULE_NO_ENDPOINT);
    IS(wule_close_with(&e, "a:b", NULL, &n), WULE_NO_ENDPOINT);
    IS(wule_take(&e, 0, 0, &taken, room, 8), WULE_NO_ENDPOINT);
    IS(wule_message_read(&e, 0, room, 8), 0);
    wule_message_drop(&e);
    IS(wule_held(&e), 0);
    IS(wule_window(&e, 0, &n), WULE_NO_ENDPOINT);
    IS(wule_link(&e, 0, 0, &link, room, 8), WULE_NO_ENDPOINT);
    IS(wule_link_source(&e, 0, 0, room, 8), WULE_NO_ENDPOINT);
    IS(wule_link_target(&e, 0, 0, room, 8), WULE_NO_ENDPOINT);
    IS(wule_link_address(&e, 0, 0, &address, room, 8), WULE_NO_ENDPOINT);
    IS(wule_first_lacking(&e, 0, 0, 1, &n), WULE_NO_ENDPOINT);
    IS(wule_serve_step(&e, &rule, room, 8, &step), WULE_NO_ENDPOINT);
    IS(wule_records(&e, room, 8), 0);
    IS(wule_top_up(&e, 0, 1, 1), WULE_NO_ENDPOINT);
    wule_free(&e);
    IS(n, 7);
    IS(inside, 7);
    IS(room[0] + room[7], 2);
}

static void open_badly(void) {
    wule_endpoint e = WULE_ENDPOINT_INIT;
    wule_settings fine = WULE_SETTINGS_INIT, wrong = WULE_SETTINGS_INIT;
    wule_limit rows[17];
    size_t row = 99, i;
    memset(rows, 0, sizeof rows);
    for (i = 0; i < 17; i++) rows[i].allowed = rows[i].max_message = rows[i].prefix_len = 1, rows[i].prefix[0] = (uint8_t)i;
    wrong.max_frame = 511;
    IS(wule_open(&e, &wrong, "x", 1, NULL, 0, NULL), WULE_BAD_SETTINGS);
    IS(wule_open(&e, &fine, NULL, 0, NULL, 0, NULL), WULE_BAD_SETTINGS);
    IS(wule_open(&e, &fine, "\xff", 1, NULL, 0, NULL), WULE_BAD_SETTINGS);
    IS(wule_open(&e, &fine, "x", 1, rows, 17, NULL), WULE_TOO_MANY_LIMITS);
    rows[3].prefix_len = 0xffffffff;
    IS(wule_open(&e, &fine, "x", 1, rows, 16, &row), WULE_BAD_LIMIT);
    IS(row, 3);
    rows[3].prefix_len = 1, rows[3].prefix[0] = 2;
    IS(wule_open(&e, &fine, "x", 1, rows, 16, &row), WULE_SAME_PREFIX);
    IS(row, 3);
    rows[3].prefix[0] = 3;
    IS(wule_open(&e, &fine, "x", 1, rows, 16, &row), WULE_OK);
    IS(wule_open(&e, &fine, "x", 1, NULL, 0, NULL), WULE_IN_USE);
    wule_free(&e);
    wule_free(&e);
}

static void ask_wildly(void) {
    static const uint32_t wild[] = {0, 1, 255, 256, 65535, 65536, 0x7fffffff, 0x80000000, 0xffffffff};
    wule_endpoint e = WULE_ENDPOINT_INIT, moved;
    wule_settings settings = WULE_SETTINGS_INIT;
    wule_fed fed;
    wule_taken taken;
    uint8_t room[8];
    uint32_t n;
    size_t i, j;
    if (wule_open(&e, &settings, "x", 1, NULL, 0, NULL) != WULE_OK) failures++;
    for (i = 0; i < sizeof wild / sizeof *wild; i++)
        for (j = 0; j < sizeof wild / sizeof *wild; j++) {
            uint32_t a = wild[i], b = wild[j];
            IS(wule_grant(&e, a, b, b), WULE_NO_SESSION);
            IS(wule_widen(&e, a, b), WULE_NO_SESSION);
            IS(wule_drain(&e, a, b), WULE_NO_SESSION);
            IS(wule_settle(&e, a, b, WULE_MODIFIED_FAILED_UNDELIVERABLE), WULE_NO_SESSION);
            IS(wule_settle_range(&e, a, b, a, WULE_RELEASED, &n), WULE_NO_SESSION);
            IS(wule_detach(&e, a, b, &n), WULE_NO_SESSION);
            IS(wule_refuse(&e, a, b, "a:b", NULL, &n), WULE_NO_SESSION);
            IS(wule_settle_with(&e, a, b, "a:b", NULL), WULE_NO_SESSION);
            IS(wule_settle_range_with(&e, a, b, a, "a:b", NULL, &n), WULE_NO_SESSION);
            IS(wule_take(&e, a, b, &taken, NULL, 0), WULE_NO_SESSION);
            IS(wule_window(&e, a, &n), WULE_NO_SESSION);
            IS(wule_link_source(&e, a, b, NULL, 0), WULE_NO_LINK);
            IS(wule_first_lacking(&e, a, b, a, &n), WULE_NO_LINK);
            IS(wule_message_read(&e, (size_t)-1, room, sizeof room), 0);
        }
    IS(wule_heartbeat(&e), WULE_NOT_OPEN);
    IS(wule_close_with(&e, "", NULL, &n), WULE_NOT_OPEN);
    IS(wule_feed(&e, (const uint8_t *)"AMQP\0\1\0\0", 8, &fed), WULE_OK);
    IS(fed.outcome, WULE_MORE);
    IS(wule_held(&e), 8);
    IS(wule_output(&e, NULL, 0), 0);
    IS(wule_output(&e, room, 8), 8);
    moved = e; /* the old place is not used again */
    IS(wule_feed(&moved, (const uint8_t *)"GET / HTTP", 10, &fed), WULE_OK);
    IS(fed.event, WULE_FAILED);
    IS(fed.scope, WULE_CONNECTION);
    IS(wule_feed(&moved, room, 8, &fed), WULE_OK);
    IS(fed.outcome, WULE_DEAD);
    IS(fed.used, 0);
    IS(wule_finish(&moved, NULL), WULE_END_FAILED);
    wule_free(&moved);
}

/* ---- credit beside deliveries that are not settled */

/* Feeds frames of one link, and takes what is ready; settles nothing. */
static void feed_all(wule_endpoint *e, const uint8_t *bytes, size_t len) {
    uint8_t room[64];
    wule_fed fed;
    wule_taken taken;
    size_t at = 0;
    do {
        IS(wule_feed(e, bytes + at, len - at, &fed), WULE_OK);
        at += (size_t)fed.used;
        memset(&taken, 0xff, sizeof taken);
        if (fed.event == WULE_READY) {
            IS(wule_take(e, fed.channel, fed.handle, &taken, room, sizeof room), WULE_OK);
            IS(taken.tag_len, 1);
            while (taken.tag_len < sizeof taken.tag) IS(taken.tag[taken.tag_len++], 0);
        }
        while (wule_output(e, room, sizeof room) > 0) {
        }
    } while (at < len && fed.outcome != WULE_DEAD);
    IS(at, len);
}

static uint32_t credit_of(wule_endpoint *e) {
    wule_link_state link;
    IS(wule_link(e, 0, 0, &link, NULL, 0), WULE_OK);
    return link.credit;
}

/* The endpoint has one link, with credit for 16 messages. */
static void open_link(wule_endpoint *e, uint32_t allowed) {
    static const uint8_t head[] = "AMQP\0\1\0\0"
                                  "\0\0\0\x11\2\0\0\0\0\x53\x10\xc0\4\1\xa1\1p"
                                  "\0\0\0\x14\2\0\0\0\0\x53\x11\xc0\7\4\x40\x43\x52\x7f\x52\x7f"
                                  "\0\0\0\x20\2\0\0\0\0\x53\x12\xc0\x13\x0a\xa1\1l\x43\x42\x40\x40\0\x53\x28\x45\0\x53\x29\x45\x40\x40\x43";
    wule_settings settings = WULE_SETTINGS_INIT;
    settings.allowed = allowed;
    IS(wule_open(e, &settings, "x", 1, NULL, 0, NULL), WULE_OK);
    feed_all(e, head, sizeof head - 1);
    IS(wule_top_up(e, 0, 16, 2048), WULE_OK);
    IS(credit_of(e), 16);
}

/* A delivery with this id and this tag comes on it. */
static void deliver(wule_endpoint *e, int id) {
    uint8_t transfer[] = "\0\0\0\x1c\2\0\0\0\0\x53\x14\xc0\x09\5\x43\x52i\xa0\1t\x43\x42\0\x53\x77\xa1\1x";
    transfer[16] = transfer[19] = (uint8_t)id;
    feed_all(e, transfer, sizeof transfer - 1);
}

/* A link is topped up to 16, has `sent` deliveries that are taken and not settled, and is topped up again: what its credit is then. */
static uint32_t topped_up(uint32_t allowed, int sent) {
    wule_endpoint e = WULE_ENDPOINT_INIT;
    wule_link_state link;
    uint32_t credit;
    int i;
    open_link(&e, allowed);
    for (i = 0; i < sent; i++) deliver(&e, i);
    IS(wule_link(&e, 0, 0, &link, NULL, 0), WULE_OK);
    IS(link.credit, 16 - sent);
    IS(link.opened, sent);
    IS(wule_top_up(&e, 0, 16, 2048), WULE_OK);
    credit = credit_of(&e);
    IS(wule_top_up(&e, 0, 16, 2048), WULE_OK);
    wule_free(&e);
    return credit;
}

static void top_up_beside_unsettled(void) {
    IS(topped_up(1024, 10), 16); /* 10 more */
    IS(topped_up(1024, 8), 16);
    IS(topped_up(1024, 7), 9); /* 9 is more than half */
    IS(topped_up(20, 10), 10); /* 4 more, and 10 are open: no more than 20 */
    IS(topped_up(16, 10), 6);
}

/* What is told of a link whose attach has these `len` bytes for its target: `kind`, and an address of `wanted` bytes. */
static void target_tells(const char *target, size_t len, uint32_t kind, const char *name, uint32_t wanted) {
    static const uint8_t front[] = "AMQP\0\1\0\0"
                                   "\0\0\0\x11\2\0\0\0\0\x53\x10\xc0\4\1\xa1\1p"
                                   "\0\0\0\x14\2\0\0\0\0\x53\x11\xc0\7\4\x40\x43\x52\x7f\x52\x7f";
    uint8_t head[128] = "\0\0\0\x1c\2\0\0\0\0\x53\x12\xc0\x0f\x0a\xa1\1l\x43\x42\x40\x40\0\x53\x28\x45", room[] = "....";
    static const uint8_t rest[] = {0x40, 0x40, 0x43};
    wule_endpoint e = WULE_ENDPOINT_INIT;
    wule_settings settings = WULE_SETTINGS_INIT;
    wule_address address;
    head[3] = (uint8_t)(28 + len);
    head[12] = (uint8_t)(15 + len);
    memcpy(head + 25, target, len);
    memcpy(head + 25 + len, rest, sizeof rest);
    IS(wule_open(&e, &settings, "x", 1, NULL, 0, NULL), WULE_OK);
    feed_all(&e, front, sizeof front - 1);
    feed_all(&e, head, 28 + len);
    IS(wule_link_address(&e, 0, 0, &address, room, 3), WULE_OK);
    IS(address.kind, kind);
    IS(address.len, wanted);
    IS(memcmp(room, name, 4), 0);
    memset(room, '#', 4);
    address.kind = address.len = 9;
    IS(wule_link_address(&e, 0, 1, &address, room, 3), WULE_NO_LINK);
    IS(address.kind == 9 && address.len == 9, 1);
    IS(memcmp(room, "####", 4), 0);
    wule_free(&e);
}

static void targets_tell(void) {
    target_tells("\0\x53\x29\xc0\4\1\xa1\1q", 9, WULE_ADDRESS_NAMED, "q...", 1);
    target_tells("\0\x53\x29\xc0\7\1\xa1\4abcd", 12, WULE_ADDRESS_NAMED, "abc.", 4);
    target_tells("\0\x53\x29\xc0\6\5\x40\x40\x40\x40\x41", 11, WULE_ADDRESS_DYNAMIC, "....", 0);
    target_tells("\0\x53\x29\x45", 4, WULE_ADDRESS_ABSENT, "....", 0);
    target_tells("\x40", 1, WULE_ADDRESS_NO_TARGET, "....", 0);
    target_tells("\0\x53\x29\xc0\4\1\xa3\1q", 9, WULE_ADDRESS_OTHER, "....", 0);
}

/* ---- the application's own words: the frames were written by hand, from the standard [2.7.6, 2.7.7, 2.7.9, 2.8.14, 3.4.3] */

static void writes(wule_endpoint *e, const char *wanted, size_t len) {
    uint8_t room[512];
    size_t n = wule_output(e, room, sizeof room);
    IS(n, len);
    IS(n == len && memcmp(room, wanted, len) == 0, 1);
}

#define WRITES(e, wanted) writes(e, wanted, sizeof wanted - 1)

/* All four calls are refused, and change nothing. */
static void words_are_refused(wule_endpoint *e, const char *condition, const char *text, uint32_t code) {
    uint64_t held = wule_held(e);
    uint32_t waits = wule_has_output(e), n = 7;
    IS(wule_refuse(e, 0, 0, condition, text, &n), code);
    IS(wule_settle_with(e, 0, 0, condition, text), code);
    IS(wule_settle_range_with(e, 0, 0, 2, condition, text, &n), code);
    IS(wule_close_with(e, condition, text, &n), code);
    IS(n, 7);
    IS(wule_held(e), held);
    IS(wule_has_output(e), waits);
}

static void say_why(void) {
    static char most_symbol[66], most_text[257], wanted[358];
    wule_endpoint e = WULE_ENDPOINT_INIT;
    char *unended = malloc(256);
    uint32_t n = 7;
    int i;
    memset(most_symbol, 'c', 65), memset(most_text, 't', 256);
    open_link(&e, 16);
    for (i = 0; i < 3; i++) deliver(&e, i);
    while (wule_output(&e, (uint8_t *)wanted, sizeof wanted) > 0) {
    }
    words_are_refused(&e, "", NULL, WULE_BAD_ERROR);
    words_are_refused(&e, NULL, NULL, WULE_BAD_ERROR);
    words_are_refused(&e, NULL, "text", WULE_BAD_ERROR);
    words_are_refused(&e, "a\tb", "text", WULE_BAD_ERROR);
    words_are_refused(&e, "a\x7f", "text", WULE_BAD_ERROR);
    words_are_refused(&e, "\xc3\xa9", "text", WULE_BAD_ERROR);
    words_are_refused(&e, most_symbol, "text", WULE_BAD_ERROR);
    words_are_refused(&e, "a:b", most_text, WULE_BAD_ERROR);
    words_are_refused(&e, "a:b", "\xff", WULE_BAD_ERROR);
    words_are_refused(&e, "a:b", "\xc3", WULE_BAD_ERROR);
    if (!unended) exit(2);
    memset(unended, 'u', 256);
    words_are_refused(&e, unended, "text", WULE_BAD_ERROR); /* no byte after these is read */
    words_are_refused(&e, "a:b", unended, WULE_BAD_ERROR);
    free(unended);
    IS(wule_refuse(&e, 1, 0, "", NULL, &n), WULE_NO_SESSION); /* what is so besides comes first */
    IS(wule_refuse(&e, 0, 1, "", NULL, &n), WULE_NO_LINK);
    IS(wule_settle_with(&e, 0, 9, "", NULL), WULE_NO_DELIVERY);
    IS(wule_settle_range_with(&e, 0, 2, 1, "", NULL, &n), WULE_NO_DELIVERY);
    IS(n, 7);
    IS(wule_settle_with(&e, 0, 0, "amqp:decode-error", "no \xc3\xa9"), WULE_OK);
    WRITES(&e, "\0\0\0\x38\2\0\0\0\0\x53\x15\xc0\x2b\5\x41\x43\x40\x41\0\x53\x25\xc0\x21\1\0\x53\x1d\xc0\x1b\2\xa3\x11" "amqp:decode-error"
               "\xa1\5no \xc3\xa9");
    IS(wule_settle_with(&e, 0, 0, "amqp:decode-error", NULL), WULE_NO_DELIVERY);
    IS(wule_settle_range_with(&e, 0, 1, 2, WULE_SYMBOL_DECODE_ERROR, NULL, &n), WULE_OK);
    IS(n, 2);
    WRITES(&e, "\0\0\0\x33\2\0\0\0\0\x53\x15\xc0\x26\5\x41\x52\1\x52\2\x41\0\x53\x25\xc0\x1a\1\0\x53\x1d\xc0\x14\1\xa3\x11"
               "amqp:decode-error");
    IS(wule_refuse(&e, 0, 0, WULE_SYMBOL_NOT_FOUND, "no such queue", &n), WULE_OK);
    IS(n, 0);
    WRITES(&e, "\0\0\0\x35\2\0\0\0\0\x53\x16\xc0\x28\3\x43\x41\0\x53\x1d\xc0\x20\2\xa3\x0e" "amqp:not-found" "\xa1\x0dno such queue");
    IS(wule_refuse(&e, 0, 0, WULE_SYMBOL_NOT_FOUND, NULL, &n), WULE_NO_LINK);
    IS(wule_close_with(&e, WULE_SYMBOL_CONNECTION_FORCED, "going down", &n), WULE_OK);
    IS(n, 0);
    WRITES(&e, "\0\0\0\x38\2\0\0\0\0\x53\x18\xc0\x2b\1\0\x53\x1d\xc0\x25\2\xa3\x16" "amqp:connection:forced" "\xa1\x0agoing down");
    words_are_refused(&e, "a:b", "text", WULE_CONNECTION_OVER);
    words_are_refused(&e, "", NULL, WULE_CONNECTION_OVER);
    wule_free(&e);
    words_are_refused(&e, "", NULL, WULE_NO_ENDPOINT);

    open_link(&e, 16); /* the most that may be said; an empty text, which is not left out */
    most_symbol[64] = most_text[255] = 0;
    while (wule_output(&e, (uint8_t *)wanted, sizeof wanted) > 0) {
    }
    IS(wule_refuse(&e, 0, 0, most_symbol, most_text, &n), WULE_OK);
    memcpy(wanted, "\0\0\1\x65\2\0\0\0\0\x53\x16\xd0\0\0\1\x55\0\0\0\3\x43\x41\0\x53\x1d\xd0\0\0\1\x47\0\0\0\2\xa3\x40", 36);
    memcpy(wanted + 36, most_symbol, 64), memcpy(wanted + 100, "\xa1\xff", 2), memcpy(wanted + 102, most_text, 255);
    writes(&e, wanted, 357);
    IS(wule_close_with(&e, "x", "", &n), WULE_OK);
    WRITES(&e, "\0\0\0\x19\2\0\0\0\0\x53\x18\xc0\x0c\1\0\x53\x1d\xc0\6\2\xa3\1x\xa1\0");
    wule_free(&e);

    open_link(&e, 16); /* no room for an answer: the words are looked at first */
    deliver(&e, 0), deliver(&e, 1), deliver(&e, 2);
    while (wule_grant(&e, 0, 0, 0) == WULE_OK) {
    }
    words_are_refused(&e, "", NULL, WULE_BAD_ERROR);
    words_are_refused(&e, "a:b", NULL, WULE_FULL);
    wule_free(&e);
}

/* ---- spools: bytes that a model in Python wrote, in hex; see crates/test_spool_records/data/spools.rows */

static const char segment_hex[] =
    "616d71707370310a000102030405060708090a0b0c0d0e0f10171e252c333a41484f565d646b727900000000000000010000000000000000"
    "000000000000000000000000000000036955cbc9ed543605000000590000000100000000000000010000018bcfe5680174df3db04f780898"
    "010000000100000000000000010e31302e302e302e373a35303731340673686f702d370b6f72646572732d6c696e6b000000066f72646572"
    "73020000000100000000000000000000000000000000000008005375a0036f6e65";
static const char end_hex[] =
    "000102030405060708090a0b0c0d0e0f0000000000000008b7f88efdbf11693100000000000001d7000000000000000de3d5ebba2bbb62c3";
static const char floor_hex[] =
    "000102030405060708090a0b0c0d0e0f000000000000000500000000000000003afd8bf62192a7bb";
static const char position_text[] = "000102030405060708090a0bfcfdfeff 00000000000000010203 249151b3040c1ce6\n";

static size_t of_hex(const char *hex, uint8_t *bytes) {
    size_t n = 0;
    unsigned byte;
    for (; sscanf(hex + 2 * n, "%2x", &byte) == 1; n++) bytes[n] = (uint8_t)byte;
    return n;
}

/* A copy that has not a byte more, so that one that is read after it is seen. */
static uint8_t *copied(const uint8_t *bytes, size_t len) {
    uint8_t *copy = malloc(len > 0 ? len : 1);
    if (!copy) exit(2);
    memcpy(copy, bytes, len);
    return copy;
}

static wule_spool_head segment_head;
static union {
    wule_spool_head head;
    wule_spool_batch batch;
    wule_spool_entry entry;
    wule_spool_end end;
    wule_spool_floor floor;
    wule_spool_position position;
} told;

static uint32_t read_head(const uint8_t *bytes, size_t len) { return wule_spool_read_head(bytes, len, &told.head); }
static uint32_t read_batch(const uint8_t *bytes, size_t len) { return wule_spool_read_batch(&segment_head, 1, bytes, len, &told.batch); }
static uint32_t read_entry(const uint8_t *bytes, size_t len) { return wule_spool_read_entry(bytes, len, &told.entry); }
static uint32_t read_end(const uint8_t *bytes, size_t len) { return wule_spool_read_end(bytes, len, &told.end); }
static uint32_t read_floor(const uint8_t *bytes, size_t len) { return wule_spool_read_floor(bytes, len, &told.floor); }
static uint32_t read_position(const uint8_t *bytes, size_t len) { return wule_spool_read_position(bytes, len, &told.position); }

static int is_untouched(void) {
    const uint8_t *at = (const uint8_t *)&told;
    size_t n = sizeof told;
    while (n > 0 && *at == 0xee) at++, n--;
    return n == 0;
}

/* It reads these bytes, but not with any bit changed, and not the front of any other length; of some it may be followed by more. */
static void reads_whole(uint32_t (*read)(const uint8_t *, size_t), const uint8_t *bytes, size_t len, int may_go_on) {
    size_t bit, n;
    for (n = 0; n < len; n++) {
        uint8_t *front = copied(bytes, n);
        memset(&told, 0xee, sizeof told);
        IS(read(front, n), WULE_NOT_WHOLE);
        IS(is_untouched(), 1);
        free(front);
    }
    for (bit = 0; bit < 8 * len; bit++) {
        uint8_t *other = copied(bytes, len);
        other[bit / 8] ^= (uint8_t)(1u << bit % 8);
        IS(read(other, len), WULE_NOT_WHOLE);
        IS(is_untouched(), 1);
        free(other);
    }
    {
        uint8_t longer[512] = {0};
        memcpy(longer, bytes, len);
        IS(read(longer, len + 1), may_go_on ? WULE_OK : WULE_NOT_WHOLE);
    }
    memset(&told, 0xee, sizeof told);
    IS(read(bytes, len), WULE_OK);
}

static int is_within(wule_part part, size_t len) { return part.at <= len && part.len <= len - part.at; }

static int is_part(const uint8_t *bytes, wule_part part, const char *text) {
    return part.len == strlen(text) && memcmp(bytes + part.at, text, (size_t)part.len) == 0;
}

/* Whatever the bytes are, the parts of an entry are within them. */
static void parts_are_within(const uint8_t *bytes, size_t len) {
    size_t bit, n;
    for (n = 0; n <= len; n++)
        for (bit = 0; bit < 8 * n; bit++) {
            uint8_t *other = copied(bytes, n);
            const wule_spool_entry *e = &told.entry;
            other[bit / 8] ^= (uint8_t)(1u << bit % 8);
            if (wule_spool_read_entry(other, n, &told.entry) == WULE_OK) {
                IS(e->len <= n && is_within(e->peer, n) && is_within(e->container, n) && is_within(e->name, n), 1);
                IS(is_within(e->user, n) && is_within(e->target, n) && is_within(e->tag, n) && is_within(e->record, n), 1);
            }
            free(other);
        }
}

static void read_a_segment(void) {
    static const wule_part nothing = {0, 0};
    uint8_t bytes[256], *body;
    size_t len = of_hex(segment_hex, bytes), first, i;
    IS(len, 201);
    reads_whole(read_head, bytes, WULE_SPOOL_HEAD, 1);
    segment_head = told.head;
    for (i = 0; i < 16; i++) IS(segment_head.spool[i], i);
    IS(memcmp(segment_head.secret, bytes + 24, 16), 0);
    IS(segment_head.first == 1 && segment_head.before == 0 && segment_head.counted == 0 && segment_head.life == 3, 1);
    IS(segment_head.sum, 0x6955cbc9ed543605u);
    IS(wule_spool_batch_size(bytes + 80, 31), 0);
    IS(wule_spool_batch_size(bytes + 80, 32), 121);
    reads_whole(read_batch, bytes + 80, 121, 1);
    IS(told.batch.len == 121 && told.batch.first == 1 && told.batch.arrived == 1700000000001u, 1);
    IS(told.batch.count == 1 && told.batch.reserved == 0, 1);
    IS(wule_spool_read_batch(&segment_head, 2, bytes + 80, 121, &told.batch), WULE_NOT_WHOLE);
    segment_head.secret[0] ^= 1;
    IS(wule_spool_read_batch(&segment_head, 1, bytes + 80, 121, &told.batch), WULE_NOT_WHOLE);
    body = bytes + 112, len -= 112;
    IS(read_entry(body, len), WULE_OK);
    first = (size_t)told.entry.len;
    IS(told.entry.kind == WULE_SPOOL_INTRODUCTION && told.entry.link == 1 && told.entry.connection == 1, 1);
    IS(is_part(body, told.entry.peer, "10.0.0.7:50714") && is_part(body, told.entry.container, "shop-7"), 1);
    IS(is_part(body, told.entry.name, "orders-link") && is_part(body, told.entry.user, ""), 1);
    IS(is_part(body, told.entry.target, "orders"), 1);
    IS(told.entry.target_kind == WULE_SPOOL_ADDRESS && told.entry.reserved == 0, 1);
    IS(memcmp(&told.entry.tag, &nothing, sizeof nothing) == 0 && memcmp(&told.entry.record, &nothing, sizeof nothing) == 0, 1);
    for (i = 0; i < first; i++) IS(read_entry(body, i), WULE_NOT_WHOLE);
    parts_are_within(body, first);
    body += first, len -= first;
    IS(read_entry(body, len), WULE_OK);
    IS(told.entry.len, len);
    IS(told.entry.kind == WULE_SPOOL_RECORD && told.entry.link == 1 && told.entry.connection == 0 && told.entry.target_kind == 0, 1);
    IS(told.entry.tag.len, 0);
    IS(told.entry.record.at + told.entry.record.len, len);
    IS(memcmp(body + told.entry.record.at + WULE_SPOOL_RECORD_HEAD, "\0Su\xa0\3one", 8), 0);
    IS(memcmp(&told.entry.peer, &nothing, sizeof nothing) == 0 && memcmp(&told.entry.target, &nothing, sizeof nothing) == 0, 1);
    for (i = 0; i < len; i++) IS(read_entry(body, i), WULE_NOT_WHOLE);
    parts_are_within(body, len);
    IS(read_entry(body + len, 0), WULE_NOT_WHOLE);
}

static void read_the_small_files(void) {
    uint8_t bytes[64], room[72];
    size_t i;
    IS(of_hex(end_hex, bytes), WULE_SPOOL_END);
    reads_whole(read_end, bytes, WULE_SPOOL_END, 0);
    IS(memcmp(told.end.spool, bytes, 16), 0);
    IS(told.end.first == 8 && told.end.mark == 0xb7f88efdbf116931u && told.end.place == 471 && told.end.next == 13, 1);
    IS(of_hex(floor_hex, bytes), WULE_SPOOL_FLOOR);
    reads_whole(read_floor, bytes, WULE_SPOOL_FLOOR, 0);
    IS(memcmp(told.floor.spool, bytes, 16), 0);
    IS(told.floor.number == 5 && told.floor.dropped == 0, 1);
    reads_whole(read_position, (const uint8_t *)position_text, WULE_SPOOL_POSITION, 0);
    IS(told.position.spool[11] == 0x0b && told.position.spool[12] == 0xfc && told.position.number == 10203, 1);
    for (i = 0; i < sizeof room; i++) {
        memset(room, '#', sizeof room);
        IS(wule_spool_write_position(&told.position, room, i), i < WULE_SPOOL_POSITION ? 0 : WULE_SPOOL_POSITION);
        IS(memcmp(room, i < WULE_SPOOL_POSITION ? "#######" : position_text, 7) == 0 && room[WULE_SPOOL_POSITION] == '#', 1);
    }
    IS(memcmp(room, position_text, WULE_SPOOL_POSITION), 0);
}

/* ---- a session in which one request for memory is refused */

static uint8_t file[1 << 20];
static size_t size;

/* The FNV-1a hash of what was written and read, and of its number of bytes. */
struct seen {
    uint64_t hash;
    uint32_t lost;
};

static void see(struct seen *seen, const uint8_t *bytes, size_t n) {
    while (n-- > 0) seen->hash = (seen->hash ^ *bytes++) * 1099511628211u;
}

static int opened(wule_endpoint *e) {
    static const wule_settings settings = WULE_SETTINGS_INIT;
    static const wule_limit row = {16, 1024, 1, {'x'}};
    uint32_t code = wule_open(e, &settings, "receive", 7, &row, 1, NULL);
    if (code == WULE_NO_MEMORY) {
        IS(blocks, 0);
        code = wule_open(e, &settings, "receive", 7, &row, 1, NULL);
    }
    IS(code, WULE_OK);
    return code == WULE_OK;
}

static struct seen by_calls(void) {
    static uint8_t room[4096];
    struct seen seen = {14695981039346656037u, 0};
    wule_endpoint e = WULE_ENDPOINT_INIT;
    wule_fed fed = {0, 0, 0, 0, 0, 0, 0, 0, 0};
    wule_taken taken;
    size_t at = 0, n;
    if (!opened(&e)) return seen;
    while (at < size && fed.outcome != WULE_DEAD) {
        wule_feed(&e, file + at, size - at, &fed);
        at += (size_t)fed.used;
        if (fed.outcome == WULE_STARVED) wule_feed(&e, NULL, 0, &fed); /* again, and now it is had */
        if (fed.outcome == WULE_STARVED) failures++;
        if (fed.event == WULE_READY && wule_take(&e, fed.channel, fed.handle, &taken, room, sizeof room) == WULE_OK) {
            see(&seen, room, (size_t)taken.len);
            if (!taken.settled) IS(wule_settle(&e, fed.channel, taken.id, WULE_ACCEPTED), WULE_OK);
        }
        if (fed.event == WULE_ATTACHED || fed.event == WULE_READY) wule_top_up(&e, fed.channel, 16, 2048);
        while ((n = wule_output(&e, room, sizeof room)) > 0) see(&seen, room, n);
    }
    seen.hash += wule_finish(&e, NULL);
    wule_free(&e);
    return seen;
}

static struct seen by_steps(void) {
    static const wule_rule rule = {16, 8, WULE_ACCEPTED};
    uint8_t room[100];
    struct seen seen = {14695981039346656037u, 0};
    wule_endpoint e = WULE_ENDPOINT_INIT;
    wule_step step = {{0, 0, 0, 0, 0, 0, 0, 0, 0}, 0, 0, 0, 0, 0, 0, 0, 0};
    size_t at = 0, n;
    uint32_t code;
    if (!opened(&e)) return seen;
    while (at < size && step.fed.outcome != WULE_DEAD) {
        code = wule_serve_step(&e, &rule, file + at, size - at, &step);
        at += (size_t)step.fed.used;
        if (code == WULE_NO_MEMORY) code = wule_serve_step(&e, &rule, NULL, 0, &step);
        while ((n = wule_records(&e, room, sizeof room)) > 0) see(&seen, room, n);
        while ((n = wule_output(&e, room, sizeof room)) > 0) see(&seen, room, n);
        if (code != WULE_OK) {
            seen.lost = code;
            IS(wule_serve_step(&e, &rule, file + at, size - at, &step), code);
            break;
        }
    }
    seen.hash += wule_finish(&e, NULL);
    wule_free(&e);
    return seen;
}

static long refuse_each(struct seen (*session)(void), struct seen ample) {
    long refused = 0;
    for (;; refused++) {
        struct seen seen;
        until_refusal = refused;
        seen = session();
        IS(blocks, 0);
        if (until_refusal >= 0) break; /* it asked for fewer */
        if (seen.lost == 0) IS(seen.hash == ample.hash, 1);
        else IS(seen.lost == WULE_ANSWER_LOST || seen.lost == WULE_RECORD_LOST, 1);
    }
    until_refusal = -1;
    return refused;
}

int main(int argc, char **argv) {
    long calls, steps;
    FILE *in = argc > 1 ? fopen(argv[1], "rb") : NULL;
    if (!in) return 2;
    size = fread(file, 1, sizeof file, in);
    fclose(in);
    blocks = 0;
    ask_none();
    open_badly();
    ask_wildly();
    top_up_beside_unsettled();
    targets_tell();
    say_why();
    read_a_segment();
    read_the_small_files();
    IS(blocks, 0);
    calls = refuse_each(by_calls, by_calls());
    steps = refuse_each(by_steps, by_steps());
    printf("misuse: %s; %ld and %ld requests were refused\n", failures ? "failed" : "ok", calls, steps);
    return failures != 0;
}
