/* What calls.c hands on, to exports that only keep what they get: all that a host handed in, and never NULL; nothing, if a pointer is NULL
 * and its length is not 0. The proved archive couldn't tell, so that it is not linked. */
#include "wuleshomia.h"
#include <stdio.h>
#include <string.h>

static int failures, calls;

#define IS(is)                                                                    \
    do {                                                                          \
        if (!(is)) printf("line %d: %s is not so\n", __LINE__, #is), failures++;   \
    } while (0)

/* What the last call got: its pointers and its numbers, in order. */
static const void *pointers[5];
static size_t numbers[3];
static uint32_t places[3]; /* of a call with words: its channel, and what it names there */

static uint32_t keep(const void *a, const void *b, const void *c, const void *d, const void *e, size_t x, size_t y, size_t z) {
    pointers[0] = a, pointers[1] = b, pointers[2] = c, pointers[3] = d, pointers[4] = e;
    numbers[0] = x, numbers[1] = y, numbers[2] = z;
    calls++;
    return 77;
}

uint32_t wuleshomia_open(wule_endpoint *e, const wule_settings *settings, const char *container_id, size_t id_len,
                         const wule_limit *limits, size_t limit_count, size_t *row);
uint32_t wuleshomia_feed(wule_endpoint *e, const uint8_t *bytes, size_t len, wule_fed *fed);
size_t wuleshomia_output(wule_endpoint *e, uint8_t *room, size_t len);
uint32_t wuleshomia_finish(wule_endpoint *e, uint64_t *inside);
uint32_t wuleshomia_close_with(wule_endpoint *e, const char *condition, size_t condition_len, const char *description,
                               size_t description_len, uint32_t described, uint32_t *dropped);
uint32_t wuleshomia_settle_with(wule_endpoint *e, uint32_t channel, uint32_t id, const char *condition, size_t condition_len,
                                const char *description, size_t description_len, uint32_t described);
uint32_t wuleshomia_settle_range_with(wule_endpoint *e, uint32_t channel, uint32_t first, uint32_t last, const char *condition,
                                      size_t condition_len, const char *description, size_t description_len, uint32_t described,
                                      uint32_t *named);
uint32_t wuleshomia_refuse(wule_endpoint *e, uint32_t channel, uint32_t handle, const char *condition, size_t condition_len,
                           const char *description, size_t description_len, uint32_t described, uint32_t *dropped);
uint32_t wuleshomia_take(wule_endpoint *e, uint32_t channel, uint32_t handle, wule_taken *taken, uint8_t *room, size_t len);
size_t wuleshomia_message_read(wule_endpoint *e, size_t at, uint8_t *room, size_t len);
uint32_t wuleshomia_link(wule_endpoint *e, uint32_t channel, uint32_t handle, wule_link_state *link, uint8_t *name, size_t len);
uint32_t wuleshomia_link_source(wule_endpoint *e, uint32_t channel, uint32_t handle, uint8_t *room, size_t len);
uint32_t wuleshomia_link_target(wule_endpoint *e, uint32_t channel, uint32_t handle, uint8_t *room, size_t len);
uint32_t wuleshomia_link_address(wule_endpoint *e, uint32_t channel, uint32_t handle, wule_address *address, uint8_t *room, size_t len);
uint32_t wuleshomia_serve_step(wule_endpoint *e, const wule_rule *rule, const uint8_t *bytes, size_t len, wule_step *step);
size_t wuleshomia_records(wule_endpoint *e, uint8_t *room, size_t len);
uint32_t wuleshomia_spool_read_head(const uint8_t *bytes, size_t len, wule_spool_head *head);
uint64_t wuleshomia_spool_batch_size(const uint8_t *bytes, size_t len);
uint32_t wuleshomia_spool_read_batch(const wule_spool_head *head, uint64_t number, const uint8_t *bytes, size_t len,
                                     wule_spool_batch *batch);
uint32_t wuleshomia_spool_read_entry(const uint8_t *bytes, size_t len, wule_spool_entry *entry);
uint32_t wuleshomia_spool_read_end(const uint8_t *bytes, size_t len, wule_spool_end *end);
uint32_t wuleshomia_spool_read_floor(const uint8_t *bytes, size_t len, wule_spool_floor *floor);
uint32_t wuleshomia_spool_read_position(const uint8_t *bytes, size_t len, wule_spool_position *position);
size_t wuleshomia_spool_write_position(const wule_spool_position *position, uint8_t *room, size_t len);

uint32_t wuleshomia_open(wule_endpoint *e, const wule_settings *settings, const char *container_id, size_t id_len,
                         const wule_limit *limits, size_t limit_count, size_t *row) {
    *row = 5;
    return keep(e, settings, container_id, limits, row, id_len, limit_count, 0);
}
uint32_t wuleshomia_feed(wule_endpoint *e, const uint8_t *bytes, size_t len, wule_fed *fed) { return keep(e, bytes, fed, e, e, len, 1, 0); }
size_t wuleshomia_output(wule_endpoint *e, uint8_t *room, size_t len) { return keep(e, room, e, e, e, len, 2, 0); }
uint32_t wuleshomia_finish(wule_endpoint *e, uint64_t *inside) {
    *inside = 5;
    return keep(e, inside, e, e, e, 0, 3, 0);
}
static uint32_t place(uint32_t a, uint32_t b, uint32_t c) {
    places[0] = a, places[1] = b, places[2] = c;
    return 0;
}
uint32_t wuleshomia_close_with(wule_endpoint *e, const char *condition, size_t condition_len, const char *description,
                               size_t description_len, uint32_t described, uint32_t *dropped) {
    return place(0, 0, 0) + keep(e, condition, description, dropped, "close", condition_len, description_len, described);
}
uint32_t wuleshomia_settle_with(wule_endpoint *e, uint32_t channel, uint32_t id, const char *condition, size_t condition_len,
                                const char *description, size_t description_len, uint32_t described) {
    return place(channel, id, 0) + keep(e, condition, description, e, "settle", condition_len, description_len, described);
}
uint32_t wuleshomia_settle_range_with(wule_endpoint *e, uint32_t channel, uint32_t first, uint32_t last, const char *condition,
                                      size_t condition_len, const char *description, size_t description_len, uint32_t described,
                                      uint32_t *named) {
    return place(channel, first, last) + keep(e, condition, description, named, "range", condition_len, description_len, described);
}
uint32_t wuleshomia_refuse(wule_endpoint *e, uint32_t channel, uint32_t handle, const char *condition, size_t condition_len,
                           const char *description, size_t description_len, uint32_t described, uint32_t *dropped) {
    return place(channel, handle, 0) + keep(e, condition, description, dropped, "refuse", condition_len, description_len, described);
}
uint32_t wuleshomia_take(wule_endpoint *e, uint32_t channel, uint32_t handle, wule_taken *taken, uint8_t *room, size_t len) {
    return keep(e, room, taken, e, e, len, channel, handle);
}
size_t wuleshomia_message_read(wule_endpoint *e, size_t at, uint8_t *room, size_t len) { return keep(e, room, e, e, e, len, at, 4); }
uint32_t wuleshomia_link(wule_endpoint *e, uint32_t channel, uint32_t handle, wule_link_state *link, uint8_t *name, size_t len) {
    return keep(e, name, link, e, e, len, channel, handle);
}
uint32_t wuleshomia_link_source(wule_endpoint *e, uint32_t channel, uint32_t handle, uint8_t *room, size_t len) {
    return keep(e, room, "source", e, e, len, channel, handle);
}
uint32_t wuleshomia_link_target(wule_endpoint *e, uint32_t channel, uint32_t handle, uint8_t *room, size_t len) {
    return keep(e, room, "target", e, e, len, channel, handle);
}
uint32_t wuleshomia_link_address(wule_endpoint *e, uint32_t channel, uint32_t handle, wule_address *address, uint8_t *room, size_t len) {
    return keep(e, room, address, e, e, len, channel, handle);
}
uint32_t wuleshomia_serve_step(wule_endpoint *e, const wule_rule *rule, const uint8_t *bytes, size_t len, wule_step *step) {
    return keep(e, bytes, rule, step, e, len, 5, 0);
}
size_t wuleshomia_records(wule_endpoint *e, uint8_t *room, size_t len) { return keep(e, room, e, e, e, len, 6, 0); }
uint32_t wuleshomia_spool_read_head(const uint8_t *bytes, size_t len, wule_spool_head *head) {
    return keep(head, bytes, "head", head, head, len, 7, 0);
}
uint64_t wuleshomia_spool_batch_size(const uint8_t *bytes, size_t len) { return keep(bytes, bytes, "size", bytes, bytes, len, 8, 0); }
uint32_t wuleshomia_spool_read_batch(const wule_spool_head *head, uint64_t number, const uint8_t *bytes, size_t len,
                                     wule_spool_batch *batch) {
    return keep(batch, bytes, "batch", head, head, len, (size_t)number, 9);
}
uint32_t wuleshomia_spool_read_entry(const uint8_t *bytes, size_t len, wule_spool_entry *entry) {
    return keep(entry, bytes, "entry", entry, entry, len, 10, 0);
}
uint32_t wuleshomia_spool_read_end(const uint8_t *bytes, size_t len, wule_spool_end *end) {
    return keep(end, bytes, "end", end, end, len, 11, 0);
}
uint32_t wuleshomia_spool_read_floor(const uint8_t *bytes, size_t len, wule_spool_floor *floor) {
    return keep(floor, bytes, "floor", floor, floor, len, 12, 0);
}
uint32_t wuleshomia_spool_read_position(const uint8_t *bytes, size_t len, wule_spool_position *position) {
    return keep(position, bytes, "position", position, position, len, 13, 0);
}
size_t wuleshomia_spool_write_position(const wule_spool_position *position, uint8_t *room, size_t len) {
    return keep(position, room, "written", position, position, len, 14, 0);
}

/* Whether one call was handed on since, with this endpoint or this report, and with these bytes, or with some address for no bytes. */
static int handed(const void *first, const void *bytes, size_t len) {
    int once = calls == 1;
    calls = 0;
    return once && pointers[0] == first && (bytes ? pointers[1] == bytes : pointers[1] != NULL) && numbers[0] == len;
}

static int not_handed(void) {
    int none = calls == 0;
    calls = 0;
    return none;
}

#define EACH_LENGTH(call, lacking)                                        \
    do {                                                                  \
        size_t n_;                                                        \
        for (n_ = 1; n_ != 0; n_ <<= 1) IS((call) == (lacking) && not_handed()); \
    } while (0)

/* A call that reads bytes into a report, with `room` and with NULL and the length n_. */
#define READS(call, call_of_null, report, name)                                                \
    do {                                                                                       \
        size_t n_ = 0;                                                                         \
        IS((call) == 77 && handed((report), room, 9) && strcmp(pointers[2], (name)) == 0);      \
        IS((call_of_null) == 77 && handed((report), NULL, 0) && strcmp(pointers[2], (name)) == 0); \
        for (n_ = 1; n_ != 0; n_ <<= 1) IS((call_of_null) == WULE_NULL && not_handed());        \
    } while (0)

/* Whether one call was handed on since, with these words: a text is measured up to 256 bytes, and in the place of NULL there is another. */
static int handed_words(const char *name, const void *e, const char *condition, size_t condition_len, const char *text, size_t text_len) {
    int once = calls == 1;
    calls = 0;
    return once && strcmp(pointers[4], name) == 0 && pointers[0] == e && (condition ? pointers[1] == condition : pointers[1] != NULL)
           && (text ? pointers[2] == text : pointers[2] != NULL) && numbers[0] == condition_len && numbers[1] == text_len
           && numbers[2] == (text ? 1u : 0u);
}

static int placed(uint32_t a, uint32_t b, uint32_t c, const void *count) {
    return places[0] == a && places[1] == b && places[2] == c && pointers[3] == count;
}

static void hands_on_words(wule_endpoint *e, const char *condition, size_t condition_len, const char *text, size_t text_len) {
    uint32_t count;
    IS(wule_close_with(e, condition, text, &count) == 77 && handed_words("close", e, condition, condition_len, text, text_len));
    IS(placed(0, 0, 0, &count));
    IS(wule_settle_with(e, 7, 8, condition, text) == 77 && handed_words("settle", e, condition, condition_len, text, text_len));
    IS(placed(7, 8, 0, e));
    IS(wule_settle_range_with(e, 7, 8, 9, condition, text, &count) == 77);
    IS(handed_words("range", e, condition, condition_len, text, text_len) && placed(7, 8, 9, &count));
    IS(wule_refuse(e, 7, 8, condition, text, &count) == 77 && handed_words("refuse", e, condition, condition_len, text, text_len));
    IS(placed(7, 8, 0, &count));
}

int main(void) {
    wule_endpoint e = WULE_ENDPOINT_INIT;
    wule_settings settings = WULE_SETTINGS_INIT;
    static wule_limit rows[2];
    wule_rule rule = {1, 2, 3};
    wule_fed fed;
    wule_taken taken;
    wule_link_state link;
    wule_address address;
    wule_step step;
    static wule_spool_head segment, head;
    static wule_spool_batch batch;
    static wule_spool_entry entry;
    static wule_spool_end end;
    static wule_spool_floor floor;
    static wule_spool_position position;
    uint8_t room[9];
    static char long_text[300];
    uint64_t inside = 0;
    size_t row = 0, i;

    IS(wule_open(&e, &settings, "name", 4, rows, 2, &row) == 77 && pointers[1] == &settings && pointers[3] == rows && pointers[4] == &row);
    IS(strcmp(pointers[2], "name") == 0 && numbers[0] == 4 && numbers[1] == 2 && row == 5 && calls == 1);
    calls = 0;
    IS(wule_open(&e, &settings, NULL, 0, NULL, 0, NULL) == 77 && pointers[2] != NULL && pointers[3] != NULL && pointers[4] != NULL);
    IS(numbers[0] == 0 && numbers[1] == 0 && calls == 1);
    calls = 0;
    EACH_LENGTH(wule_open(&e, &settings, NULL, n_, rows, 2, &row), WULE_NULL);
    EACH_LENGTH(wule_open(&e, &settings, "name", 4, NULL, n_, &row), WULE_NULL);
    EACH_LENGTH(wule_open(&e, &settings, NULL, n_, NULL, n_, NULL), WULE_NULL);

    IS(wule_feed(&e, room, 9, &fed) == 77 && handed(&e, room, 9) && pointers[2] == &fed && numbers[1] == 1);
    IS(wule_feed(&e, NULL, 0, &fed) == 77 && handed(&e, NULL, 0) && pointers[2] == &fed);
    EACH_LENGTH(wule_feed(&e, NULL, n_, &fed), WULE_NULL);

    IS(wule_output(&e, room, 9) == 77 && handed(&e, room, 9) && numbers[1] == 2);
    IS(wule_output(&e, NULL, 0) == 77 && handed(&e, NULL, 0));
    EACH_LENGTH(wule_output(&e, NULL, n_), 0);

    IS(wule_finish(&e, &inside) == 77 && handed(&e, &inside, 0) && inside == 5 && numbers[1] == 3);
    IS(wule_finish(&e, NULL) == 77 && handed(&e, NULL, 0));

    hands_on_words(&e, "a:b", 3, "text", 4);
    hands_on_words(&e, "a:b", 3, "", 0);
    hands_on_words(&e, "a:b", 3, NULL, 0);
    hands_on_words(&e, "", 0, "text", 4);
    hands_on_words(&e, NULL, 0, "text", 4);
    hands_on_words(&e, NULL, 0, NULL, 0);
    for (i = 0; i + 1 < sizeof long_text; i++) {
        hands_on_words(&e, long_text, i < 256 ? i : 256, "text", 4);
        hands_on_words(&e, "a:b", 3, long_text, i < 256 ? i : 256);
        long_text[i] = 'x';
    }

    IS(wule_take(&e, 7, 8, &taken, room, 9) == 77 && handed(&e, room, 9) && pointers[2] == &taken && numbers[1] == 7 && numbers[2] == 8);
    IS(wule_take(&e, 7, 8, &taken, NULL, 0) == 77 && handed(&e, NULL, 0) && pointers[2] == &taken && numbers[1] == 7 && numbers[2] == 8);
    EACH_LENGTH(wule_take(&e, 7, 8, &taken, NULL, n_), WULE_NULL);

    IS(wule_message_read(&e, 7, room, 9) == 77 && handed(&e, room, 9) && numbers[1] == 7 && numbers[2] == 4);
    IS(wule_message_read(&e, 7, NULL, 0) == 77 && handed(&e, NULL, 0) && numbers[1] == 7);
    EACH_LENGTH(wule_message_read(&e, 7, NULL, n_), 0);

    IS(wule_link(&e, 7, 8, &link, room, 9) == 77 && handed(&e, room, 9) && pointers[2] == &link && numbers[1] == 7 && numbers[2] == 8);
    IS(wule_link(&e, 7, 8, &link, NULL, 0) == 77 && handed(&e, NULL, 0) && pointers[2] == &link && numbers[1] == 7 && numbers[2] == 8);
    EACH_LENGTH(wule_link(&e, 7, 8, &link, NULL, n_), WULE_NULL);

    IS(wule_link_source(&e, 7, 8, room, 9) == 77 && handed(&e, room, 9) && numbers[1] == 7 && numbers[2] == 8);
    IS(strcmp(pointers[2], "source") == 0);
    IS(wule_link_source(&e, 7, 8, NULL, 0) == 77 && handed(&e, NULL, 0) && numbers[1] == 7 && numbers[2] == 8);
    EACH_LENGTH(wule_link_source(&e, 7, 8, NULL, n_), WULE_NULL);

    IS(wule_link_target(&e, 7, 8, room, 9) == 77 && handed(&e, room, 9) && numbers[1] == 7 && numbers[2] == 8);
    IS(strcmp(pointers[2], "target") == 0);
    IS(wule_link_target(&e, 7, 8, NULL, 0) == 77 && handed(&e, NULL, 0) && numbers[1] == 7 && numbers[2] == 8);
    EACH_LENGTH(wule_link_target(&e, 7, 8, NULL, n_), WULE_NULL);

    IS(wule_link_address(&e, 7, 8, &address, room, 9) == 77 && handed(&e, room, 9) && pointers[2] == &address && numbers[1] == 7);
    IS(wule_link_address(&e, 7, 8, &address, NULL, 0) == 77 && handed(&e, NULL, 0) && pointers[2] == &address && numbers[2] == 8);
    EACH_LENGTH(wule_link_address(&e, 7, 8, &address, NULL, n_), WULE_NULL);

    IS(wule_serve_step(&e, &rule, room, 9, &step) == 77 && handed(&e, room, 9) && pointers[2] == &rule && pointers[3] == &step);
    IS(wule_serve_step(&e, &rule, NULL, 0, &step) == 77 && handed(&e, NULL, 0) && pointers[2] == &rule && pointers[3] == &step);
    EACH_LENGTH(wule_serve_step(&e, &rule, NULL, n_, &step), WULE_NULL);

    IS(wule_records(&e, room, 9) == 77 && handed(&e, room, 9) && numbers[1] == 6);
    IS(wule_records(&e, NULL, 0) == 77 && handed(&e, NULL, 0));
    EACH_LENGTH(wule_records(&e, NULL, n_), 0);

    READS(wule_spool_read_head(room, 9, &head), wule_spool_read_head(NULL, n_, &head), &head, "head");
    READS(wule_spool_read_batch(&segment, 7, room, 9, &batch) == 77 && pointers[3] == &segment && numbers[1] == 7 ? 77u : 0u,
          wule_spool_read_batch(&segment, 7, NULL, n_, &batch), &batch, "batch");
    READS(wule_spool_read_entry(room, 9, &entry), wule_spool_read_entry(NULL, n_, &entry), &entry, "entry");
    READS(wule_spool_read_end(room, 9, &end), wule_spool_read_end(NULL, n_, &end), &end, "end");
    READS(wule_spool_read_floor(room, 9, &floor), wule_spool_read_floor(NULL, n_, &floor), &floor, "floor");
    READS(wule_spool_read_position(room, 9, &position), wule_spool_read_position(NULL, n_, &position), &position, "position");

    IS(wule_spool_batch_size(room, 9) == 77 && handed(room, room, 9) && strcmp(pointers[2], "size") == 0);
    IS(wule_spool_batch_size(NULL, 0) == 77 && calls == 1 && pointers[1] != NULL && numbers[0] == 0);
    calls = 0;
    EACH_LENGTH(wule_spool_batch_size(NULL, n_), 0);

    IS(wule_spool_write_position(&position, room, 9) == 77 && handed(&position, room, 9) && strcmp(pointers[2], "written") == 0);
    IS(wule_spool_write_position(&position, NULL, 0) == 77 && handed(&position, NULL, 0));
    EACH_LENGTH(wule_spool_write_position(&position, NULL, n_), 0);

    printf("handed: %s\n", failures ? "failed" : "ok");
    return failures != 0;
}
