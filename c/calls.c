/*
 * The calls that may get NULL for no bytes, and those that get texts which end with a zero byte. The proved archive has them as
 * wuleshomia_NAME, over references, which are never NULL, and with the length of each text. What stands here only looks for NULL,
 * measures texts and hands on: it is read and tested, not proved.
 */
#include "wuleshomia.h"

uint32_t wuleshomia_open(wule_endpoint *e, const wule_settings *settings, const char *container_id, size_t id_len,
                         const wule_limit *limits, size_t limit_count, size_t *row);
uint32_t wuleshomia_feed(wule_endpoint *e, const uint8_t *bytes, size_t len, wule_fed *fed);
size_t wuleshomia_output(wule_endpoint *e, uint8_t *room, size_t len);
uint32_t wuleshomia_close_with(wule_endpoint *e, const char *condition, size_t condition_len, const char *description,
                               size_t description_len, uint32_t described, uint32_t *dropped);
uint32_t wuleshomia_finish(wule_endpoint *e, uint64_t *inside);
uint32_t wuleshomia_settle_with(wule_endpoint *e, uint32_t channel, uint32_t id, const char *condition, size_t condition_len,
                                const char *description, size_t description_len, uint32_t described);
uint32_t wuleshomia_settle_range_with(wule_endpoint *e, uint32_t channel, uint32_t first, uint32_t last, const char *condition,
                                      size_t condition_len, const char *description, size_t description_len, uint32_t described,
                                      uint32_t *named);
uint32_t wuleshomia_refuse(wule_endpoint *e, uint32_t channel, uint32_t handle, const char *condition, size_t condition_len,
                           const char *description, size_t description_len, uint32_t described, uint32_t *dropped);
uint32_t wuleshomia_take(wule_endpoint *e, uint32_t channel, uint32_t handle, wule_taken *taken, uint8_t *room, size_t len);
size_t wuleshomia_message_read(wule_endpoint *e, size_t at, uint8_t *room, size_t len);
uint32_t wuleshomia_link(wule_endpoint *e, uint32_t channel, uint32_t handle, wule_link_state *link, uint8_t *name, size_t len);
uint32_t wuleshomia_link_source(wule_endpoint *e, uint32_t channel, uint32_t handle, uint8_t *room, size_t len);
uint32_t wuleshomia_link_target(wule_endpoint *e, uint32_t channel, uint32_t handle, uint8_t *room, size_t len);
uint32_t wuleshomia_link_address(wule_endpoint *e, uint32_t channel, uint32_t handle, wule_address *address, uint8_t *room, size_t len);
uint32_t wuleshomia_serve_step(wule_endpoint *e, const wule_rule *rule, const uint8_t *bytes, size_t len, wule_step *step);
size_t wuleshomia_records(wule_endpoint *e, uint8_t *room, size_t len);
uint32_t wuleshomia_spool_read_head(const uint8_t *bytes, size_t len, wule_spool_head *head);
uint64_t wuleshomia_spool_batch_size(const uint8_t *bytes, size_t len);
uint32_t wuleshomia_spool_read_batch(const wule_spool_head *head, uint64_t number, const uint8_t *bytes, size_t len,
                                     wule_spool_batch *batch);
uint32_t wuleshomia_spool_read_entry(const uint8_t *bytes, size_t len, wule_spool_entry *entry);
uint32_t wuleshomia_spool_read_end(const uint8_t *bytes, size_t len, wule_spool_end *end);
uint32_t wuleshomia_spool_read_floor(const uint8_t *bytes, size_t len, wule_spool_floor *floor);
uint32_t wuleshomia_spool_read_position(const uint8_t *bytes, size_t len, wule_spool_position *position);
size_t wuleshomia_spool_write_position(const wule_spool_position *position, uint8_t *room, size_t len);

/* An address for no bytes and for no rows: the length 0 is handed on with it, so that nothing is read or written there. */
static uint8_t no_bytes;
static const wule_limit no_rows;

/* Puts an address in the place of NULL. Returns 0 if the length says that bytes are there. */
static int has_bytes(const uint8_t **bytes, size_t len) {
    if (*bytes != NULL) return 1;
    *bytes = &no_bytes;
    return len == 0;
}

static int has_room(uint8_t **room, size_t len) {
    if (*room != NULL) return 1;
    *room = &no_bytes;
    return len == 0;
}

/* A text in the place of NULL. */
static const char *text_of(const char *text) { return text != NULL ? text : ""; }

/* How many bytes a text has, as far as it matters: one of 256 is longer than any that is taken. */
static size_t length_of(const char *text) {
    size_t len = 0;
    while (text != NULL && len < 256 && text[len] != 0) len++;
    return len;
}

uint32_t wule_open(wule_endpoint *e, const wule_settings *settings, const char *container_id, size_t id_len,
                   const wule_limit *limits, size_t limit_count, size_t *row) {
    size_t nowhere = 0;
    if ((container_id == NULL && id_len > 0) || (limits == NULL && limit_count > 0)) return WULE_NULL;
    return wuleshomia_open(e, settings, container_id != NULL ? container_id : "", id_len, limits != NULL ? limits : &no_rows,
                           limit_count, row != NULL ? row : &nowhere);
}

uint32_t wule_feed(wule_endpoint *e, const uint8_t *bytes, size_t len, wule_fed *fed) {
    return has_bytes(&bytes, len) ? wuleshomia_feed(e, bytes, len, fed) : WULE_NULL;
}

size_t wule_output(wule_endpoint *e, uint8_t *room, size_t len) { return has_room(&room, len) ? wuleshomia_output(e, room, len) : 0; }

uint32_t wule_close_with(wule_endpoint *e, const char *condition, const char *description, uint32_t *dropped) {
    return wuleshomia_close_with(e, text_of(condition), length_of(condition), text_of(description), length_of(description),
                                 description != NULL, dropped);
}

uint32_t wule_finish(wule_endpoint *e, uint64_t *inside) {
    uint64_t nowhere = 0;
    return wuleshomia_finish(e, inside != NULL ? inside : &nowhere);
}

uint32_t wule_settle_with(wule_endpoint *e, uint32_t channel, uint32_t id, const char *condition, const char *description) {
    return wuleshomia_settle_with(e, channel, id, text_of(condition), length_of(condition), text_of(description),
                                  length_of(description), description != NULL);
}

uint32_t wule_settle_range_with(wule_endpoint *e, uint32_t channel, uint32_t first, uint32_t last, const char *condition,
                                const char *description, uint32_t *named) {
    return wuleshomia_settle_range_with(e, channel, first, last, text_of(condition), length_of(condition), text_of(description),
                                        length_of(description), description != NULL, named);
}

uint32_t wule_refuse(wule_endpoint *e, uint32_t channel, uint32_t handle, const char *condition, const char *description,
                     uint32_t *dropped) {
    return wuleshomia_refuse(e, channel, handle, text_of(condition), length_of(condition), text_of(description),
                             length_of(description), description != NULL, dropped);
}

uint32_t wule_take(wule_endpoint *e, uint32_t channel, uint32_t handle, wule_taken *taken, uint8_t *room, size_t len) {
    return has_room(&room, len) ? wuleshomia_take(e, channel, handle, taken, room, len) : WULE_NULL;
}

size_t wule_message_read(wule_endpoint *e, size_t at, uint8_t *room, size_t len) {
    return has_room(&room, len) ? wuleshomia_message_read(e, at, room, len) : 0;
}

uint32_t wule_link(wule_endpoint *e, uint32_t channel, uint32_t handle, wule_link_state *link, uint8_t *name, size_t len) {
    return has_room(&name, len) ? wuleshomia_link(e, channel, handle, link, name, len) : WULE_NULL;
}

uint32_t wule_link_source(wule_endpoint *e, uint32_t channel, uint32_t handle, uint8_t *room, size_t len) {
    return has_room(&room, len) ? wuleshomia_link_source(e, channel, handle, room, len) : WULE_NULL;
}

uint32_t wule_link_target(wule_endpoint *e, uint32_t channel, uint32_t handle, uint8_t *room, size_t len) {
    return has_room(&room, len) ? wuleshomia_link_target(e, channel, handle, room, len) : WULE_NULL;
}

uint32_t wule_link_address(wule_endpoint *e, uint32_t channel, uint32_t handle, wule_address *address, uint8_t *room, size_t len) {
    return has_room(&room, len) ? wuleshomia_link_address(e, channel, handle, address, room, len) : WULE_NULL;
}

uint32_t wule_serve_step(wule_endpoint *e, const wule_rule *rule, const uint8_t *bytes, size_t len, wule_step *step) {
    return has_bytes(&bytes, len) ? wuleshomia_serve_step(e, rule, bytes, len, step) : WULE_NULL;
}

size_t wule_records(wule_endpoint *e, uint8_t *room, size_t len) { return has_room(&room, len) ? wuleshomia_records(e, room, len) : 0; }

uint32_t wule_spool_read_head(const uint8_t *bytes, size_t len, wule_spool_head *head) {
    return has_bytes(&bytes, len) ? wuleshomia_spool_read_head(bytes, len, head) : WULE_NULL;
}

uint64_t wule_spool_batch_size(const uint8_t *bytes, size_t len) {
    return has_bytes(&bytes, len) ? wuleshomia_spool_batch_size(bytes, len) : 0;
}

uint32_t wule_spool_read_batch(const wule_spool_head *head, uint64_t number, const uint8_t *bytes, size_t len,
                               wule_spool_batch *batch) {
    return has_bytes(&bytes, len) ? wuleshomia_spool_read_batch(head, number, bytes, len, batch) : WULE_NULL;
}

uint32_t wule_spool_read_entry(const uint8_t *bytes, size_t len, wule_spool_entry *entry) {
    return has_bytes(&bytes, len) ? wuleshomia_spool_read_entry(bytes, len, entry) : WULE_NULL;
}

uint32_t wule_spool_read_end(const uint8_t *bytes, size_t len, wule_spool_end *end) {
    return has_bytes(&bytes, len) ? wuleshomia_spool_read_end(bytes, len, end) : WULE_NULL;
}

uint32_t wule_spool_read_floor(const uint8_t *bytes, size_t len, wule_spool_floor *floor) {
    return has_bytes(&bytes, len) ? wuleshomia_spool_read_floor(bytes, len, floor) : WULE_NULL;
}

uint32_t wule_spool_read_position(const uint8_t *bytes, size_t len, wule_spool_position *position) {
    return has_bytes(&bytes, len) ? wuleshomia_spool_read_position(bytes, len, position) : WULE_NULL;
}

size_t wule_spool_write_position(const wule_spool_position *position, uint8_t *room, size_t len) {
    return has_room(&room, len) ? wuleshomia_spool_write_position(position, room, len) : 0;
}
