/*
 * wuleshomia.h - the receiving side of AMQP 1.0, proved, without I/O.  C99 and C++11.
 *
 * An endpoint is one connection. It has no socket, no thread, no clock and no global state: bytes of the peer go in, events,
 * messages and bytes for the peer come out. TLS, the event loop and time are the host's. Numbers in [ ] are sections of part 2 of
 * the standard.
 *
 * A whole receiver, over a socket that is open:
 *
 *     #include <wuleshomia.h>
 *     #include <unistd.h>
 *
 *     void process(const uint8_t *message, size_t len);                      // yours
 *
 *     // Writes what waits for the peer. 0: the socket took all of it.
 *     static int send_all(int fd, wule_endpoint *e) {
 *         uint8_t out[4096];
 *         size_t len, at;
 *         ssize_t n;
 *         while ((len = wule_output(e, out, sizeof out)) > 0)
 *             for (at = 0; at < len; at += (size_t)n)
 *                 if ((n = write(fd, out + at, len - at)) <= 0) return -1;
 *         return 0;
 *     }
 *
 *     // Receives until the connection is over. Returns a wule_end, or 0 if it gave the connection up.
 *     static uint32_t receive(int fd) {
 *         static uint8_t in[65536], message[1048576];
 *         wule_endpoint e = WULE_ENDPOINT_INIT;
 *         wule_settings settings = WULE_SETTINGS_INIT;
 *         wule_fed fed = {0};
 *         wule_taken taken;
 *         uint32_t end = 0;
 *         ssize_t n;
 *         if (wule_open(&e, &settings, "gateway", 7, NULL, 0, NULL) != WULE_OK) return 0;
 *         while (fed.outcome != WULE_DEAD && (n = read(fd, in, sizeof in)) > 0)
 *             for (size_t at = 0; at < (size_t)n && fed.outcome != WULE_DEAD; at += (size_t)fed.used) {
 *                 wule_feed(&e, in + at, (size_t)n - at, &fed);              // to the end of one frame at most
 *                 if (fed.outcome == WULE_STARVED) goto over;                // no memory: see below
 *                 if (fed.event == WULE_ATTACHED) wule_top_up(&e, fed.channel, 16, 2048);
 *                 if (fed.event == WULE_READY
 *                     && wule_take(&e, fed.channel, fed.handle, &taken, message, sizeof message) == WULE_OK) {
 *                     process(message, (size_t)taken.len);
 *                     if (!taken.settled) wule_settle(&e, fed.channel, taken.id, WULE_ACCEPTED);
 *                     wule_top_up(&e, fed.channel, 16, 2048);
 *                 }
 *                 if (send_all(fd, &e) != 0) goto over;
 *             }
 *         end = wule_finish(&e, NULL);
 *     over:
 *         wule_free(&e);
 *         return end;
 *     }
 *
 * If memory is refused, the frame waits and nothing is lost. This program gives the connection up. Another one waits for memory,
 * and then feeds what follows the fed.used bytes, or 0 bytes; a loop that feeds again at once may never end.
 *
 * What is promised. Whatever bytes the peer sends, in whatever pieces, and whatever calls the host makes in whatever order: no call
 * reads or writes outside what it was handed and what it allocated, each returns, and wule_held() never returns more than
 *     max_frame + 8192 + 64 * sessions + for each link (1407 + allowed * (max_message + 96)).
 * Messages are those that the peer sent, whole, in order, each once. Beside that there is the message that was taken last, and of
 * wule_serve_step() the answers and the records of one step.
 *
 * What the host owes. Nothing checks it.
 *  1. An endpoint is all zero before wule_open() and after wule_free(), and only these functions change it. Each that was opened is
 *     freed once by wule_free(); freeing it again does nothing. It may be moved by memcpy(), if the old place is not used again,
 *     and is never copied: two copies of one would be freed twice.
 *  2. One call at a time on one endpoint. Calls on different endpoints run side by side. An endpoint may go from one thread to
 *     another, if the host orders what both do.
 *  3. A pointer points to what its type says, and is aligned for it. It is not NULL, unless this header says that it may be. A
 *     length is at most PTRDIFF_MAX. What a call writes overlaps nothing else that it was handed.
 *  4. wule_settings, wule_limit and wule_rule are set before the call, every byte of them. What a call fills in need not be set.
 *  5. All that is handed in is the caller's. Nothing changes it during the call: no other thread or process, no device. The library
 *     doesn't use it after the call, and nothing that a call hands out has to be freed.
 *  6. malloc, realloc and free are those of one C library, or all three of another allocator, and align as the C library's do. They
 *     return: no longjmp(), no exception and no cancellation of the thread leaves a call.
 *  7. No call comes from a signal handler, nor after fork() in the child of a process with threads.
 *  8. 16 KiB of stack below each call.
 *
 * A pointer to bytes, to a room for bytes or to rows may be NULL. With the length 0 that is none of them. With another length the
 * call does nothing, and returns WULE_NULL before any other code, or 0 if it returns how many bytes. So does a call by a pointer to
 * the function, or from another language.
 *
 * A condition and a description are texts that end with a zero byte, of which at most 256 bytes are read. They say why a link or a
 * message is refused, or the connection closed, and the peer gets them as an error [2.8.14]. The condition is a symbol, as
 * WULE_SYMBOL_NOT_FOUND or one of the application's own; if it is NULL, it is empty, and so WULE_BAD_ERROR. The description is for
 * people; if it is NULL, there is none.
 *
 * wule_output(), wule_has_output(), wule_records(), wule_message_read() and wule_held() return 0 if there is nothing, and 0 if the
 * handle holds no endpoint. wule_window() tells which: it returns WULE_NO_ENDPOINT exactly then.
 *
 * Each call is bounded by what is fed to it. None blocks. A call that is refused has changed nothing, but for what it says below.
 */
#ifndef WULESHOMIA_H
#define WULESHOMIA_H

#include <stddef.h>
#include <stdint.h>

/* The version of this header; wule_version() has that of the library. Programs run with each library of the same soname. */
#define WULE_VERSION_MAJOR 0
#define WULE_VERSION_MINOR 1
#define WULE_VERSION_PATCH 0
#define WULE_VERSION (WULE_VERSION_MAJOR * 65536 + WULE_VERSION_MINOR * 256 + WULE_VERSION_PATCH)

#ifdef __cplusplus
extern "C" {
#endif

#if defined(__GNUC__)
#define WULE_CHECKED __attribute__((warn_unused_result))
#define WULE_MAYBE_UNUSED __attribute__((unused))
#else
#define WULE_CHECKED
#define WULE_MAYBE_UNUSED
#endif

/* ------------------------------------------------------------------------------------------------------------------- Numbers */

/* What a call returns; see wule_code_text(). Of 1 to 13 it is the first of this order that is so, but WULE_FULL comes last. */
typedef enum wule_code {
    WULE_OK = 0,
    WULE_CONNECTION_OVER = 1,  /* the connection is over, or this side has closed it */
    WULE_NOT_OPEN = 2,         /* the peer's open has not come */
    WULE_NO_SESSION = 3,       /* no session is live on the channel */
    WULE_NO_LINK = 4,          /* no link is live at the handle */
    WULE_NO_DELIVERY = 5,      /* no open delivery has the id, or the last of a range is before its first */
    WULE_NOT_TAKEN = 6,        /* a delivery that is named was not taken */
    WULE_ALREADY_TOLD = 7,     /* the sender was told, and has to settle it [2.8.3] */
    WULE_MIXED_MODES = 8,      /* a range names deliveries of both receiver settle modes */
    WULE_NOTHING_READY = 9,    /* no message of the link is whole */
    WULE_TOO_MUCH_CREDIT = 10, /* credit and open deliveries would be more than the link is allowed */
    WULE_WINDOW_TOO_WIDE = 11, /* the window would pass 2147483647 places */
    WULE_FULL = 12,            /* fewer than 2560 of the output's 8192 bytes are free: wule_output() first */
    WULE_BAD_ERROR = 13,       /* a condition is not 1 to 64 printable characters, or a description not at most 255 bytes of UTF-8 */
    WULE_NO_ENDPOINT = 20,     /* the handle holds none: wule_open() was not called, or wule_free() was */
    WULE_NO_MEMORY = 21,
    WULE_IN_USE = 22,          /* the handle holds an endpoint already */
    WULE_BAD_SETTINGS = 23,    /* a setting is outside its range, or the container-id is not UTF-8 */
    WULE_TOO_MANY_LIMITS = 24, /* more than 16 rows */
    WULE_BAD_LIMIT = 25,       /* a row's prefix has not 1 to 255 bytes, or a number of it is outside its range */
    WULE_SAME_PREFIX = 26,     /* a row has the prefix of one before it */
    WULE_BAD_OUTCOME = 27,     /* no wule_outcome */
    WULE_UNSENT = 28,          /* bytes for the peer or records wait to be moved out */
    WULE_ANSWER_LOST = 29,     /* memory for an answer was refused: it is lost, and so is the connection */
    WULE_RECORD_LOST = 30,     /* the same of a record */
    WULE_NULL = 31,            /* a pointer is NULL, but its length is not 0: nothing was done */
    WULE_NOT_WHOLE = 32        /* the bytes are no whole head, batch, entry, end, floor or position of a spool */
} wule_code;

/* What bytes came to. */
typedef enum wule_fed_outcome {
    WULE_MORE = 1,        /* nothing to tell: more bytes are wanted, if all were used */
    WULE_EVENT = 2,       /* a frame came to what `event` says */
    WULE_BLOCKED = 3,     /* a frame waits until wule_output() has made room; then feed again, also 0 bytes */
    WULE_STARVED = 4,     /* a frame waits, since memory was refused; feed again later, also 0 bytes */
    WULE_DEAD = 5         /* the connection is over, and takes no more bytes */
} wule_fed_outcome;

/* The names of the fields of a wule_fed say which of them count; the others are 0. */
typedef enum wule_event {
    WULE_OPENED = 1,     /* the peer's open came [2.4.1] */
    WULE_BEGUN = 2,      /* channel: a session began [2.5.1] */
    WULE_ATTACHED = 3,   /* channel, handle: a link attached, which sends nothing before wule_grant() [2.6.3] */
    WULE_UNFINISHED = 4, /* channel, handle: a message goes on [2.6.14] */
    WULE_READY = 5,      /* channel, handle: a message is whole: wule_take() */
    WULE_ABORTED = 6,    /* channel, handle: the sender gave a message up [2.7.5] */
    WULE_DRAINED = 7,    /* channel, handle: the credit is used up, as wule_drain() asked [2.6.7] */
    WULE_SETTLED = 8,    /* channel, count: the sender settled so many deliveries [2.7.6] */
    WULE_DETACHED = 9,   /* channel, handle, count: the peer detached a link, and so many ready messages were dropped [2.6.4] */
    WULE_ENDED = 10,     /* channel, count: the peer ended a session, the same [2.5.3] */
    WULE_CLOSED = 11,    /* count: the peer closed the connection, the same [2.4.3] */
    WULE_FAILED = 12     /* scope, channel, handle, condition, count: this side ended something with an error [2.4.6, 2.5.4, 2.6.5] */
} wule_event;

/* What ended with an error. */
typedef enum wule_scope { WULE_CONNECTION = 1, WULE_SESSION = 2, WULE_LINK = 3 } wule_scope;

/* Why; see wule_condition_symbol(). */
typedef enum wule_condition {
    WULE_OTHER = 0,
    WULE_FRAMING_ERROR = 1,
    WULE_DECODE_ERROR = 2,
    WULE_INVALID_FIELD = 3,
    WULE_ILLEGAL_STATE = 4,
    WULE_NOT_IMPLEMENTED = 5,
    WULE_RESOURCE_LIMIT_EXCEEDED = 6,
    WULE_FRAME_SIZE_TOO_SMALL = 7,
    WULE_WINDOW_VIOLATION = 8,
    WULE_HANDLE_IN_USE = 9,
    WULE_UNATTACHED_HANDLE = 10,
    WULE_TRANSFER_LIMIT_EXCEEDED = 11,
    WULE_MESSAGE_SIZE_EXCEEDED = 12
} wule_condition;

/* The conditions that the standard names, for wule_refuse(), wule_settle_with(), wule_settle_range_with() and wule_close_with()
 * [2.8.15 to 2.8.18]. An application may have others of its own. */
#define WULE_SYMBOL_INTERNAL_ERROR "amqp:internal-error"
#define WULE_SYMBOL_NOT_FOUND "amqp:not-found"
#define WULE_SYMBOL_UNAUTHORIZED_ACCESS "amqp:unauthorized-access"
#define WULE_SYMBOL_DECODE_ERROR "amqp:decode-error"
#define WULE_SYMBOL_RESOURCE_LIMIT_EXCEEDED "amqp:resource-limit-exceeded"
#define WULE_SYMBOL_NOT_ALLOWED "amqp:not-allowed"
#define WULE_SYMBOL_INVALID_FIELD "amqp:invalid-field"
#define WULE_SYMBOL_NOT_IMPLEMENTED "amqp:not-implemented"
#define WULE_SYMBOL_RESOURCE_LOCKED "amqp:resource-locked"
#define WULE_SYMBOL_PRECONDITION_FAILED "amqp:precondition-failed"
#define WULE_SYMBOL_RESOURCE_DELETED "amqp:resource-deleted"
#define WULE_SYMBOL_ILLEGAL_STATE "amqp:illegal-state"
#define WULE_SYMBOL_FRAME_SIZE_TOO_SMALL "amqp:frame-size-too-small"
#define WULE_SYMBOL_CONNECTION_FORCED "amqp:connection:forced"
#define WULE_SYMBOL_FRAMING_ERROR "amqp:connection:framing-error"
#define WULE_SYMBOL_CONNECTION_REDIRECT "amqp:connection:redirect"
#define WULE_SYMBOL_WINDOW_VIOLATION "amqp:session:window-violation"
#define WULE_SYMBOL_ERRANT_LINK "amqp:session:errant-link"
#define WULE_SYMBOL_HANDLE_IN_USE "amqp:session:handle-in-use"
#define WULE_SYMBOL_UNATTACHED_HANDLE "amqp:session:unattached-handle"
#define WULE_SYMBOL_DETACH_FORCED "amqp:link:detach-forced"
#define WULE_SYMBOL_TRANSFER_LIMIT_EXCEEDED "amqp:link:transfer-limit-exceeded"
#define WULE_SYMBOL_MESSAGE_SIZE_EXCEEDED "amqp:link:message-size-exceeded"
#define WULE_SYMBOL_LINK_REDIRECT "amqp:link:redirect"
#define WULE_SYMBOL_STOLEN "amqp:link:stolen"

/* How a connection stood at the end of its input. */
typedef enum wule_end {
    WULE_END_FAILED = 1, /* this side ended it with an error, or its header was not acceptable */
    WULE_END_CLOSED = 2, /* the peer closed it */
    WULE_END_INSIDE = 3, /* the input ended inside a frame */
    WULE_END_BETWEEN = 4 /* it ended between frames, with no close */
} wule_end;

/* What became of a message [3.4]. */
typedef enum wule_outcome {
    WULE_ACCEPTED = 0,
    WULE_REJECTED = 1,
    WULE_RELEASED = 2,
    WULE_MODIFIED = 3,
    WULE_MODIFIED_FAILED = 4,
    WULE_MODIFIED_UNDELIVERABLE = 5,
    WULE_MODIFIED_FAILED_UNDELIVERABLE = 6
} wule_outcome;

/* What a step of serving did with the message that was ready. */
typedef enum wule_receipt {
    WULE_RECEIPT_NONE = 0,    /* none was */
    WULE_RECEIPT_REFUSED = 1, /* refusal: it was not taken */
    WULE_RECEIPT_SETTLED = 2, /* id, len: it was recorded, and its sender had settled it */
    WULE_RECEIPT_TOLD = 3,    /* id, len: it was recorded, and its sender is told what became of it */
    WULE_RECEIPT_UNTOLD = 4   /* id, len, refusal: it was recorded, but its sender could not be told */
} wule_receipt;

/* How many bytes there are of each part of a spool that always has as many. */
typedef enum wule_spool_size {
    WULE_SPOOL_HEAD = 80,       /* the head of a segment */
    WULE_SPOOL_BATCH_HEAD = 32, /* the head of a batch */
    WULE_SPOOL_END = 56,
    WULE_SPOOL_FLOOR = 40,
    WULE_SPOOL_POSITION = 71,
    WULE_SPOOL_RECORD_HEAD = 18 /* what a record has before its message */
} wule_spool_size;

/* What an entry of a batch is. */
typedef enum wule_spool_kind {
    WULE_SPOOL_INTRODUCTION = 1, /* who sends on a link */
    WULE_SPOOL_RECORD = 2        /* a message */
} wule_spool_kind;

/* What the target of a link is, in a spool. */
typedef enum wule_spool_target {
    WULE_SPOOL_ADDRESS = 0, /* its address */
    WULE_SPOOL_DYNAMIC = 1, /* none: the sender asks for a node to be made */
    WULE_SPOOL_NONE = 2,    /* there is no target, or it has no address */
    WULE_SPOOL_OTHER = 3    /* anything else: the target itself, encoded */
} wule_spool_target;

/* ------------------------------------------------------------------------------------------------------------------- Structs */

/* An endpoint, or none. Opaque; the host keeps it at any place. */
typedef struct wule_endpoint {
    void *wule_at;
    uint64_t wule_live;
} wule_endpoint;

#define WULE_ENDPOINT_INIT {0, 0}

/* What an endpoint is set up with: what it says of itself, and how much its peer may make it keep. */
typedef struct wule_settings {
    uint32_t max_frame;     /* the longest frame: 512 to 1048576 bytes [2.7.1] */
    uint32_t channel_max;   /* the highest channel: 0 to 255 */
    uint32_t handle_max;    /* the highest handle: 0 to 255 [2.7.2] */
    uint32_t allowed;       /* credit and open deliveries of a link together: 1 to 1024 */
    uint32_t max_message;   /* the longest message: 1 to 1073741824 bytes [2.7.3] */
    uint32_t window;        /* places of a session's window at its begin: 0 to 2147483647 [2.5.6] */
    uint32_t idle_time_out; /* in milliseconds: what the open asks the peer to keep to; 0: nothing. Time is the host's [2.4.5] */
} wule_settings;

#define WULE_SETTINGS_INIT {65536, 7, 7, 16, 1048576, 2048, 0}

/* Other bounds for links whose names begin with a prefix. The row of the longest prefix holds. */
typedef struct wule_limit {
    uint32_t allowed;
    uint32_t max_message;
    uint32_t prefix_len; /* 1 to 255 */
    uint8_t prefix[256];
} wule_limit;

/* What bytes came to. */
typedef struct wule_fed {
    uint64_t used;      /* so many were taken; the rest is fed again */
    uint32_t outcome;   /* a wule_fed_outcome */
    uint32_t event;     /* a wule_event, if the outcome is WULE_EVENT; else 0 */
    uint32_t channel;
    uint32_t handle;
    uint32_t count;
    uint32_t scope;     /* a wule_scope */
    uint32_t condition; /* a wule_condition */
    uint32_t reserved;
} wule_fed;

/* A message that was taken, without its bytes. */
typedef struct wule_taken {
    uint64_t len;     /* how many bytes it has */
    uint32_t id;      /* the delivery-id, for wule_settle() */
    uint32_t format;  /* the message-format: 0 for the sections of the standard [3.2] */
    uint32_t settled; /* 1: the sender has settled it, and wants no wule_settle(); else 0 */
    uint32_t tag_len;
    uint8_t tag[32];  /* the delivery-tag, tag_len bytes, and then 0 */
} wule_taken;

/* How a live link stands. */
typedef struct wule_link_state {
    uint32_t credit;
    uint32_t opened;      /* deliveries that are not both taken and settled */
    uint32_t ready;       /* of these, messages that can be taken */
    uint32_t allowed;
    uint32_t max_message;
    uint32_t name_len;    /* bytes of its name, at most 255, */
    uint32_t source_len;  /* of its source, */
    uint32_t target_len;  /* and of its target, as they are spelled in its attach */
} wule_link_state;

/* What a link's target says of its node [3.5.4]. */
typedef enum wule_address_kind {
    WULE_ADDRESS_NAMED = 0,     /* its address, a string, whatever `dynamic` is */
    WULE_ADDRESS_DYNAMIC = 1,   /* none: the sender asks for a node to be made; nothing here makes one */
    WULE_ADDRESS_ABSENT = 2,    /* none, and it asks for none */
    WULE_ADDRESS_NO_TARGET = 3, /* there is no target */
    WULE_ADDRESS_OTHER = 4      /* the address is no string, or the target is of another type */
} wule_address_kind;

/* The address of a link's target. */
typedef struct wule_address {
    uint32_t kind; /* a wule_address_kind */
    uint32_t len;  /* bytes of the address, if it is a string, else 0 */
} wule_address;

/* By what rule an endpoint is served. */
typedef struct wule_rule {
    uint32_t credit;  /* a link is topped up to so much, within what it is allowed, */
    uint32_t mark;    /* if its credit is at most that */
    uint32_t outcome; /* a wule_outcome: what becomes of each message that its sender has not settled */
} wule_rule;

/* What a step of serving came to. */
typedef struct wule_step {
    wule_fed fed;
    uint32_t receipt; /* a wule_receipt, whose names of fields say which of these three count */
    uint32_t id;
    uint32_t len;
    uint32_t refusal; /* a wule_code */
    uint32_t widened; /* the places that windows were widened by, */
    uint32_t granted; /* the credit that was granted, */
    uint32_t refused; /* and how many windows and links were refused what they lacked */
    uint32_t reserved;
} wule_step;

/* Some of the bytes that a call was handed: `len` bytes, from the one at `at` on. They are within those. */
typedef struct wule_part {
    uint64_t at;
    uint64_t len;
} wule_part;

/* The head of a segment of a spool. */
typedef struct wule_spool_head {
    uint8_t spool[16];  /* the id of the spool */
    uint8_t secret[16]; /* what the sums of the segment are made with */
    uint64_t first;     /* the number of its first record */
    uint64_t before;    /* that of the segment before it */
    uint64_t counted;   /* how many bytes of that one count */
    uint64_t life;      /* how often the spool was started */
    uint64_t sum;       /* of all this; `mark` of a wule_spool_end has it */
} wule_spool_head;

/* A batch, which is what one sync made durable. */
typedef struct wule_spool_batch {
    uint64_t len;      /* how many bytes it has, with its head */
    uint64_t first;    /* the number of its first record */
    uint64_t arrived;  /* when its records arrived, in milliseconds since 1970 */
    uint32_t count;    /* how many records it has, at least 1 */
    uint32_t reserved;
} wule_spool_batch;

/* An entry of a batch. The fields after `link` are of the one kind or of the other, and 0 in the other. */
typedef struct wule_spool_entry {
    uint64_t len;         /* how many bytes it has */
    uint32_t kind;        /* a wule_spool_kind */
    uint32_t link;        /* the number of the link; one that was closed is given again, by another introduction */
    uint64_t connection;  /* an introduction: the number of the connection, */
    wule_part peer;       /* the address of the peer, at most 58 bytes, */
    wule_part container;  /* its container-id, */
    wule_part name;       /* the link's name, */
    wule_part user;       /* the user, empty if none is known, at most 255 bytes each, */
    uint32_t target_kind; /* a wule_spool_target, */
    uint32_t reserved;
    wule_part target;     /* and the address or the target, at most 1024 bytes */
    wule_part tag;        /* a record: the delivery-tag, at most 32 bytes, */
    wule_part record;     /* and the record as wule_serve_step() tells it: 18 bytes and the message */
} wule_spool_entry;

/* The file `end`: how far a spool may be read. */
typedef struct wule_spool_end {
    uint8_t spool[16];
    uint64_t first; /* the number of the first record of the newest segment */
    uint64_t mark;  /* the sum of that segment's head: of two segments that had the name, the one that is meant */
    uint64_t place; /* how many of its bytes may be read */
    uint64_t next;  /* the number of the next record */
} wule_spool_end;

/* The file `floor`. */
typedef struct wule_spool_floor {
    uint8_t spool[16];
    uint64_t number;  /* up to this number segments may be missing */
    uint64_t dropped; /* the last number that was dropped unread; 0 if none was */
} wule_spool_floor;

/* The file NAME.at: the position of a consumer. */
typedef struct wule_spool_position {
    uint8_t spool[16];
    uint64_t number; /* up to this number it has acknowledged */
} wule_spool_position;

/* ------------------------------------------------------------------------------------------------------- Setting up, freeing */

/* The version of the library, as WULE_VERSION. */
uint32_t wule_version(void);

/* Sets an endpoint up, before the peer's header. It takes memory for a frame, for 8192 bytes of output, and for its places.
 *   container_id  id_len bytes, 1 to 255, in UTF-8
 *   limits        rows, at most 16; NULL for none
 *   row           if a row of the limits is at fault, its number from 0 goes there; may be NULL
 * WULE_OK; else the endpoint is as it was: WULE_IN_USE, WULE_NO_MEMORY, WULE_BAD_SETTINGS, WULE_TOO_MANY_LIMITS, WULE_BAD_LIMIT,
 * WULE_SAME_PREFIX, WULE_NULL. */
uint32_t wule_open(wule_endpoint *e, const wule_settings *settings, const char *container_id, size_t id_len,
                   const wule_limit *limits, size_t limit_count, size_t *row) WULE_CHECKED;

/* Frees all that an endpoint has; it is all zero then. Does nothing on an empty handle. */
void wule_free(wule_endpoint *e);

/* --------------------------------------------------------------------------------------------- Bytes of the peer, and for it */

/* Takes bytes of the peer, to the end of a frame at most, and acts upon it. If a frame waits, none are taken. A frame is acted
 * upon, and its event told, before the next is looked at, so that each call between two feeds finds what the peer said so far.
 * WULE_OK, and *fed says what it came to, want of memory too; else *fed is as it was: WULE_NO_ENDPOINT, WULE_NULL. */
uint32_t wule_feed(wule_endpoint *e, const uint8_t *bytes, size_t len, wule_fed *fed);

/* Moves bytes for the peer out, at most `len`, and returns how many: some, if some wait and there is room; 0 if none wait, and if
 * there is no endpoint. They are written to the peer in this order. Call it until it returns 0, after each feed and before waiting
 * for the peer. */
size_t wule_output(wule_endpoint *e, uint8_t *room, size_t len) WULE_CHECKED;

/* 1 if bytes for the peer wait; 0 if none wait, and if there is no endpoint. */
uint32_t wule_has_output(wule_endpoint *e);

/* Closes the connection, by the close that it writes [2.4.3]; how many ready messages were dropped goes to *dropped. Of what the
 * peer sends then only its close counts: feed on until WULE_CLOSED.
 * WULE_OK, WULE_CONNECTION_OVER, WULE_NOT_OPEN, WULE_FULL, WULE_NO_ENDPOINT. */
uint32_t wule_close(wule_endpoint *e, uint32_t *dropped);

/* The same, by a close with an error [2.7.9]. The codes of wule_close(), and WULE_BAD_ERROR. */
uint32_t wule_close_with(wule_endpoint *e, const char *condition, const char *description, uint32_t *dropped);

/* Writes an empty frame, for a peer that asked for an idle-time-out [2.4.5].
 * WULE_OK, WULE_CONNECTION_OVER, WULE_NOT_OPEN, WULE_FULL, WULE_NO_ENDPOINT. */
uint32_t wule_heartbeat(wule_endpoint *e);

/* The input has ended: a wule_end, or 0 if there is no endpoint. At WULE_END_INSIDE the number of bytes of the frame that came
 * goes to *inside, which may be NULL. The connection is over then; what waits for the peer is left. */
uint32_t wule_finish(wule_endpoint *e, uint64_t *inside);

/* 1 if the connection is over, or there is no endpoint; else 0. */
uint32_t wule_is_over(wule_endpoint *e);

/* ---------------------------------------------------------------------------------------------------- Sessions and their links */

/* Lets the sender on a link send n messages more [2.6.7]. It is then no longer asked to use its credit up, also if n is 0.
 * WULE_OK, WULE_CONNECTION_OVER, WULE_NO_SESSION, WULE_NO_LINK, WULE_TOO_MUCH_CREDIT, WULE_FULL, WULE_NO_ENDPOINT. */
uint32_t wule_grant(wule_endpoint *e, uint32_t channel, uint32_t handle, uint32_t n);

/* Lets the senders of a session send n transfer frames more [2.5.6].
 * WULE_OK, WULE_CONNECTION_OVER, WULE_NO_SESSION, WULE_WINDOW_TOO_WIDE, WULE_FULL, WULE_NO_ENDPOINT. */
uint32_t wule_widen(wule_endpoint *e, uint32_t channel, uint32_t n);

/* Asks the sender on a link to use its credit up [2.6.7]: WULE_DRAINED tells that it did.
 * WULE_OK, WULE_CONNECTION_OVER, WULE_NO_SESSION, WULE_NO_LINK, WULE_FULL, WULE_NO_ENDPOINT. */
uint32_t wule_drain(wule_endpoint *e, uint32_t channel, uint32_t handle);

/* Tells the sender what became of a message that was taken: outcome is a wule_outcome. In receiver settle mode first that settles it;
 * in mode second the sender settles it [2.8.3].
 * WULE_OK, WULE_BAD_OUTCOME, WULE_CONNECTION_OVER, WULE_NO_SESSION, WULE_NO_DELIVERY, WULE_NOT_TAKEN, WULE_ALREADY_TOLD, WULE_FULL,
 * WULE_NO_ENDPOINT. */
uint32_t wule_settle(wule_endpoint *e, uint32_t channel, uint32_t id, uint32_t outcome);

/* The same of all whose ids lie from `first` to `last`, by one frame [2.7.6]; how many goes to *named. Both are ids of open
 * deliveries. The codes of wule_settle(), and WULE_MIXED_MODES. */
uint32_t wule_settle_range(wule_endpoint *e, uint32_t channel, uint32_t first, uint32_t last, uint32_t outcome, uint32_t *named);

/* Both with the outcome WULE_REJECTED, and why: the sender gets it in the outcome [3.4.3]. The codes of wule_settle() and of
 * wule_settle_range() but WULE_BAD_OUTCOME, and WULE_BAD_ERROR. */
uint32_t wule_settle_with(wule_endpoint *e, uint32_t channel, uint32_t id, const char *condition, const char *description);
uint32_t wule_settle_range_with(wule_endpoint *e, uint32_t channel, uint32_t first, uint32_t last, const char *condition,
                                const char *description, uint32_t *named);

/* Gives each link of a session whose credit is at most half of `credit` what it lacks of `credit`, but at most what the link is
 * allowed less its credit and its open deliveries; and the session's window what it lacks of `window`, if at most half is left.
 * Call it when a link attached and after each message.
 * WULE_OK; else the first code that is none, with what went before it done: WULE_FULL, WULE_NO_SESSION, WULE_CONNECTION_OVER,
 * WULE_NO_ENDPOINT. */
uint32_t wule_top_up(wule_endpoint *e, uint32_t channel, uint32_t credit, uint32_t window);

/* Ends a link [2.6.6]; how many ready messages were dropped goes to *dropped.
 * WULE_OK, WULE_CONNECTION_OVER, WULE_NO_SESSION, WULE_NO_LINK, WULE_FULL, WULE_NO_ENDPOINT. */
uint32_t wule_detach(wule_endpoint *e, uint32_t channel, uint32_t handle, uint32_t *dropped);

/* The same, by a detach with an error [2.6.5]. A link that is refused when it attached, before wule_grant(), has sent nothing:
 * wule_link_address() says what it is for. The codes of wule_detach(), and WULE_BAD_ERROR. */
uint32_t wule_refuse(wule_endpoint *e, uint32_t channel, uint32_t handle, const char *condition, const char *description,
                     uint32_t *dropped);

/* ------------------------------------------------------------------------------------------------------------------- Messages */

/* Takes the first whole message of a link, and copies its first bytes, at most `len`: all, if taken->len <= len. The rest is had by
 * wule_message_read(), until the next wule_take() or wule_message_drop(). It is open until it is settled.
 * WULE_OK; else *taken and the room are as they were: WULE_CONNECTION_OVER, WULE_NO_SESSION, WULE_NO_LINK, WULE_NOTHING_READY,
 * WULE_NO_ENDPOINT, WULE_NULL. */
uint32_t wule_take(wule_endpoint *e, uint32_t channel, uint32_t handle, wule_taken *taken, uint8_t *room, size_t len) WULE_CHECKED;

/* Copies bytes of the message that was taken last, from the one at `at` on, at most `len`, and returns how many: 0 if it has none
 * there, if no message is kept, and if there is no endpoint. */
size_t wule_message_read(wule_endpoint *e, size_t at, uint8_t *room, size_t len);

/* Frees the message that was taken last. It stays open until it is settled. */
void wule_message_drop(wule_endpoint *e);

/* ----------------------------------------------------------------------------------------------------- How an endpoint stands */

/* The bytes that count as held: what the bound above is about. 0 if none are, and if there is no endpoint. */
uint64_t wule_held(wule_endpoint *e);

/* The places that are left of a session's window go to *places [2.5.6].
 * WULE_OK; else *places is as it was: WULE_NO_SESSION, WULE_NO_ENDPOINT. */
uint32_t wule_window(wule_endpoint *e, uint32_t channel, uint32_t *places);

/* How a link stands, and the first bytes of its name, at most `len`; no zero byte follows them.
 * WULE_OK; else *link and the room are as they were: WULE_NO_LINK, WULE_NO_ENDPOINT, WULE_NULL. */
uint32_t wule_link(wule_endpoint *e, uint32_t channel, uint32_t handle, wule_link_state *link, uint8_t *name, size_t len);

/* The first bytes of a link's source, and of its target, at most `len`, as its attach spells them [3.5.3, 3.5.4].
 * WULE_OK; else the room is as it was: WULE_NO_LINK, WULE_NO_ENDPOINT, WULE_NULL. */
uint32_t wule_link_source(wule_endpoint *e, uint32_t channel, uint32_t handle, uint8_t *room, size_t len);
uint32_t wule_link_target(wule_endpoint *e, uint32_t channel, uint32_t handle, uint8_t *room, size_t len);

/* What a link's target says of its node, and the first bytes of its address in UTF-8, at most `len`; no zero byte follows them.
 * WULE_OK; else *address and the room are as they were: WULE_NO_LINK, WULE_NO_ENDPOINT, WULE_NULL. */
uint32_t wule_link_address(wule_endpoint *e, uint32_t channel, uint32_t handle, wule_address *address, uint8_t *room, size_t len);

/* The first handle from `from` on whose link has less credit than `credit`, and may have more, goes to *found.
 * WULE_OK; else *found is as it was: WULE_NO_LINK if there is none, WULE_NO_ENDPOINT. */
uint32_t wule_first_lacking(wule_endpoint *e, uint32_t channel, uint32_t from, uint32_t credit, uint32_t *found);

/* -------------------------------------------------------------------------------------------------------------------- Serving */

/* Serves bytes of the peer, to the end of a frame at most: a message that is whole then is taken, recorded, and settled unless its
 * sender settled it, and what lacks something by the rule is topped up, so that the host has no call of its own to make. Then
 * wule_records() has the records, and after them wule_output() the answers; both are moved out before the next step. A record is
 * the channel in 2 bytes, then handle, delivery-id, message-format and length in 4 bytes each, the highest first, and the message.
 * A whole server, over a socket that is open, with send_all() of the program at the top:
 *
 *     #include <stdio.h>
 *
 *     // Serves until the connection is over. Returns a wule_end, or 0 if it gave the connection up.
 *     static uint32_t serve(int fd, FILE *records) {
 *         static uint8_t in[65536], out[4096];
 *         wule_endpoint e = WULE_ENDPOINT_INIT;
 *         wule_settings settings = WULE_SETTINGS_INIT;
 *         wule_rule rule = {16, 15, WULE_ACCEPTED};
 *         wule_step step = {0};
 *         uint32_t end = 0;
 *         size_t k;
 *         ssize_t n;
 *         if (wule_open(&e, &settings, "gateway", 7, NULL, 0, NULL) != WULE_OK) return 0;
 *         while (step.fed.outcome != WULE_DEAD && (n = read(fd, in, sizeof in)) > 0)
 *             for (size_t at = 0; at < (size_t)n && step.fed.outcome != WULE_DEAD; at += (size_t)step.fed.used) {
 *                 if (wule_serve_step(&e, &rule, in + at, (size_t)n - at, &step) != WULE_OK) goto over;
 *                 while ((k = wule_records(&e, out, sizeof out)) > 0)
 *                     if (fwrite(out, 1, k, records) != k) goto over;
 *                 if (fflush(records) != 0 || send_all(fd, &e) != 0) goto over; // a record is kept before its sender hears of it
 *             }
 *         end = wule_finish(&e, NULL);
 *     over:
 *         wule_free(&e);
 *         return end;
 *     }
 *
 * WULE_OK, and *step says what was done. WULE_NO_MEMORY: memory for the frame was refused; step->fed.used bytes were taken, the
 * frame waits, and the next step tries it again, also one of 0 bytes. This program gives up; another one waits for memory first.
 * WULE_ANSWER_LOST, WULE_RECORD_LOST: memory for what it wrote was refused; no more steps are served, and the connection is to be
 * given up. WULE_BAD_OUTCOME, WULE_UNSENT, WULE_NO_ENDPOINT, WULE_NULL: nothing was done, and *step is as it was. */
uint32_t wule_serve_step(wule_endpoint *e, const wule_rule *rule, const uint8_t *bytes, size_t len, wule_step *step) WULE_CHECKED;

/* Moves records of the last step out, at most `len` bytes, and returns how many: 0 if none wait, and if there is no endpoint. */
size_t wule_records(wule_endpoint *e, uint8_t *room, size_t len) WULE_CHECKED;

/* -------------------------------------------------------------------------------------------------------------- Reading a spool */

/* `amqp gateway --spool DIR` keeps records in the files of DIR; docs/SPOOL.md has their format, and what a reader beside it does.
 * The host reads the files. These calls read their bytes: they have no endpoint and no state, take no memory, and keep nothing.
 * Each returns WULE_OK; else what it fills in is as it was: WULE_NOT_WHOLE, WULE_NULL. Bytes that were changed by chance are taken
 * for whole ones once in 2^64 times.
 *
 * A whole reader of what counts of a segment:
 *
 *     void keep(uint64_t number, const uint8_t *message, size_t len);        // yours
 *
 *     // Goes through the first `counted` bytes of a segment. 0 after all records; -1 where it is damaged.
 *     static int read_segment(const uint8_t *segment, size_t counted) {
 *         wule_spool_head head;
 *         wule_spool_batch batch;
 *         wule_spool_entry entry;
 *         if (wule_spool_read_head(segment, counted, &head) != WULE_OK) return -1;
 *         uint64_t number = head.first;
 *         for (size_t at = WULE_SPOOL_HEAD; at < counted; at += (size_t)batch.len) {
 *             if (wule_spool_read_batch(&head, number, segment + at, counted - at, &batch) != WULE_OK) return -1;
 *             const uint8_t *next = segment + at + WULE_SPOOL_BATCH_HEAD, *end = segment + at + batch.len;
 *             for (; next < end; next += entry.len) {
 *                 if (wule_spool_read_entry(next, (size_t)(end - next), &entry) != WULE_OK) return -1;
 *                 if (entry.kind != WULE_SPOOL_RECORD) continue;             // who sends on entry.link from now on
 *                 const uint8_t *message = next + entry.record.at + WULE_SPOOL_RECORD_HEAD;
 *                 keep(number++, message, (size_t)entry.record.len - WULE_SPOOL_RECORD_HEAD);
 *             }
 *             if (number != batch.first + batch.count) return -1;
 *         }
 *         return 0;
 *     }
 */

/* The head of a segment with which these bytes begin. */
uint32_t wule_spool_read_head(const uint8_t *bytes, size_t len, wule_spool_head *head) WULE_CHECKED;

/* How many bytes a batch has, with its head, by the first WULE_SPOOL_BATCH_HEAD of them: so many are read before the batch is. They
 * are not checked. 0 if there are fewer bytes. */
uint64_t wule_spool_batch_size(const uint8_t *bytes, size_t len);

/* The batch with which these bytes begin, in a segment with this head, if it is whole and its first record has this number. Its
 * entries are the bytes after its head. */
uint32_t wule_spool_read_batch(const wule_spool_head *head, uint64_t number, const uint8_t *bytes, size_t len,
                               wule_spool_batch *batch) WULE_CHECKED;

/* The entry with which these bytes begin. */
uint32_t wule_spool_read_entry(const uint8_t *bytes, size_t len, wule_spool_entry *entry) WULE_CHECKED;

/* What all bytes of `end`, of `floor` and of a position say. `end` is written over in place: if it is not whole, read it again. */
uint32_t wule_spool_read_end(const uint8_t *bytes, size_t len, wule_spool_end *end) WULE_CHECKED;
uint32_t wule_spool_read_floor(const uint8_t *bytes, size_t len, wule_spool_floor *floor) WULE_CHECKED;
uint32_t wule_spool_read_position(const uint8_t *bytes, size_t len, wule_spool_position *position) WULE_CHECKED;

/* Writes the bytes of a position, and returns how many: WULE_SPOOL_POSITION, or 0 with nothing written if there is less room. */
size_t wule_spool_write_position(const wule_spool_position *position, uint8_t *room, size_t len) WULE_CHECKED;

/* -------------------------------------------------------------------------------------------------------------------- In C alone */

/* A code in words; "" for what is none. */
WULE_MAYBE_UNUSED static inline const char *wule_code_text(uint32_t code) {
    switch (code) {
    case WULE_OK: return "ok";
    case WULE_CONNECTION_OVER: return "the connection is over, or this side has closed it";
    case WULE_NOT_OPEN: return "the connection is not open";
    case WULE_NO_SESSION: return "no session is live on this channel";
    case WULE_NO_LINK: return "no link is live at this handle";
    case WULE_NO_DELIVERY: return "no open delivery has this id, or the last id of the range is behind its first";
    case WULE_NOT_TAKEN: return "a delivery that is named was not taken";
    case WULE_ALREADY_TOLD: return "the sender was told what became of a delivery that is named, and has to settle it";
    case WULE_MIXED_MODES: return "deliveries of the modes first and second cannot be settled at once";
    case WULE_NOTHING_READY: return "no delivery of the link is ready";
    case WULE_TOO_MUCH_CREDIT: return "credit and open deliveries would be more than the link allows";
    case WULE_WINDOW_TOO_WIDE: return "the window would pass 2147483647 places";
    case WULE_FULL: return "the output has less than 2560 free bytes";
    case WULE_BAD_ERROR: return "the condition is not 1 to 64 printable characters, or the description not at most 255 bytes of UTF-8";
    case WULE_NO_ENDPOINT: return "the handle holds no endpoint";
    case WULE_NO_MEMORY: return "memory was refused";
    case WULE_IN_USE: return "the handle holds an endpoint";
    case WULE_BAD_SETTINGS: return "a setting is outside its range, or the container-id is not UTF-8";
    case WULE_TOO_MANY_LIMITS: return "the table of limits has more than 16 rows";
    case WULE_BAD_LIMIT: return "a prefix has not 1 to 255 bytes, or a number of its row is outside its range";
    case WULE_SAME_PREFIX: return "a row of the limits has the prefix of an earlier one";
    case WULE_BAD_OUTCOME: return "this is no outcome";
    case WULE_UNSENT: return "bytes for the peer or records wait to be moved out";
    case WULE_ANSWER_LOST: return "memory for an answer was refused, which is lost";
    case WULE_RECORD_LOST: return "memory for a record was refused, which is lost";
    case WULE_NULL: return "a pointer is NULL, but its length is not 0";
    case WULE_NOT_WHOLE: return "the bytes are no whole head, batch, entry, end, floor or position of a spool";
    default: return "";
    }
}

/* The symbol of a condition, as "amqp:decode-error"; "" for WULE_OTHER and for what is none. */
WULE_MAYBE_UNUSED static inline const char *wule_condition_symbol(uint32_t condition) {
    switch (condition) {
    case WULE_FRAMING_ERROR: return "amqp:connection:framing-error";
    case WULE_DECODE_ERROR: return "amqp:decode-error";
    case WULE_INVALID_FIELD: return "amqp:invalid-field";
    case WULE_ILLEGAL_STATE: return "amqp:illegal-state";
    case WULE_NOT_IMPLEMENTED: return "amqp:not-implemented";
    case WULE_RESOURCE_LIMIT_EXCEEDED: return "amqp:resource-limit-exceeded";
    case WULE_FRAME_SIZE_TOO_SMALL: return "amqp:frame-size-too-small";
    case WULE_WINDOW_VIOLATION: return "amqp:session:window-violation";
    case WULE_HANDLE_IN_USE: return "amqp:session:handle-in-use";
    case WULE_UNATTACHED_HANDLE: return "amqp:session:unattached-handle";
    case WULE_TRANSFER_LIMIT_EXCEEDED: return "amqp:link:transfer-limit-exceeded";
    case WULE_MESSAGE_SIZE_EXCEEDED: return "amqp:link:message-size-exceeded";
    default: return "";
    }
}

#ifdef __cplusplus
} /* extern "C" */

namespace wule {

/* An endpoint that frees itself. It moves, and is never copied. */
class endpoint {
  public:
    endpoint() noexcept : held_(WULE_ENDPOINT_INIT) {}
    endpoint(endpoint &&other) noexcept : held_(other.held_) { other.held_ = wule_endpoint(WULE_ENDPOINT_INIT); }
    endpoint &operator=(endpoint &&other) noexcept {
        wule_endpoint mine = held_;
        held_ = other.held_;
        other.held_ = mine;
        return *this;
    }
    endpoint(const endpoint &) = delete;
    endpoint &operator=(const endpoint &) = delete;
    ~endpoint() { wule_free(&held_); }
    wule_endpoint *get() noexcept { return &held_; }

  private:
    wule_endpoint held_;
};

} // namespace wule
#endif
#endif
