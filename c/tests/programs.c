/* The programs of wuleshomia.h, as programs.py takes them out of it, over a socket whose other end plays a peer from a file: first with
 * memory, and then with each request for memory refused in turn, alone and with all after it, unless `whole` is said.
 *     programs receive FILE MESSAGES ANSWERS [whole]
 *     programs serve FILE RECORDS ANSWERS [whole]
 * Or the reader of a segment, over the first COUNTED bytes of a file: prints each number, and its message in hex.
 *     programs read FILE COUNTED
 * It is linked with --wrap=malloc,--wrap=realloc,--wrap=free. A run that hangs is ended by SIGALRM. */
#define _GNU_SOURCE
#include "programs.h"
#include <fcntl.h>
#include <poll.h>
#include <signal.h>
#include <stdlib.h>
#include <string.h>
#include <sys/socket.h>
#include <sys/wait.h>

enum { SECONDS = 20, ROOM = 1 << 22 };

/* ---- memory, of which one request is refused, or that and all after it */

static long until_refusal = -1; /* so many requests are granted before one is refused; below 0: all are */
static int for_good, was_refused;
static long blocks;

void *__real_malloc(size_t size);
void *__real_realloc(void *at, size_t size);
void __real_free(void *at);
void *__wrap_malloc(size_t size);
void *__wrap_realloc(void *at, size_t size);
void __wrap_free(void *at);

static int is_refused(void) {
    if (until_refusal < 0 || (until_refusal > 0 && until_refusal--)) return 0;
    if (!for_good) until_refusal = -1;
    return was_refused = 1;
}

void *__wrap_malloc(size_t size) {
    void *at = is_refused() ? NULL : __real_malloc(size);
    if (at) blocks++;
    return at;
}

void *__wrap_realloc(void *at, size_t size) {
    void *new_at = is_refused() ? NULL : __real_realloc(at, size);
    if (new_at && !at) blocks++;
    return new_at;
}

void __wrap_free(void *at) {
    if (at) blocks--;
    __real_free(at);
}

/* ---- a run */

struct bytes {
    uint8_t *at;
    size_t len;
};

static struct bytes stream;
static FILE *handed_up;
static const char *name_of_handed_up, *name_of_answers;

static void give_up(const char *why) {
    perror(why);
    exit(2);
}

void keep(uint64_t number, const uint8_t *message, size_t len) {
    size_t i;
    printf("%llu ", (unsigned long long)number);
    for (i = 0; i < len; i++) printf("%02x", message[i]);
    putchar('\n');
}

void process(const uint8_t *message, size_t len) {
    if (fwrite(message, 1, len, handed_up) != len) give_up("fwrite");
}

static struct bytes read_file(const char *name) {
    struct bytes read = {__real_malloc(ROOM), 0};
    FILE *in = fopen(name, "rb");
    if (!in || !read.at) give_up(name);
    read.len = fread(read.at, 1, ROOM, in);
    fclose(in);
    return read;
}

/* The other end: sends the stream, and keeps what is answered, until the program closes its end. */
static void play(int fd) {
    int answers = open(name_of_answers, O_WRONLY | O_CREAT | O_TRUNC, 0600);
    size_t sent = 0;
    signal(SIGPIPE, SIG_IGN);
    for (;;) {
        static uint8_t room[4096];
        struct pollfd ready = {fd, POLLIN, 0};
        ssize_t n;
        if (sent < stream.len) ready.events |= POLLOUT;
        if (poll(&ready, 1, -1) < 0) _exit(2);
        if (ready.revents & (POLLIN | POLLHUP | POLLERR)) {
            if ((n = read(fd, room, sizeof room)) <= 0) _exit(0);
            if (write(answers, room, (size_t)n) != n) _exit(2);
        }
        if (ready.revents & POLLOUT) {
            n = send(fd, stream.at + sent, stream.len - sent, MSG_DONTWAIT);
            if (n > 0) sent += (size_t)n;
            if (sent == stream.len) shutdown(fd, SHUT_WR);
        }
    }
}

static uint32_t run(int serves) {
    int ends[2], status = 0;
    uint32_t end;
    pid_t peer;
    if (socketpair(AF_UNIX, SOCK_STREAM, 0, ends) != 0 || !(handed_up = fopen(name_of_handed_up, "wb"))) give_up("socketpair");
    if ((peer = fork()) < 0) give_up("fork");
    if (peer == 0) {
        close(ends[0]);
        play(ends[1]);
    }
    close(ends[1]);
    alarm(SECONDS);
    end = serves ? serve(ends[0], handed_up) : receive(ends[0]);
    alarm(0);
    close(ends[0]);
    fclose(handed_up);
    if (waitpid(peer, &status, 0) != peer || status != 0) give_up("the peer");
    return end;
}

static int begins(struct bytes front, struct bytes whole) { return front.len <= whole.len && memcmp(front.at, whole.at, front.len) == 0; }

/* What differs of a run in which a request was refused: it is whole, or it was given up, and what it did begins the whole. */
static int differs(uint32_t end, uint32_t whole_end, struct bytes up, struct bytes answers) {
    struct bytes some_up = read_file(name_of_handed_up), some_answers = read_file(name_of_answers);
    int is_whole = end == whole_end && some_up.len == up.len && some_answers.len == answers.len;
    int differ = !begins(some_up, up) || !begins(some_answers, answers) || !(is_whole || end == 0);
    __real_free(some_up.at);
    __real_free(some_answers.at);
    return differ;
}

int main(int argc, char **argv) {
    struct bytes up, answers;
    int serves, failures = 0;
    long refused = 0;
    uint32_t end;
    if (argc == 4 && strcmp(argv[1], "read") == 0) {
        stream = read_file(argv[2]);
        return read_segment(stream.at, (size_t)atol(argv[3])) != 0;
    }
    if (argc < 5) return 2;
    serves = strcmp(argv[1], "serve") == 0;
    stream = read_file(argv[2]);
    name_of_handed_up = argv[3], name_of_answers = argv[4];
    end = run(serves);
    up = read_file(name_of_handed_up), answers = read_file(name_of_answers);
    if (blocks != 0 || end == 0) failures++;
    if (argc > 5) return printf("end %u\n", (unsigned)end), failures != 0;
    for (for_good = 0; for_good < 2; for_good++)
        for (refused = 0;; refused++) {
            uint32_t some_end;
            until_refusal = refused, was_refused = 0;
            some_end = run(serves);
            if (!was_refused) break; /* it asked for fewer */
            if (blocks == 0 && !differs(some_end, end, up, answers)) continue;
            printf("request %ld refused%s: end %u\n", refused, for_good ? ", and all after it" : "", (unsigned)some_end);
            failures++;
        }
    printf("%s: %s; end %u; %ld requests were refused\n", argv[1], failures ? "failed" : "ok", (unsigned)end, refused);
    return failures != 0;
}
