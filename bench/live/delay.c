// A TCP proxy that delays all bytes:  delay LISTEN TARGET MILLISECONDS
// LISTEN and TARGET are ports of the loopback. Bytes that are read on either side are written on the other side MILLISECONDS later, which is
// half a round trip. The delay is the same for all, so one queue has them in the order of their times. It runs until it is killed.
#define _GNU_SOURCE
#include "live.h"

#include <arpa/inet.h>
#include <errno.h>
#include <netinet/tcp.h>
#include <stdio.h>
#include <stdlib.h>
#include <string.h>
#include <sys/epoll.h>
#include <sys/prctl.h>
#include <sys/socket.h>
#include <time.h>
#include <unistd.h>

enum { READ_AT_ONCE = 64 * 1024, MOST_KEPT = 8 * 1024 * 1024, MOST_EVENTS = 256, MOST_IDLE = 1000 };

// One side of a connection.
struct side {
    struct stream stream;           // its output has waited long enough, and wasn't taken yet
    struct side *other;
    size_t kept;                    // bytes that were read from it, and not written yet
    int has_ended;                  // it sends no more
    int ends, is_shut;              // no more is sent to it, and it was shut down
};

// Bytes that were read from a side, or none for its end.
struct part {
    struct part *next;
    struct side *from;
    double due;
    size_t count;
    char bytes[];
};

static struct part *first, **behind = &first;
static double delay;
static int epoll;

static void keep(struct side *side, const char *bytes, size_t count) {
    struct part *part = malloc(sizeof *part + count);
    if (!part) fail("out of memory");
    *part = (struct part){.from = side, .due = milliseconds() + delay, .count = count};
    memcpy(part->bytes, bytes, count);
    *behind = part;
    behind = &part->next;
    side->kept += count;
}

// Reads until there is no more, or MOST_KEPT bytes are kept.
static void take(struct side *side) {
    static char bytes[READ_AT_ONCE];
    while (!side->has_ended && side->kept < MOST_KEPT) {
        ssize_t count = recv(side->stream.fd, bytes, sizeof bytes, 0);
        if (count < 0 && (errno == EAGAIN || errno == EINTR)) return;
        side->has_ended = count <= 0;
        keep(side, bytes, count > 0 ? count : 0);
    }
}

// Writes what a side takes, and continues to read from the other side. Closes a connection whose sides have both ended.
static void write_out(struct side *side) {
    struct buffer *out = &side->stream.out;
    size_t waiting = out->to - out->from;
    if (flush_stream(&side->stream) < 0) out->from = out->to;
    side->other->kept -= waiting - (out->to - out->from);
    if (side->ends && !side->is_shut && out->from == out->to) {
        shutdown(side->stream.fd, SHUT_WR);
        side->is_shut = 1;
        if (side->other->is_shut) {
            close(side->stream.fd);
            close(side->other->stream.fd);
        }
    }
    take(side->other);
}

// Passes on the parts whose time has come. Returns the time of the next one, or a time far ahead.
static double pass_on(void) {
    double now = milliseconds();
    while (first && first->due <= now) {
        struct part *part = first;
        struct side *to = part->from->other;
        first = part->next;
        if (!first) behind = &first;
        put(&to->stream, part->bytes, part->count);
        if (part->count == 0) to->ends = 1;
        free(part);
        write_out(to);
    }
    return first ? first->due : now + MOST_IDLE;
}

static void watch(struct side *side) {
    struct epoll_event event = {.events = EPOLLIN | EPOLLOUT | EPOLLET, .data.ptr = side};
    int on = 1;
    setsockopt(side->stream.fd, IPPROTO_TCP, TCP_NODELAY, &on, sizeof on);
    epoll_ctl(epoll, EPOLL_CTL_ADD, side->stream.fd, &event);
}

// Accepts a connection, and connects its other side. They aren't freed before the program ends.
static void accept_one(int listener, int target) {
    int fd = accept4(listener, NULL, NULL, SOCK_NONBLOCK | SOCK_CLOEXEC);
    if (fd < 0) return;
    struct side *sides = calloc(2, sizeof *sides);
    if (!sides) fail("out of memory");
    sides[0].other = &sides[1];
    sides[1].other = &sides[0];
    sides[0].stream.fd = fd;
    open_stream(&sides[1].stream, target);
    watch(&sides[0]);
    watch(&sides[1]);
}

static int listen_at(int port) {
    int listener = socket(AF_INET, SOCK_STREAM | SOCK_NONBLOCK | SOCK_CLOEXEC, 0), on = 1;
    struct sockaddr_in address = {.sin_family = AF_INET, .sin_port = htons(port), .sin_addr.s_addr = htonl(INADDR_LOOPBACK)};
    struct epoll_event event = {.events = EPOLLIN};
    setsockopt(listener, SOL_SOCKET, SO_REUSEADDR, &on, sizeof on);
    if (bind(listener, (struct sockaddr *)&address, sizeof address) < 0 || listen(listener, 512) < 0)
        fail("cannot listen at port %d: %s", port, strerror(errno));
    epoll_ctl(epoll, EPOLL_CTL_ADD, listener, &event);
    return listener;
}

// Waits for events until this time, and handles them.
static void serve_events(int listener, int target, double until) {
    struct epoll_event events[MOST_EVENTS];
    double left = until - milliseconds();
    if (left < 0) left = 0;
    struct timespec wait = {.tv_sec = left / 1e3, .tv_nsec = (long)(left * 1e6) % 1000000000};
    int count = epoll_pwait2(epoll, events, MOST_EVENTS, &wait, NULL);
    for (int k = 0; k < count; k++) {
        struct side *side = events[k].data.ptr;
        if (!side) {
            accept_one(listener, target);
            continue;
        }
        take(side);
        write_out(side);
    }
}

int main(int count, char **words) {
    if (count != 4) fail("delay LISTEN TARGET MILLISECONDS");
    delay = atof(words[3]);
    epoll = epoll_create1(EPOLL_CLOEXEC);
    prctl(PR_SET_TIMERSLACK, 1);
    int listener = listen_at(atoi(words[1])), target = atoi(words[2]);
    for (;;) serve_events(listener, target, pass_on());
}
