// Nonblocking connections.
#define _GNU_SOURCE
#include "live.h"

#include <arpa/inet.h>
#include <errno.h>
#include <fcntl.h>
#include <netinet/tcp.h>
#include <poll.h>
#include <stdarg.h>
#include <stdio.h>
#include <stdlib.h>
#include <string.h>
#include <sys/socket.h>
#include <time.h>
#include <unistd.h>

enum { READ_AT_ONCE = 256 * 1024, MOST_SILENT = 60 * 1000 };

double milliseconds(void) {
    struct timespec time;
    clock_gettime(CLOCK_MONOTONIC, &time);
    return time.tv_sec * 1e3 + time.tv_nsec / 1e6;
}

_Noreturn void fail(const char *format, ...) {
    va_list words;
    va_start(words, format);
    vfprintf(stderr, format, words);
    va_end(words);
    fputc('\n', stderr);
    exit(1);
}

// Makes room for `count` more bytes.
static void reserve(struct buffer *buffer, size_t count) {
    if (buffer->from == buffer->to) buffer->from = buffer->to = 0;
    if (buffer->room - buffer->to >= count) return;
    size_t length = buffer->to - buffer->from;
    if (buffer->from > 0) memmove(buffer->bytes, buffer->bytes + buffer->from, length);
    buffer->from = 0;
    buffer->to = length;
    if (buffer->room - length >= count) return;
    buffer->room = (length + count) * 2;
    buffer->bytes = realloc(buffer->bytes, buffer->room);
    if (!buffer->bytes) fail("out of memory");
}

void open_stream(struct stream *stream, int port) {
    int on = 1;
    struct sockaddr_in address = {.sin_family = AF_INET, .sin_port = htons(port), .sin_addr.s_addr = htonl(INADDR_LOOPBACK)};
    stream->fd = socket(AF_INET, SOCK_STREAM | SOCK_CLOEXEC, 0);
    if (stream->fd < 0 || connect(stream->fd, (struct sockaddr *)&address, sizeof address) < 0)
        fail("cannot connect to port %d: %s", port, strerror(errno));
    setsockopt(stream->fd, IPPROTO_TCP, TCP_NODELAY, &on, sizeof on);
    fcntl(stream->fd, F_SETFL, O_NONBLOCK);
}

void close_stream(struct stream *stream) {
    close(stream->fd);
    free(stream->in.bytes);
    free(stream->out.bytes);
    memset(stream, 0, sizeof *stream);
}

void put(struct stream *stream, const void *bytes, size_t count) {
    reserve(&stream->out, count);
    memcpy(stream->out.bytes + stream->out.to, bytes, count);
    stream->out.to += count;
}

static int is_not_now(void) {
    return errno == EAGAIN || errno == EINTR;
}

int flush_stream(struct stream *stream) {
    struct buffer *out = &stream->out;
    while (out->from < out->to) {
        ssize_t count = send(stream->fd, out->bytes + out->from, out->to - out->from, MSG_NOSIGNAL);
        if (count < 0) return is_not_now() ? 0 : -1;
        out->from += count;
    }
    return 0;
}

int fill_stream(struct stream *stream) {
    struct buffer *in = &stream->in;
    reserve(in, READ_AT_ONCE);
    ssize_t count = recv(stream->fd, in->bytes + in->to, in->room - in->to, 0);
    if (count < 0 && is_not_now()) return 0;
    if (count <= 0) return -1;
    in->to += count;
    return 0;
}

void await_input(struct stream *stream) {
    struct pollfd polled = {.fd = stream->fd, .events = POLLIN};
    if (flush_stream(stream) < 0) fail("the server has ended the connection");
    if (stream->out.from < stream->out.to) polled.events |= POLLOUT;
    if (poll(&polled, 1, MOST_SILENT) == 0) fail("the server has said nothing for a minute");
    if (fill_stream(stream) < 0) fail("the server has ended the connection");
}
