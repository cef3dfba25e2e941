// The client's side of WebSocket (RFC 6455).
#define _GNU_SOURCE
#include "live.h"

#include <stdio.h>
#include <stdlib.h>
#include <string.h>
#include <unistd.h>

enum { TRIES = 100, PAUSE = 100 * 1000 };

// Sends the handshake, and returns the status of its answer.
static int send_handshake(struct stream *stream, int port, const char *path) {
    char request[512];
    int length = snprintf(request, sizeof request,
                          "GET %s HTTP/1.1\r\nHost: 127.0.0.1:%d\r\nUpgrade: websocket\r\nConnection: Upgrade\r\n"
                          "Sec-WebSocket-Key: dGhlIHNhbXBsZSBub25jZQ==\r\nSec-WebSocket-Version: 13\r\n\r\n",
                          path, port);
    put(stream, request, length);
    struct buffer *in = &stream->in;
    char *end;
    while (!(end = memmem(in->bytes + in->from, in->to - in->from, "\r\n\r\n", 4))) await_input(stream);
    int status = atoi(in->bytes + in->from + strlen("HTTP/1.1 "));
    in->from = end + 4 - in->bytes;
    return status;
}

void open_websocket(struct stream *stream, int port, const char *path) {
    int status = 0;
    for (int tries = 0; tries < TRIES; tries++) {
        open_stream(stream, port);
        status = send_handshake(stream, port, path);
        if (status == 101) return;
        close_stream(stream);
        usleep(PAUSE);
    }
    fail("the server refuses a handshake: status %d", status);
}

// The mask is 0, which costs a server as much as any other.
void put_frame(struct stream *stream, int opcode, const void *payload, size_t length) {
    unsigned char head[14] = {0x80 | opcode};
    size_t used = 2;
    if (length < 126) {
        head[1] = 0x80 | length;
    } else {
        int bytes = length < 65536 ? 2 : 8;
        head[1] = 0x80 | (bytes == 2 ? 126 : 127);
        for (int k = 0; k < bytes; k++) head[used + k] = (uint64_t)length >> 8 * (bytes - 1 - k);
        used += bytes;
    }
    put(stream, head, used + 4);
    put(stream, payload, length);
}

// The length of a frame's payload. Sets the length of its head, or 0 if the head isn't whole yet.
static uint64_t read_head(const unsigned char *frame, size_t count, size_t *head) {
    *head = 0;
    if (count < 2) return 0;
    int bytes = frame[1] == 126 ? 2 : frame[1] == 127 ? 8 : 0;
    if (count < 2 + (size_t)bytes) return 0;
    *head = 2 + bytes;
    if (bytes == 0) return frame[1];
    uint64_t length = 0;
    for (int k = 0; k < bytes; k++) length = length << 8 | frame[2 + k];
    return length;
}

int take_frame(struct stream *stream, char **payload, size_t *length) {
    struct buffer *in = &stream->in;
    const unsigned char *frame = (unsigned char *)in->bytes + in->from;
    size_t count = in->to - in->from, head;
    uint64_t size = read_head(frame, count, &head);
    if (head == 0 || count - head < size) return 0;
    if (!(frame[0] & 0x80)) fail("a frame isn't the last one of its message");
    *payload = in->bytes + in->from + head;
    *length = size;
    in->from += head + size;
    int opcode = frame[0] & 15;
    if (opcode == PING) put_frame(stream, PONG, *payload, *length);
    return opcode;
}
