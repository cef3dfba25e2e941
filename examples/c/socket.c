#define _POSIX_C_SOURCE 200809L

#include "socket.h"

#include <arpa/inet.h>
#include <errno.h>
#include <fcntl.h>
#include <poll.h>
#include <stdio.h>
#include <stdlib.h>
#include <string.h>
#include <sys/socket.h>
#include <unistd.h>

enum { MOST_HEAD = 14, READ_ROOM = 65536, PATIENCE = 120000 };

static const char LOST[] = "the connection is lost";

/* Makes room for so many bytes after the last one. */
static bool reserve(struct buffer *buffer, size_t more)
{
    if (buffer->begin > 0) {
        memmove(buffer->bytes, buffer->bytes + buffer->begin, buffer->end - buffer->begin);
        buffer->end -= buffer->begin;
        buffer->begin = 0;
    }
    if (more <= buffer->room - buffer->end)
        return true;
    if (more > SIZE_MAX / 2 - buffer->end)
        return false;
    size_t room = 2 * (buffer->end + more);
    uint8_t *bytes = realloc(buffer->bytes, room);
    if (bytes == NULL)
        return false;
    buffer->bytes = bytes;
    buffer->room = room;
    return true;
}

/* Asks for a WebSocket, and reads the server's answer to its end. The socket still blocks. */
static const char *shake_hands(int peer, const char *port)
{
    char text[512];
    int length = snprintf(text, sizeof text,
                          "GET / HTTP/1.1\r\nHost: 127.0.0.1:%s\r\nUpgrade: websocket\r\nConnection: Upgrade\r\n"
                          "Sec-WebSocket-Key: bHVnY3VycmFudCBleGFtcA==\r\nSec-WebSocket-Version: 13\r\n\r\n", port);
    if (length >= (int)sizeof text || send(peer, text, (size_t)length, MSG_NOSIGNAL) != length)
        return LOST;
    size_t got = 0;
    while (got < sizeof text && (got < 4 || memcmp(text + got - 4, "\r\n\r\n", 4) != 0)) {
        if (recv(peer, text + got, 1, 0) != 1)
            return LOST;
        got++;
    }
    return got > 12 && memcmp(text + 9, "101", 3) == 0 ? NULL : "the server takes no WebSocket";
}

const char *socket_open(struct socket *made, const char *port)
{
    struct sockaddr_in at = {.sin_family = AF_INET, .sin_port = htons((uint16_t)atoi(port))};
    at.sin_addr.s_addr = htonl(INADDR_LOOPBACK);
    memset(made, 0, sizeof *made);
    made->peer = socket(AF_INET, SOCK_STREAM, 0);
    if (made->peer < 0)
        return "there is no socket";
    const char *wrong = connect(made->peer, (struct sockaddr *)&at, sizeof at) == 0 ? shake_hands(made->peer, port) : "there is no server";
    if (wrong == NULL && fcntl(made->peer, F_SETFL, O_NONBLOCK) != 0)
        wrong = "the socket blocks";
    if (wrong != NULL)
        close(made->peer);
    return wrong;
}

void socket_close(struct socket *socket)
{
    close(socket->peer);
    free(socket->out.bytes);
    free(socket->in.bytes);
}

/* A frame of one binary message, under the mask of four zeros: a client has to mask, and this one hides nothing. */
bool socket_send(struct socket *socket, const uint8_t *bytes, size_t length)
{
    struct buffer *out = &socket->out;
    if (length > SIZE_MAX - MOST_HEAD || !reserve(out, length + MOST_HEAD))
        return false;
    uint8_t *frame = out->bytes + out->end;
    size_t head = length < 126 ? 2 : length < 65536 ? 4 : 10;
    frame[0] = 0x82;
    frame[1] = 0x80 | (length < 126 ? (uint8_t)length : length < 65536 ? 126 : 127);
    for (size_t i = 2; i < head; i++)
        frame[i] = (uint8_t)((uint64_t)length >> 8 * (head - 1 - i));
    memset(frame + head, 0, 4);
    memcpy(frame + head + 4, bytes, length);
    out->end += head + 4 + length;
    return true;
}

static const char *write_some(struct socket *socket)
{
    struct buffer *out = &socket->out;
    ssize_t part = send(socket->peer, out->bytes + out->begin, out->end - out->begin, MSG_NOSIGNAL);
    if (part < 0)
        return errno == EAGAIN || errno == EINTR ? NULL : LOST;
    out->begin += (size_t)part;
    return NULL;
}

static const char *read_some(struct socket *socket)
{
    struct buffer *in = &socket->in;
    if (!reserve(in, READ_ROOM))
        return "out of memory";
    ssize_t part = recv(socket->peer, in->bytes + in->end, READ_ROOM, 0);
    if (part < 0)
        return errno == EAGAIN || errno == EINTR ? NULL : LOST;
    in->end += (size_t)part;
    return part == 0 ? LOST : NULL;
}

const char *socket_wait(struct socket *socket, double milliseconds)
{
    bool writes = socket->out.end > socket->out.begin;
    struct pollfd waiting = {.fd = socket->peer, .events = (short)(writes ? POLLIN | POLLOUT : POLLIN)};
    int most = milliseconds < 0 || milliseconds > PATIENCE ? PATIENCE : (int)milliseconds + (milliseconds > (int)milliseconds);
    int ready = poll(&waiting, 1, most);
    if (ready == 0)
        return most == PATIENCE ? "the server is silent" : NULL;
    if (ready < 0)
        return errno == EINTR ? NULL : LOST;
    const char *wrong = waiting.revents & POLLOUT ? write_some(socket) : NULL;
    return wrong == NULL && waiting.revents & ~POLLOUT ? read_some(socket) : wrong;
}

bool socket_receive(struct socket *socket, const uint8_t **bytes, size_t *length, const char **wrong)
{
    struct buffer *in = &socket->in;
    size_t came = in->end - in->begin;
    if (came < 2)
        return false;
    const uint8_t *frame = in->bytes + in->begin;
    if (frame[0] != 0x82 || frame[1] > 127) {
        *wrong = "the server has closed";
        return false;
    }
    size_t more = frame[1] == 126 ? 2 : frame[1] == 127 ? 8 : 0;
    uint64_t size = more ? 0 : frame[1];
    if (came - 2 < more)
        return false;
    for (size_t i = 0; i < more; i++)
        size = size << 8 | frame[2 + i];
    if (came - 2 - more < size)
        return false;
    *bytes = frame + 2 + more;
    *length = (size_t)size;
    in->begin += 2 + more + *length;
    return true;
}
