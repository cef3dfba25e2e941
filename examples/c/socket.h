/* A WebSocket (RFC 6455) to a server on this machine, for a program that reads while it writes. After it was opened no call blocks but
 * socket_wait. */
#ifndef SOCKET_H
#define SOCKET_H

#include <stdbool.h>
#include <stddef.h>
#include <stdint.h>

/* Bytes in a buffer that grows. Those before `begin` are of no use any more. */
struct buffer {
    uint8_t *bytes;
    size_t begin, end, room;
};

struct socket {
    int peer;
    struct buffer out; /* frames that weren't written yet */
    struct buffer in;  /* frames that weren't read yet */
};

/* Connects to 127.0.0.1 and shakes hands. Returns null, or what is wrong; then there is nothing to close. */
const char *socket_open(struct socket *socket, const char *port);

void socket_close(struct socket *socket);

/* Adds a message to those that are to be written. Returns false if out of memory. */
bool socket_send(struct socket *socket, const uint8_t *bytes, size_t length);

/* Waits until something can be read or written, for so many milliseconds at most or for two minutes if it is negative, and reads and writes
 * what it can. Returns null, or what is wrong. */
const char *socket_wait(struct socket *socket, double milliseconds);

/* Gives the next message that came whole. It is valid until the next call of socket_wait. Returns false if there is none. A frame that is
 * no binary message sets `*wrong`. */
bool socket_receive(struct socket *socket, const uint8_t **bytes, size_t *length, const char **wrong);

#endif
