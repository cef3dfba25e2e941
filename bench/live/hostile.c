// A hostile client of `lugcurrant serve`:  hostile PORT edits|garbage|frames|strangers
//   edits    sends 100,000 edits on a live connection, and reads nothing
//   garbage  sends 10,000 messages of random bytes on a live connection, then random bytes in place of a frame
//   frames   sends edits of 2 MiB on a live connection, which the server refuses as too large
//   strangers  10,000 connections at once that send one byte of a request and are silent; one that the server ends is made anew
// It connects again when all is sent, the server takes nothing for a second, or the connection has ended. At SIGTERM it prints the number of
// its connections and messages, and exits.
#define _GNU_SOURCE
#include "live.h"

#include <errno.h>
#include <poll.h>
#include <signal.h>
#include <stdio.h>
#include <stdlib.h>
#include <string.h>
#include <sys/socket.h>
#include <unistd.h>

enum { EDITS = 100000, MESSAGES = 10000, LONG = 2 * 1024 * 1024, PATIENCE = 1000, MOST_WAITING = 64 * 1024, STRANGERS = 10000 };

static volatile sig_atomic_t is_over;
static uint64_t connections, messages;

// Nothing is measured here.
void on_acknowledged(struct client *client, uint64_t step) { (void)client, (void)step; }
void on_reached(struct client *client, struct client *author, uint64_t step) { (void)client, (void)author, (void)step; }
void on_entry(struct client *client, struct client *author, uint64_t step) { (void)client, (void)author, (void)step; }
void on_copy(struct client *client) { (void)client; }
struct client *client_with_id(uint64_t id) { return (void)id, NULL; }
void set_id(struct client *client, uint64_t id) { client->id = id; }

static void stop(int signal) {
    (void)signal;
    is_over = 1;
}

// Puts message `number`. Returns 0 if there are no more.
typedef int next_message(struct client *client, uint64_t number);

static int put_edit(struct client *client, uint64_t number) {
    if (number > EDITS) return 0;
    lug.step(client, number);
    return 1;
}

static int put_garbage(struct client *client, uint64_t number) {
    char bytes[256];
    size_t length = 1 + rand() % sizeof bytes;
    for (size_t k = 0; k < length; k++) bytes[k] = rand();
    if (number <= MESSAGES) put_frame(&client->stream, BINARY, bytes, length);
    if (number == MESSAGES + 1) put(&client->stream, bytes, length);
    return number <= MESSAGES + 1;
}

static int put_long(struct client *client, uint64_t number) {
    static char text[LONG];
    (void)number;
    int length = snprintf(text, sizeof text, "[\"edit\",%lu,2,[\"set\",[%lu,1],\"t\",\"", client->id, client->id);
    memset(text + length, 'x', LONG - length);
    memcpy(text + LONG - 3, "\"]]", 3);
    put_frame(&client->stream, BINARY, text, LONG);
    return 1;
}

// Reads, and discards it. Returns -1 if the connection has ended.
static int discard(struct stream *stream) {
    if (fill_stream(stream) < 0) return -1;
    stream->in.from = stream->in.to;
    return 0;
}

// Sends until all is sent, the server takes nothing for a second, or the connection has ended.
static void send_all(struct client *client, next_message *next, int reads) {
    struct stream *stream = &client->stream;
    struct pollfd polled = {.fd = stream->fd};
    int has_more = 1;
    for (uint64_t number = 1; !is_over;) {
        while (stream->out.to - stream->out.from < MOST_WAITING && (has_more = next(client, number))) number++, messages++;
        if (flush_stream(stream) < 0 || (!has_more && stream->out.from == stream->out.to)) return;
        polled.events = POLLOUT | (reads ? POLLIN : 0);
        if (poll(&polled, 1, PATIENCE) == 0) return;
        if (polled.revents & POLLIN && discard(stream) < 0) return;
        if (polled.revents & (POLLERR | POLLHUP)) return;
    }
}

// Makes the connection of a stranger, and sends a byte.
static void open_stranger(struct pollfd *polled, int port) {
    struct stream stream = {0};
    open_stream(&stream, port);
    *polled = (struct pollfd){.fd = stream.fd, .events = POLLIN | POLLRDHUP};
    connections++;
    if (send(stream.fd, "G", 1, MSG_NOSIGNAL) == 1) messages++;
}

// Keeps strangers at the door.
static void be_strangers(int port) {
    static struct pollfd polled[STRANGERS];
    int count = 0;
    while (!is_over) {
        for (int burst = 0; burst < 200 && count < STRANGERS; burst++) open_stranger(&polled[count++], port);
        int ended = poll(polled, count, 10);
        for (int k = 0; k < count && ended > 0; k++) {
            if (!polled[k].revents) continue;
            ended--;
            close(polled[k].fd);
            open_stranger(&polled[k], port);
        }
    }
}

int main(int count, char **words) {
    const char *kind = count == 3 ? words[2] : "";
    next_message *next = strcmp(kind, "edits") == 0 ? put_edit : strcmp(kind, "garbage") == 0 ? put_garbage : put_long;
    if (next == put_long && strcmp(kind, "frames") != 0 && strcmp(kind, "strangers") != 0) fail("hostile PORT edits|garbage|frames|strangers");
    sigaction(SIGTERM, &(struct sigaction){.sa_handler = stop}, NULL);
    if (strcmp(kind, "strangers") == 0) be_strangers(atoi(words[1]));
    while (!is_over) {
        struct client client = {.protocol = &lug};
        lug.open(&client, atoi(words[1]));
        connections++;
        send_all(&client, next, next != put_edit);
        close_stream(&client.stream);
    }
    printf("{\"connections\":%lu,\"messages\":%lu}\n", connections, messages);
    return 0;
}
