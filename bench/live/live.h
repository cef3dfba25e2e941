// What the C programs of this folder share: streams, WebSocket frames, the protocols of three servers, and meters.
#ifndef LIVE_H
#define LIVE_H

#include <stddef.h>
#include <stdint.h>

enum {
    RING = 4096,        // steps of one client that may be sent and not received or not acknowledged
    MOST_CLIENTS = 256,
};

// ---- stream.c ----

// Bytes that wait: those from `from` to `to`.
struct buffer {
    char *bytes;
    size_t from, to, room;
};

// A nonblocking connection, with the bytes that were read and not taken, and those that were put and not sent.
struct stream {
    int fd;
    struct client *owner;
    struct buffer in, out;
    int is_full;                    // the socket didn't take all
};

double milliseconds(void);                              // of a monotonic clock
_Noreturn void fail(const char *format, ...);           // prints the message, and exits with 1
void open_stream(struct stream *stream, int port);      // to this port of the loopback
void close_stream(struct stream *stream);
void put(struct stream *stream, const void *bytes, size_t count);
int flush_stream(struct stream *stream);                // sends what the socket takes; -1 if the connection has ended
int fill_stream(struct stream *stream);                 // reads once; -1 if the connection has ended
void await_input(struct stream *stream);                // blocks until there is input, and reads it; fails after a minute

// ---- websocket.c ----

enum { TEXT = 1, BINARY = 2, CLOSE = 8, PING = 9, PONG = 10 };

// Connects. If the server refuses the handshake, as without a free seat, it tries again for ten seconds.
void open_websocket(struct stream *stream, int port, const char *path);
void put_frame(struct stream *stream, int opcode, const void *payload, size_t length);
// Takes the next whole frame. Returns its opcode, or 0 if there is none. The payload is valid until the next read. Puts a pong for a ping.
int take_frame(struct stream *stream, char **payload, size_t *length);

// ---- clients.c, lug.c, yjs.c, redis.c ----

// DRAGS sends steps at a steady rate. FLOODS sends the next one as soon as its window has room. WATCHES sends none.
enum role { WATCHES, DRAGS, FLOODS };

// A client. Step 0 makes its object; each later step sets one property of it to the number of the step.
struct client {
    const struct protocol *protocol;
    struct worker *worker;
    struct stream stream, reader;   // Redis: one to write, one to read
    enum role role;
    unsigned number;                // from 0 on
    uint64_t id;                    // of the server
    uint64_t answers;               // the number of its messages that were answered
    uint64_t version;               // the number of entries that it has received
    char last[64];                  // Redis: the id of the last entry that it has received
    uint64_t sent, acknowledged;    // its last step that was sent, and that was acknowledged
    uint64_t seen;                  // its last step that the watching client has received
    double sent_at[RING];           // when each step was sent
    double due;                     // when it sends its next step, if it drags
};

struct protocol {
    const char *name;
    void (*open)(struct client *client, int port);           // connects, makes the object, and subscribes to all edits
    void (*step)(struct client *client, uint64_t step);      // puts the message of a step
    void (*take)(struct client *client, struct stream *stream); // takes all whole messages that were read
};

extern const struct protocol lug, yjs, redis;

// What a protocol reports of a client: its steps up to this one were acknowledged; it has an author's steps up to this one; it has received an
// entry of an author, or a copy of the document. NULL is an author that is no client of this program.
void on_acknowledged(struct client *client, uint64_t step);
void on_reached(struct client *client, struct client *author, uint64_t step);
void on_entry(struct client *client, struct client *author, uint64_t step);
void on_copy(struct client *client);

// The client of this id, or NULL.
struct client *client_with_id(uint64_t id);
void set_id(struct client *client, uint64_t id);

// ---- meter.c ----

// The processes of a measurement.
struct watched {
    int server, others[8];
    int other_count;
};

struct sample {
    double at;                      // milliseconds
    double server, ours, own;       // CPU seconds: the server's; those of all processes of the measurement; this program's
    double busy, stolen;            // CPU seconds of the whole machine, and those that a hypervisor took
    uint64_t switches;              // context switches of the server
    uint64_t memory, peak;          // of the server, in kB
};

struct sample take_sample(const struct watched *watched);

#endif
