// A client of Redis: it writes by XADD on one connection, and reads by XREAD BLOCK on another.
#define _GNU_SOURCE
#include "live.h"

#include <stdio.h>
#include <stdlib.h>
#include <string.h>

enum { MOST_READ = 1000, MOST_STRINGS = 5 * MOST_READ + 1 };

// The strings of a reply, in order, and its end: NULL if the reply isn't whole yet.
struct reply {
    const char *strings[MOST_STRINGS];
    int count;
    const char *end;
};

// Reads the number of a line. Returns the beginning of the next line, or NULL if this one isn't whole yet.
static const char *read_line(const char *text, const char *end, long *number) {
    const char *line = memmem(text, end - text, "\r\n", 2);
    if (!line) return NULL;
    *number = atol(text + 1);
    return line + 2;
}

// Reads a reply: an array of N has N more parts.
static void read_reply(struct reply *reply, const char *text, const char *end) {
    reply->count = 0;
    reply->end = NULL;
    for (long left = 1, number; left > 0; left--) {
        const char *line = text;
        text = read_line(line, end, &number);
        if (!text) return;
        char kind = *line;
        if (kind == '-') fail("Redis answers %.*s", (int)(text - line), line);
        if (kind == '*' && number > 0) left += number;
        if (kind != '$' || number < 0) continue;
        if (end - text < number + 2 || reply->count == MOST_STRINGS) return;
        reply->strings[reply->count++] = text;
        text += number + 2;
    }
    reply->end = text;
}

// Asks for the entries after the last one.
static void read_on(struct client *client) {
    char text[256];
    int length = snprintf(text, sizeof text,
                          "*8\r\n$5\r\nXREAD\r\n$5\r\nCOUNT\r\n$4\r\n%d\r\n$5\r\nBLOCK\r\n$1\r\n0\r\n"
                          "$7\r\nSTREAMS\r\n$1\r\ns\r\n$%zu\r\n%s\r\n",
                          MOST_READ, strlen(client->last), client->last);
    put(&client->reader, text, length);
}

// Takes a reply to XREAD: the stream's name, and then for each entry its id, "c", the client, "t" and the step.
static void take_entries(struct client *client, const struct reply *reply) {
    for (int k = 1; k + 5 <= reply->count; k += 5) {
        client->version++;
        on_entry(client, client_with_id(atol(reply->strings[k + 2])), atol(reply->strings[k + 4]));
    }
    int length = strcspn(reply->strings[reply->count - 5], "\r");
    snprintf(client->last, sizeof client->last, "%.*s", length, reply->strings[reply->count - 5]);
    read_on(client);
}

static void take(struct client *client, struct stream *stream) {
    static _Thread_local struct reply reply;
    struct buffer *in = &stream->in;
    while (read_reply(&reply, in->bytes + in->from, in->bytes + in->to), reply.end) {
        if (stream == &client->reader) {
            take_entries(client, &reply);
        } else {
            on_acknowledged(client, client->answers++);
        }
        in->from = reply.end - in->bytes;
    }
}

static void step(struct client *client, uint64_t step) {
    char text[256], author[24], number[24];
    int author_length = snprintf(author, sizeof author, "%lu", client->id);
    int number_length = snprintf(number, sizeof number, "%lu", step);
    int length = snprintf(text, sizeof text,
                          "*7\r\n$4\r\nXADD\r\n$1\r\ns\r\n$1\r\n*\r\n$1\r\nc\r\n$%d\r\n%s\r\n$1\r\nt\r\n$%d\r\n%s\r\n",
                          author_length, author, number_length, number);
    put(&client->stream, text, length);
}

static void open_client(struct client *client, int port) {
    set_id(client, client->number + 1);
    open_stream(&client->stream, port);
    open_stream(&client->reader, port);
    strcpy(client->last, "0");
    step(client, 0);
    read_on(client);
    while (take(client, &client->stream), client->answers == 0) await_input(&client->stream);
    flush_stream(&client->reader);
}

const struct protocol redis = {"redis", open_client, step, take};
