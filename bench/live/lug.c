// A live client of `lugcurrant serve` (docs/clients.md).
#define _GNU_SOURCE
#include "live.h"

#include <stdarg.h>
#include <stdio.h>
#include <string.h>

static void say(struct client *client, const char *format, ...) {
    char text[256];
    va_list words;
    va_start(words, format);
    int length = vsnprintf(text, sizeof text, format, words);
    va_end(words);
    put_frame(&client->stream, BINARY, text, length);
}

// Reads the digits at a place of a text, and moves the place past them.
static uint64_t number_at(const char **text) {
    uint64_t number = 0;
    for (; **text >= '0' && **text <= '9'; (*text)++) number = number * 10 + (**text - '0');
    return number;
}

// The edit of number N is step N - 1: the first makes the client's page.
static void take_entry(struct client *client, const char *text) {
    text += strlen("[\"entry\",");
    uint64_t version = number_at(&text);
    text += strlen(",[");
    uint64_t author = number_at(&text);
    text += strlen(",");
    uint64_t number = number_at(&text);
    if (version != client->version + 1) fail("client %u has version %lu, and receives entry %lu", client->number, client->version, version);
    client->version = version;
    if (author == 0) return;
    on_entry(client, client_with_id(author), number - 1);
    if (author == client->id) on_acknowledged(client, number - 1);
}

// The kind in the row of the next page, [[ID,1],"page",[[0,0],POSITION],[["t",STEP]]], or NULL.
static const char *next_page(const char *text, const char *end) {
    static const char kind[] = ",1],\"page\",";
    return memmem(text, end - text, kind, strlen(kind));
}

// Takes the pages of a copy. One without a step has no property.
static void take_rows(struct client *client, const char *text, const char *end) {
    static const char property[] = "[[\"t\",";
    for (const char *row = next_page(text, end), *next; row; row = next) {
        next = next_page(row + 1, end);
        const char *id = row, *step = memmem(row, (next ? next : end) - row, property, strlen(property));
        if (!step) continue;
        step += strlen(property);
        while (id[-1] >= '0' && id[-1] <= '9') id--;
        on_reached(client, client_with_id(number_at(&id)), number_at(&step));
    }
}

static void take_copy(struct client *client, const char *text, size_t length) {
    const char *end = text + length;
    text += strlen("[\"copy\",");
    client->version = number_at(&text);
    text += strlen(",");
    uint64_t done = number_at(&text);
    on_copy(client);
    if (done > 0) on_acknowledged(client, done - 1);
    take_rows(client, text, end);
}

static void take_message(struct client *client, const char *text, size_t length) {
    const char *number = text + strlen("[\"welcome\",");
    switch (length > 2 ? text[2] : 0) {
    case 'e':
        take_entry(client, text);
        break;
    case 'c':
        take_copy(client, text, length);
        break;
    case 'w':
        set_id(client, number_at(&number));
        // fall through
    case 'i':
        client->answers++;
        break;
    default:
        fail("client %u is answered %.*s", client->number, (int)length, text);
    }
}

static void take(struct client *client, struct stream *stream) {
    char *payload;
    size_t length;
    for (int opcode; (opcode = take_frame(stream, &payload, &length));) {
        if (opcode == BINARY) take_message(client, payload, length);
        if (opcode == CLOSE) fail("the server closes the connection of client %u", client->number);
    }
}

// Waits until `count` messages were answered.
static void await_answers(struct client *client, uint64_t count) {
    while (take(client, &client->stream), client->answers < count) await_input(&client->stream);
}

static void open_client(struct client *client, int port) {
    open_websocket(&client->stream, port, "/");
    say(client, "[\"join\",2]");
    await_answers(client, 1);
    say(client, "[\"edit\",%lu,1,[\"create\",[%lu,1],\"page\",[[0,0],\"%06luO\"]]]", client->id, client->id, client->id);
    say(client, "[\"live\",%lu,0]", client->id);
    await_answers(client, 3);
}

static void step(struct client *client, uint64_t step) {
    say(client, "[\"edit\",%lu,%lu,[\"set\",[%lu,1],\"t\",%lu]]", client->id, step + 1, client->id, step);
}

const struct protocol lug = {"lug", open_client, step, take};
