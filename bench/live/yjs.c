// A client of y-websocket: messages of y-protocols with updates of Yjs, version 1. It merges nothing, like all clients here; held.cjs checks
// with Yjs itself what the server has in the end.
//
// The document has a map `objects`, and in it a map for each client, named by its number, with the property "t": the number of the last step.
// Item 0 of a client is its map, and item K is step K.
#include "live.h"

#include <stdio.h>
#include <string.h>

enum { SYNC = 0, STEP_1 = 0, STEP_2 = 1, UPDATE = 2 };
enum { TYPE = 7, ANY = 8, HAS_NAME = 32, HAS_ORIGIN = 128, MAP = 1, WHOLE_NUMBER = 125 };

struct text {
    unsigned char bytes[128];
    size_t length;
};

static void add_byte(struct text *text, unsigned char byte) {
    text->bytes[text->length++] = byte;
}

static void add_number(struct text *text, uint64_t number) {
    for (; number > 127; number >>= 7) add_byte(text, 128 | (number & 127));
    add_byte(text, number);
}

static void add_string(struct text *text, const char *string) {
    add_number(text, strlen(string));
    while (*string) add_byte(text, *string++);
}

// A whole number. Its first byte has six bits of it, and the sign.
static void add_value(struct text *text, uint64_t number) {
    add_byte(text, WHOLE_NUMBER);
    add_byte(text, (number > 63 ? 128 : 0) | (number & 63));
    if (number > 63) add_number(text, number >> 6);
}

static void send_update(struct client *client, const struct text *update) {
    struct text message = {.length = 0};
    add_byte(&message, SYNC);
    add_byte(&message, UPDATE);
    add_number(&message, update->length);
    memcpy(message.bytes + message.length, update->bytes, update->length);
    put_frame(&client->stream, BINARY, message.bytes, message.length + update->length);
}

// The beginning of an update with one item of this client.
static struct text update_of(const struct client *client, uint64_t clock) {
    struct text update = {.length = 0};
    add_number(&update, 1);
    add_number(&update, 1);
    add_number(&update, client->id);
    add_number(&update, clock);
    return update;
}

static void make_map(struct client *client) {
    char name[16];
    struct text update = update_of(client, 0);
    snprintf(name, sizeof name, "%u", client->number);
    add_byte(&update, TYPE | HAS_NAME);
    add_number(&update, 1);
    add_string(&update, "objects");
    add_string(&update, name);
    add_number(&update, MAP);
    add_number(&update, 0);
    send_update(client, &update);
}

// The first value's parent is the map. A later one names the value before it as its origin, and deletes that.
static void step(struct client *client, uint64_t step) {
    struct text update = update_of(client, step);
    add_byte(&update, ANY | HAS_NAME | (step > 1 ? HAS_ORIGIN : 0));
    if (step == 1) add_number(&update, 0);
    add_number(&update, client->id);
    add_number(&update, step - 1);
    if (step == 1) add_string(&update, "t");
    add_number(&update, 1);
    add_value(&update, step);
    add_number(&update, step > 1);
    if (step > 1) {
        add_number(&update, client->id);
        add_number(&update, 1);
        add_number(&update, step - 1);
        add_number(&update, 1);
    }
    send_update(client, &update);
}

static uint64_t number_at(const unsigned char **bytes) {
    uint64_t number = 0;
    for (int shift = 0;; shift += 7) {
        unsigned char byte = *(*bytes)++;
        number |= (uint64_t)(byte & 127) << shift;
        if (byte < 128) return number;
    }
}

// The server passes on each update as it came: with one item.
static void take_update(struct client *client, const unsigned char *bytes) {
    number_at(&bytes);
    uint64_t authors = number_at(&bytes), items = number_at(&bytes);
    if (authors != 1 || items != 1) fail("an update has items of %lu authors", authors);
    struct client *author = client_with_id(number_at(&bytes));
    uint64_t clock = number_at(&bytes);
    on_entry(client, author, clock);
    if (author == client) on_acknowledged(client, clock);
}

static void take(struct client *client, struct stream *stream) {
    char *payload;
    size_t length;
    for (int opcode; (opcode = take_frame(stream, &payload, &length));) {
        if (opcode == CLOSE) fail("the server closes the connection of client %u", client->number);
        if (opcode != BINARY || length < 2 || payload[0] != SYNC) continue;
        if (payload[1] == STEP_2) client->answers++;
        if (payload[1] == UPDATE) take_update(client, (unsigned char *)payload + 2);
    }
}

static void open_client(struct client *client, int port) {
    static const char ask[] = {SYNC, STEP_1, 1, 0}, nothing[] = {SYNC, STEP_2, 2, 0, 0};
    set_id(client, client->number + 1);
    open_websocket(&client->stream, port, "/bench");
    put_frame(&client->stream, BINARY, ask, sizeof ask);
    put_frame(&client->stream, BINARY, nothing, sizeof nothing);
    make_map(client);
    while (take(client, &client->stream), client->answers == 0) await_input(&client->stream);
}

const struct protocol yjs = {"yjs", open_client, step, take};
