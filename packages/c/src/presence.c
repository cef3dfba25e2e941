/* What the clients of a document show of themselves while they are connected: cursors, names, what is chosen. Nothing of it is kept. As
 * packages/js/src/presence.js and the parts of flow.js about it. */
#include "internal.h"

#include <inttypes.h>
#include <stdio.h>

enum {
    MOST_BYTES = 1024, /* of a value */
    MOST_SHOWN = 16,   /* values under way at once */
    HEAD_ROOM = 32     /* at least the number of bytes of ["here",CLIENT, */
};

static const double SHOWN_EVERY = 34; /* milliseconds between two values: at most 30 a second */

static bool is_null(const uint8_t *json, size_t length)
{
    return length == 4 && memcmp(json, "null", 4) == 0;
}

/* ---- what the client shows ---- */

uint32_t lugcurrant_flow_presence_set(lugcurrant_flow *flow, const char *value, size_t length)
{
    lugcurrant_span text = {(const uint8_t *)value, length};
    uint8_t *json = malloc(length + 1);
    size_t count;
    if (json == NULL)
        return LUGCURRANT_MEMORY;
    uint32_t result = lugcurrant_json_compact(text, json, &count);
    if (result == LUGCURRANT_DONE && count > MOST_BYTES)
        result = LUGCURRANT_NO_ROOM;
    if (result != LUGCURRANT_DONE) {
        free(json);
        return result;
    }
    free(flow->shown);
    flow->shown = json;
    flow->shown_length = count;
    flow->is_showing = true;
    return LUGCURRANT_DONE;
}

bool lugcurrant_may_show(const lugcurrant_flow *flow)
{
    return flow->is_showing && flow->is_live && flow->here != HAS_NO_WORD && flow->showing < MOST_SHOWN;
}

uint32_t lugcurrant_next_shown(lugcurrant_flow *flow, double now, size_t *length)
{
    if (!lugcurrant_may_show(flow) || now < flow->show_at)
        return LUGCURRANT_NONE;
    if (!lugcurrant_reserve_message(flow, HEAD_ROOM + flow->shown_length))
        return LUGCURRANT_MEMORY;
    size_t head = (size_t)snprintf((char *)flow->message, HEAD_ROOM, "[\"here\",%" PRIu32 ",", lugcurrant_id(flow->client));
    memcpy(flow->message + head, flow->shown, flow->shown_length);
    flow->message[head + flow->shown_length] = ']';
    *length = head + flow->shown_length + 1;
    struct sent shown = {.what = SHOW, .size = *length};
    lugcurrant_list_push(&flow->fifo, &shown);
    flow->is_showing = false;
    flow->show_at = now + SHOWN_EVERY;
    flow->showing++;
    return LUGCURRANT_DONE;
}

void lugcurrant_show_again(lugcurrant_flow *flow)
{
    if (flow->shown != NULL && !is_null(flow->shown, flow->shown_length))
        flow->is_showing = true;
}

void lugcurrant_hear_no_to_shown(lugcurrant_flow *flow, uint32_t no, double now)
{
    if (no == LUGCURRANT_NO_UNREADABLE && flow->here == NOT_KNOWN)
        flow->here = HAS_NO_WORD;
    if (no != LUGCURRANT_NO_NO_MEMORY)
        return;
    flow->is_showing = true;
    flow->show_at = now + 1000;
}

/* ---- what the others show ---- */

/* Returns the index of the client in the list, or where it would be. */
static size_t index_of(const lugcurrant_list *others, uint32_t client)
{
    size_t low = 0, high = others->count;
    while (low < high) {
        size_t middle = low + (high - low) / 2;
        const lugcurrant_flow_other *other = lugcurrant_list_at(others, middle);
        if (other->client < client)
            low = middle + 1;
        else
            high = middle;
    }
    return low;
}

/* Returns what the list has at the index if it is this client's, or null. */
static lugcurrant_flow_other *other_at(const lugcurrant_list *others, size_t index, uint32_t client)
{
    lugcurrant_flow_other *other = index < others->count ? lugcurrant_list_at(others, index) : NULL;
    return other != NULL && other->client == client ? other : NULL;
}

/* Adds the event that the client shows this text, which is the event's then, or nothing any more. Its room is reserved already. */
static void tell(lugcurrant_flow *flow, uint32_t client, char *value, size_t length)
{
    struct queued *queued = lugcurrant_push_event(flow, LUGCURRANT_FLOW_PRESENCE);
    queued->event.client = client;
    queued->event.value_length = length;
    queued->value = value;
}

static void remove_other(lugcurrant_flow *flow, uint32_t client)
{
    lugcurrant_list *others = &flow->others;
    size_t index = index_of(others, client);
    lugcurrant_flow_other *other = other_at(others, index, client);
    if (other == NULL)
        return;
    free((char *)other->value);
    others->count--;
    memmove(other, other + 1, (others->count - index) * others->size);
    tell(flow, client, NULL, 0);
}

/* Notes what the client shows: a text that is the list's then, and one that is the event's. Room for both is reserved already. */
static void put_other(lugcurrant_flow *flow, lugcurrant_flow_other shown, char *told)
{
    size_t index = index_of(&flow->others, shown.client);
    lugcurrant_flow_other *other = other_at(&flow->others, index, shown.client);
    if (other != NULL) {
        free((char *)other->value);
        *other = shown;
    } else {
        lugcurrant_list_insert(&flow->others, index, &shown);
    }
    tell(flow, shown.client, told, shown.length);
}

/* Reads ["here",CLIENT,VALUE]. Returns false if the message is something else. The text of the value isn't looked at. */
static bool read_shown(lugcurrant_span message, uint64_t *client, lugcurrant_span *value)
{
    lugcurrant_span part;
    size_t mark = 0;
    return lugcurrant_json_next(message, &mark, &part) && lugcurrant_json_is_word(part, "here") &&
           lugcurrant_json_next(message, &mark, &part) && lugcurrant_json_number(part, client) && *client <= UINT32_MAX &&
           lugcurrant_json_next(message, &mark, value) && message.at[mark] == ']' && mark + 1 == message.length;
}

static uint32_t set_unreadable(lugcurrant_flow *flow)
{
    lugcurrant_set_state(flow, LUGCURRANT_STATE_FAULT, "what others show of themselves can not be read");
    return LUGCURRANT_DONE;
}

/* Notes what another client shows. DONE, MEMORY. */
static uint32_t hear_other(lugcurrant_flow *flow, uint32_t client, lugcurrant_span value)
{
    size_t length = 0;
    char *kept = malloc(value.length + 1), *told = malloc(value.length + 1);
    bool has_room = kept != NULL && told != NULL && lugcurrant_list_reserve(&flow->others, 1);
    bool is_read = has_room && lugcurrant_json_compact(value, (uint8_t *)kept, &length) == LUGCURRANT_DONE;
    if (!is_read || is_null((const uint8_t *)kept, length)) {
        free(kept);
        free(told);
        if (!has_room)
            return LUGCURRANT_MEMORY;
        if (!is_read)
            return set_unreadable(flow);
        remove_other(flow, client);
        return LUGCURRANT_DONE;
    }
    kept[length] = '\0';
    memcpy(told, kept, length + 1);
    lugcurrant_flow_other shown = {.client = client, .value = kept, .length = length};
    put_other(flow, shown, told);
    return LUGCURRANT_DONE;
}

uint32_t lugcurrant_hear_shown(lugcurrant_flow *flow, lugcurrant_span message)
{
    uint64_t client;
    lugcurrant_span value;
    if (!read_shown(message, &client, &value))
        return set_unreadable(flow);
    bool is_own = client == lugcurrant_id(flow->client);
    if (!is_own && client != flow->told_id && hear_other(flow, (uint32_t)client, value) != LUGCURRANT_DONE)
        return LUGCURRANT_MEMORY;
    flow->here = HAS_WORD;
    if (is_own && is_null(value.at, value.length))
        lugcurrant_show_again(flow); /* an older connection has ended, or that of another program with this id */
    return LUGCURRANT_DONE;
}

void lugcurrant_forget_others(lugcurrant_flow *flow)
{
    for (size_t k = 0; k < flow->others.count; k++) {
        lugcurrant_flow_other *other = lugcurrant_list_at(&flow->others, k);
        free((char *)other->value);
        tell(flow, other->client, NULL, 0);
    }
    flow->others.count = 0;
}

size_t lugcurrant_flow_presence_others(const lugcurrant_flow *flow, const lugcurrant_flow_other **others)
{
    *others = flow->others.count > 0 ? lugcurrant_list_at(&flow->others, 0) : NULL;
    return flow->others.count;
}
