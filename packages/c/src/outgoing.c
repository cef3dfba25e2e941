/* What a flow sends next: a join, edits, what the client shows of itself, asks.
 *
 * Up to `window` edits (and `window_bytes` of them) are under way at once, and asks follow them. The server reads, answers and reads on, so
 * answers come in the order of what was sent. If an answer is as full as it may be, more asks go ahead of the answers, each for the version
 * that the one before it leads to. */
#include "internal.h"

#include <inttypes.h>
#include <stdio.h>

enum { ASK_ROOM = 64 }; /* at least the number of bytes of an ask */

lugcurrant_client *lugcurrant_hearer_of(const lugcurrant_flow *flow)
{
    return flow->anew.step == JOIN_ANEW ? (lugcurrant_client *)&flow->anew.fresh : flow->client;
}

bool lugcurrant_reserve_message(lugcurrant_flow *flow, size_t length)
{
    if (length <= flow->message_room)
        return true;
    uint8_t *bytes = malloc(length);
    if (bytes == NULL)
        return false;
    free(flow->message);
    flow->message = bytes;
    flow->message_room = length;
    return true;
}

uint32_t lugcurrant_take_left(lugcurrant_flow *flow, lugcurrant_client *client, size_t *length)
{
    *length = lugcurrant_length(client);
    if (!lugcurrant_reserve_message(flow, *length))
        return LUGCURRANT_MEMORY;
    return lugcurrant_read(client, flow->message, *length);
}

static uint32_t next_join(lugcurrant_flow *flow, double now, size_t *length)
{
    lugcurrant_client *client = lugcurrant_hearer_of(flow);
    if (flow->fifo.count > 0 || now < flow->hold_until)
        return LUGCURRANT_NONE;
    if (flow->anew.step == JOIN_ANEW && lugcurrant_new(client) == LUGCURRANT_MEMORY)
        return LUGCURRANT_MEMORY; /* otherwise it is new, or was made before and HELD */
    uint32_t result = lugcurrant_join(client);
    if (result == LUGCURRANT_DONE)
        result = lugcurrant_take_left(flow, client, length);
    if (result != LUGCURRANT_DONE)
        return result;
    struct sent join = {.what = JOIN, .size = *length};
    lugcurrant_list_push(&flow->fifo, &join);
    return LUGCURRANT_DONE;
}

static uint32_t next_edit(lugcurrant_flow *flow, double now, size_t *length)
{
    uint64_t known = lugcurrant_acknowledged(flow->client), sent = flow->sent > known ? flow->sent : known;
    if (now < flow->hold_until || flow->edits >= flow->options.window || sent >= flow->limit)
        return LUGCURRANT_NONE;
    uint32_t result = lugcurrant_edit(flow->client, sent - known + 1);
    if (result != LUGCURRANT_DONE)
        return result;
    size_t size = lugcurrant_length(flow->client);
    if (flow->edits > 0 && (flow->bytes > flow->options.window_bytes || size > flow->options.window_bytes - flow->bytes))
        return LUGCURRANT_NONE;
    result = lugcurrant_take_left(flow, flow->client, length);
    if (result != LUGCURRANT_DONE)
        return result;
    struct sent edit = {.what = EDIT, .size = size, .number = sent + 1, .is_first = sent == known};
    lugcurrant_list_push(&flow->fifo, &edit);
    flow->sent = sent + 1;
    flow->edits++;
    flow->bytes += size;
    if (!lugcurrant_is_told(flow)) {
        flow->ask_at = now;
        flow->pause = flow->options.least_pause;
    }
    return LUGCURRANT_DONE;
}

static bool may_go_live(const lugcurrant_flow *flow)
{
    return flow->is_caught_up && flow->anew.step == NOT_ANEW && !flow->is_live && flow->live_at != NEVER;
}

static uint32_t next_live(lugcurrant_flow *flow, double now, size_t *length)
{
    if (!may_go_live(flow) || now < flow->live_at)
        return LUGCURRANT_NONE;
    if (!lugcurrant_reserve_message(flow, ASK_ROOM))
        return LUGCURRANT_MEMORY;
    struct sent live = {.what = GO_LIVE, .id = lugcurrant_id(flow->client)};
    int size = snprintf((char *)flow->message, ASK_ROOM, "[\"live\",%" PRIu32 ",%" PRIu64 "]", live.id, lugcurrant_version(flow->client));
    *length = (size_t)size;
    lugcurrant_list_push(&flow->fifo, &live);
    flow->live_at = NEVER;
    flow->ask_at = now + flow->options.beat;
    return LUGCURRANT_DONE;
}

uint32_t lugcurrant_steady(const lugcurrant_flow *flow)
{
    if (flow->pause > 4 * flow->options.least_pause)
        return 1;
    uint64_t fitting = MOST_ENTRIES / (flow->lately > 0 ? flow->lately : 1);
    if (fitting > flow->options.asks)
        fitting = flow->options.asks;
    return fitting > 0 ? (uint32_t)fitting : 1;
}

static bool may_ask(const lugcurrant_flow *flow)
{
    return flow->asking < (flow->width > 1 ? flow->width : lugcurrant_steady(flow));
}

static uint32_t give_ask(lugcurrant_flow *flow, const struct sent *ask, size_t *length)
{
    if (!lugcurrant_reserve_message(flow, ASK_ROOM))
        return LUGCURRANT_MEMORY;
    uint32_t id = lugcurrant_id(flow->anew.replaces ? flow->client : lugcurrant_hearer_of(flow)); /* an observer has none of the server's */
    int size = snprintf((char *)flow->message, ASK_ROOM, "[\"ask\",%" PRIu32 ",%" PRIu64 "]", id, ask->from);
    *length = (size_t)size;
    lugcurrant_list_push(&flow->fifo, ask);
    flow->asking++;
    return LUGCURRANT_DONE;
}

static uint32_t next_ask(lugcurrant_flow *flow, double now, size_t *length)
{
    bool is_catching_up = flow->width > 1 && flow->asking > 0;
    if (!may_ask(flow) || (now < flow->ask_at && !is_catching_up))
        return LUGCURRANT_NONE;
    uint64_t version = lugcurrant_version(lugcurrant_hearer_of(flow));
    uint64_t from = is_catching_up && flow->top > version ? flow->top : version;
    bool begins_round = flow->asking == 0;
    struct sent ask = {.what = ASK, .from = from, .at = now, .last_judged = flow->judged, .is_counted = true};
    uint32_t result = give_ask(flow, &ask, length);
    if (result != LUGCURRANT_DONE)
        return result;
    if (begins_round) {
        flow->useful = 0;
        flow->is_round_full = false;
    }
    flow->top = from + MOST_ENTRIES;
    flow->asked_at = now;
    double pause = lugcurrant_greatest_of(flow->options.least_pause, flow->trip / lugcurrant_steady(flow));
    flow->ask_at = now + (lugcurrant_is_told(flow) ? flow->options.beat : pause);
    return LUGCURRANT_DONE;
}

/* Asks for the next part of the log, to look through it for edits of this id. */
static uint32_t next_scan(lugcurrant_flow *flow, double now, size_t *length)
{
    if (flow->anew.is_asking || flow->fifo.count > 0 || now < flow->hold_until)
        return LUGCURRANT_NONE;
    struct sent ask = {.what = ASK, .from = flow->anew.from, .at = now, .is_counted = true, .is_scan = true};
    uint32_t result = give_ask(flow, &ask, length);
    if (result == LUGCURRANT_DONE)
        flow->anew.is_asking = true;
    return result;
}

uint32_t lugcurrant_flow_next_outgoing(lugcurrant_flow *flow, double now, const uint8_t **bytes, size_t *length)
{
    uint32_t result = LUGCURRANT_NONE;
    size_t size = 0;
    if (!flow->is_open)
        return LUGCURRANT_NONE;
    if (!lugcurrant_list_reserve(&flow->fifo, 1) || lugcurrant_load_observer(flow) != LUGCURRANT_DONE)
        return LUGCURRANT_MEMORY;
    if (flow->anew.step == SCAN) {
        result = next_scan(flow, now, &size);
    } else if (lugcurrant_id(lugcurrant_hearer_of(flow)) == 0) {
        result = next_join(flow, now, &size);
    } else {
        if (flow->anew.step == NOT_ANEW && !flow->is_full && flow->dropping == 0)
            result = next_edit(flow, now, &size);
        if (result == LUGCURRANT_NONE)
            result = next_live(flow, now, &size);
        if (result == LUGCURRANT_NONE)
            result = lugcurrant_next_shown(flow, now, &size);
        if (result == LUGCURRANT_NONE)
            result = next_ask(flow, now, &size);
    }
    if (result == LUGCURRANT_DONE) {
        *bytes = flow->message;
        *length = size;
    }
    return result;
}

double lugcurrant_flow_due(const lugcurrant_flow *flow, double now)
{
    if (!flow->is_open)
        return -1;
    if (flow->anew.step == SCAN)
        return flow->anew.is_asking || flow->fifo.count > 0 ? -1 : lugcurrant_greatest_of(0, flow->hold_until - now);
    if (lugcurrant_id(lugcurrant_hearer_of(flow)) == 0)
        return flow->fifo.count > 0 ? -1 : lugcurrant_greatest_of(0, flow->hold_until - now);
    double wait = may_ask(flow) ? flow->ask_at - now : NEVER;
    if (flow->hold_until > now && lugcurrant_waiting(flow->client) > 0)
        wait = lugcurrant_least_of(wait, flow->hold_until - now);
    if (may_go_live(flow))
        wait = lugcurrant_least_of(wait, flow->live_at - now);
    if (lugcurrant_may_show(flow))
        wait = lugcurrant_least_of(wait, flow->show_at - now);
    return wait == NEVER ? -1 : lugcurrant_greatest_of(0, wait);
}
