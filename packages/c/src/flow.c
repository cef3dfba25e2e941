/* What a link says and hears, without sockets and clocks: which messages to send next on the open connection, and what an answer means.
 * The same machine as packages/js/src/flow.js and packages/python/src/lugcurrant/flow.py. All are tested with the same made-up servers.
 *
 * This file has the state of a flow and its events. outgoing.c has what to send, hearing.c what is heard, presence.c what clients show of
 * themselves, and anew.c a client that begins anew.
 *
 * What a call needs is reserved before anything is changed, so that a call that is out of memory changes nothing. */
#include "internal.h"

/* ---- lists that own texts ---- */

static void free_found(lugcurrant_list *list)
{
    for (size_t k = 0; k < list->count; k++)
        free(((struct found *)lugcurrant_list_at(list, k))->change);
    lugcurrant_list_free(list);
}

static void free_edits(lugcurrant_list *list)
{
    for (size_t k = 0; k < list->count; k++) {
        const lugcurrant_flow_edit *edit = lugcurrant_list_at(list, k);
        free((char *)edit->change);
    }
    lugcurrant_list_free(list);
}

/* Empties the lists, and leaves a remaking that hasn't begun. */
static void clear_remaking(struct remaking *remaking)
{
    lugcurrant_list_free(&remaking->fates);
    free_edits(&remaking->lost);
    free_edits(&remaking->unsure);
    lugcurrant_list_free(&remaking->ids);
    memset(remaking, 0, sizeof *remaking);
    remaking->fates.size = sizeof(unsigned char);
    remaking->lost.size = sizeof(lugcurrant_flow_edit);
    remaking->unsure.size = sizeof(lugcurrant_flow_edit);
    remaking->ids.size = sizeof(lugcurrant_flow_new_id);
}

static void free_queued(struct queued *queued)
{
    clear_remaking(&queued->remaking);
    free(queued->value);
    queued->value = NULL;
}

void lugcurrant_forget_fresh(struct anew *anew)
{
    lugcurrant_free(&anew->fresh);
    lugcurrant_free(&anew->emptied);
    clear_remaking(&anew->remaking);
}

void lugcurrant_forget_anew(lugcurrant_flow *flow)
{
    struct anew *anew = &flow->anew;
    lugcurrant_forget_fresh(anew);
    free_found(&anew->found);
    memset(anew, 0, sizeof *anew);
    anew->found.size = sizeof(struct found);
    clear_remaking(&anew->remaking);
}

/* ---- events and states ---- */

bool lugcurrant_reserve_events(lugcurrant_flow *flow)
{
    return lugcurrant_list_reserve(&flow->events, MOST_EVENTS + flow->others.count);
}

struct queued *lugcurrant_push_event(lugcurrant_flow *flow, uint32_t type)
{
    struct queued queued;
    memset(&queued, 0, sizeof queued);
    queued.event.type = type;
    lugcurrant_list_push(&flow->events, &queued);
    return lugcurrant_list_at(&flow->events, flow->events.count - 1);
}

void lugcurrant_set_state(lugcurrant_flow *flow, uint32_t state, const char *words)
{
    if (flow->state == state && strcmp(flow->words, words) == 0)
        return;
    flow->state = state;
    flow->words = words;
    struct queued *queued = lugcurrant_push_event(flow, LUGCURRANT_FLOW_STATE);
    queued->event.state = state;
    queued->event.words = words;
}

static const void *items_of(const lugcurrant_list *list, size_t *count)
{
    *count = list->count;
    return list->count > 0 ? lugcurrant_list_at(list, 0) : NULL;
}

uint32_t lugcurrant_flow_next_event(lugcurrant_flow *flow, lugcurrant_flow_event *event)
{
    if (flow->events.count == 0)
        return LUGCURRANT_NONE;
    free_queued(&flow->told);
    flow->told = *(struct queued *)lugcurrant_list_at(&flow->events, 0);
    lugcurrant_list_shift(&flow->events);
    const struct remaking *remaking = &flow->told.remaking;
    *event = flow->told.event;
    event->made = remaking->made;
    event->lost = items_of(&remaking->lost, &event->lost_count);
    event->unsure = items_of(&remaking->unsure, &event->unsure_count);
    event->ids = items_of(&remaking->ids, &event->ids_count);
    event->value = flow->told.value;
    return LUGCURRANT_DONE;
}

/* ---- the connection ---- */

void lugcurrant_may_be_judged(lugcurrant_flow *flow, uint64_t number)
{
    if (number > flow->tried)
        flow->tried = number;
}

static void reset(lugcurrant_flow *flow)
{
    for (size_t k = 0; k < flow->fifo.count; k++) {
        const struct sent *it = lugcurrant_list_at(&flow->fifo, k);
        if (it->what == EDIT)
            lugcurrant_may_be_judged(flow, it->number);
    }
    /* It was out of memory while it made edits again: more may have been judged until it continues. */
    if (flow->anew.remaking.fates.count > 0)
        lugcurrant_forget_fresh(&flow->anew);
    flow->is_open = false;
    lugcurrant_list_free(&flow->fifo);
    flow->edits = 0;
    flow->bytes = 0;
    flow->asking = 0;
    flow->width = 1;
    flow->top = 0;
    flow->useful = 0;
    flow->is_round_full = false;
    flow->ask_at = 0;
    flow->asked_at = 0;
    flow->pause = flow->options.least_pause;
    flow->hold_until = 0;
    flow->hold_for = FIRST_WAIT;
    flow->sent = 0;
    flow->is_caught_up = false;
    flow->trip = 0;
    flow->lately = 0;
    flow->missing = 0;
    flow->is_full = false;
    flow->is_live = false;
    flow->told_id = 0;
    flow->live_at = 0;
    flow->is_older = false;
    flow->is_showing = false;
    flow->show_at = 0;
    flow->showing = 0;
    flow->here = NOT_KNOWN;
    lugcurrant_forget_others(flow);
}

static void set_options(lugcurrant_flow *flow, const lugcurrant_flow_options *given)
{
    static const lugcurrant_flow_options defaults = {64, 262144, 4, 32, 5, 400, 20000};
    lugcurrant_flow_options *options = &flow->options;
    *options = given != NULL ? *given : defaults;
    if (options->window == 0)
        options->window = defaults.window;
    if (options->window_bytes == 0)
        options->window_bytes = defaults.window_bytes;
    if (options->asks == 0)
        options->asks = defaults.asks;
    if (options->most_asks == 0)
        options->most_asks = defaults.most_asks;
    if (options->least_pause == 0)
        options->least_pause = defaults.least_pause;
    if (options->most_pause == 0)
        options->most_pause = defaults.most_pause;
    if (options->beat == 0)
        options->beat = defaults.beat;
}

lugcurrant_flow *lugcurrant_flow_new(lugcurrant_client *client, const lugcurrant_flow_options *options)
{
    if (!LUGCURRANT_LIBRARY_MATCHES())
        return NULL;
    lugcurrant_flow *flow = malloc(sizeof *flow);
    if (flow == NULL)
        return NULL;
    memset(flow, 0, sizeof *flow);
    flow->client = client;
    set_options(flow, options);
    flow->limit = ENDLESS;
    flow->tried = lugcurrant_acknowledged(client) + lugcurrant_waiting(client);
    flow->state = LUGCURRANT_STATE_CONNECTING;
    flow->words = "";
    flow->fifo.size = sizeof(struct sent);
    flow->events.size = sizeof(struct queued);
    flow->others.size = sizeof(lugcurrant_flow_other);
    lugcurrant_forget_anew(flow);
    reset(flow);
    return flow;
}

void lugcurrant_flow_free(lugcurrant_flow *flow)
{
    if (flow == NULL)
        return;
    lugcurrant_forget_anew(flow);
    lugcurrant_forget_others(flow);
    lugcurrant_list_free(&flow->others);
    for (size_t k = 0; k < flow->events.count; k++)
        free_queued(lugcurrant_list_at(&flow->events, k));
    lugcurrant_list_free(&flow->events);
    free_queued(&flow->told);
    lugcurrant_list_free(&flow->fifo);
    free(flow->shown);
    free(flow->message);
    free(flow);
}

void lugcurrant_flow_open(lugcurrant_flow *flow, double now)
{
    reset(flow);
    flow->is_open = true;
    flow->ask_at = now;
    flow->anew.is_asking = false;
}

void lugcurrant_flow_lost(lugcurrant_flow *flow)
{
    reset(flow);
}

void lugcurrant_flow_wake(lugcurrant_flow *flow, double now)
{
    if (!flow->is_open || lugcurrant_is_told(flow))
        return;
    flow->ask_at = lugcurrant_least_of(flow->ask_at, now);
    flow->pause = flow->options.least_pause;
}

void lugcurrant_leave(lugcurrant_flow *flow)
{
    flow->missing = 0;
    flow->top = 0;
    flow->width = 1;
    flow->is_live = false;
    if (!flow->is_older)
        flow->live_at = 0;
}

bool lugcurrant_is_told(const lugcurrant_flow *flow)
{
    return flow->anew.step == NOT_ANEW && (flow->is_live || (flow->live_at == NEVER && !flow->is_older));
}

bool lugcurrant_is_missing(const lugcurrant_flow *flow)
{
    return flow->judged > lugcurrant_acknowledged(flow->client);
}

uint32_t lugcurrant_flow_state(const lugcurrant_flow *flow)
{
    return flow->state;
}

uint64_t lugcurrant_flow_unsent(const lugcurrant_flow *flow)
{
    uint64_t known = lugcurrant_acknowledged(flow->client), last = known + lugcurrant_waiting(flow->client);
    uint64_t had = flow->judged > known ? flow->judged : known;
    return last > had ? last - had : 0;
}

bool lugcurrant_flow_is_settled(const lugcurrant_flow *flow)
{
    return flow->is_caught_up && flow->anew.step == NOT_ANEW && lugcurrant_waiting(flow->client) == 0 && flow->edits == 0;
}

size_t lugcurrant_flow_unanswered(const lugcurrant_flow *flow)
{
    return flow->fifo.count;
}

void lugcurrant_flow_set_limit(lugcurrant_flow *flow, uint64_t number)
{
    flow->limit = number;
}

void lugcurrant_flow_saved(lugcurrant_flow *flow)
{
    flow->saved = lugcurrant_acknowledged(flow->client) + lugcurrant_waiting(flow->client);
}
