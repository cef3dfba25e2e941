/* A client that begins anew: it takes another id, looks through the log for its edits that were judged, and makes the others again. */
#include "internal.h"

#include <inttypes.h>
#include <stdio.h>

static const char STRANGER_WORDS[] = "the server has another history; it begins anew";
static const char REPLACED_WORDS[] = "another program uses this id; it begins anew";

/* ---- lists by numbers, whose items begin with a uint64_t ---- */

/* Returns the index of the first item whose number isn't less. */
static size_t place_of(const lugcurrant_list *list, uint64_t number)
{
    size_t low = 0, high = list->count;
    while (low < high) {
        size_t middle = low + (high - low) / 2;
        const uint64_t *it = lugcurrant_list_at(list, middle);
        if (*it < number)
            low = middle + 1;
        else
            high = middle;
    }
    return low;
}

/* Returns the item of this number, or null. */
static void *item_of(const lugcurrant_list *list, uint64_t number)
{
    size_t at = place_of(list, number);
    uint64_t *it = at < list->count ? lugcurrant_list_at(list, at) : NULL;
    return it != NULL && *it == number ? it : NULL;
}

/* ---- the beginning ---- */

void lugcurrant_void_all(lugcurrant_flow *flow)
{
    for (size_t k = 0; k < flow->fifo.count; k++)
        ((struct sent *)lugcurrant_list_at(&flow->fifo, k))->is_void = true;
}

void lugcurrant_begin_anew(lugcurrant_flow *flow, uint32_t state, bool scans, uint64_t from)
{
    if (flow->anew.step != NOT_ANEW || lugcurrant_id(flow->client) == 0)
        return; /* without an id it has neither edits nor news */
    lugcurrant_void_all(flow);
    flow->anew.step = JOIN_ANEW;
    flow->anew.scans = scans;
    flow->anew.looks = scans;
    flow->anew.state = state;
    flow->anew.from = from;
    flow->dropping = 0;
    lugcurrant_leave(flow);
    const char *words = flow->state == state ? flow->words : STRANGER_WORDS;
    lugcurrant_set_state(flow, state, state == LUGCURRANT_STATE_REPLACED ? REPLACED_WORDS : words);
}

uint32_t lugcurrant_flow_begin_anew(lugcurrant_flow *flow)
{
    if (!lugcurrant_reserve_events(flow))
        return LUGCURRANT_MEMORY;
    lugcurrant_forget_anew(flow);
    lugcurrant_begin_anew(flow, LUGCURRANT_STATE_STRANGER, true, lugcurrant_version(flow->client));
    return LUGCURRANT_DONE;
}

/* ---- edits that wait ---- */

/* Returns the greatest number under which an edit of this program may have been judged. */
static uint64_t most_tried(const lugcurrant_flow *flow)
{
    return flow->judged > flow->tried ? flow->judged : flow->tried;
}

/* Reads the change of the i-th edit that waits, counted from 0, into `message`. DONE, NONE, MEMORY. */
static uint32_t read_change(lugcurrant_flow *flow, uint64_t i, lugcurrant_span *change)
{
    size_t length;
    uint32_t result = lugcurrant_edit(flow->client, i + 1);
    if (result == LUGCURRANT_DONE)
        result = lugcurrant_take_left(flow, flow->client, &length);
    if (result != LUGCURRANT_DONE)
        return result;
    lugcurrant_span message = {flow->message, length};
    *change = message;
    lugcurrant_json_member(message, 3, change);
    return LUGCURRANT_DONE;
}

/* ---- whether another program uses the id ---- */

/* Reads the number of judged edits of ["copy",VERSION,DONE,.. */
static uint64_t done_of(lugcurrant_span copy)
{
    return lugcurrant_number_at(copy, 2);
}

/* What waiting edits do to an object of the client's id. */
struct own {
    uint64_t counter; /* of the object's id */
    bool is_created;
    bool is_deleted;
    uint32_t kind;    /* the kind that is created by an edit up to the number in question, or 0 */
};

/* Returns what is known of the object, a new item if nothing is; or null if out of memory. */
static struct own *own_of(lugcurrant_list *list, uint64_t counter)
{
    struct own *own = item_of(list, counter), none = {.counter = counter};
    if (own != NULL)
        return own;
    if (!lugcurrant_list_reserve(list, 1))
        return NULL;
    lugcurrant_list_insert(list, place_of(list, counter), &none);
    return item_of(list, counter);
}

/* Lists what the waiting edits create and delete of the client's id; of creations up to the number `done` the kind. DONE, MEMORY. */
static uint32_t list_own(lugcurrant_flow *flow, uint64_t done, lugcurrant_list *list)
{
    uint64_t known = lugcurrant_acknowledged(flow->client);
    for (uint64_t i = 0;; i++) {
        lugcurrant_span change, word, text;
        lugcurrant_object_id id;
        uint32_t result = read_change(flow, i, &change);
        if (result != LUGCURRANT_DONE)
            return result == LUGCURRANT_NONE ? LUGCURRANT_DONE : result;
        if (!lugcurrant_json_member(change, 0, &word) || !lugcurrant_json_member(change, 1, &text) || !lugcurrant_json_id(text, &id))
            continue;
        bool creates = lugcurrant_json_is_word(word, "create"), deletes = lugcurrant_json_is_word(word, "delete");
        if (id.client != lugcurrant_id(flow->client) || (!creates && !deletes))
            continue;
        struct own *own = own_of(list, id.counter);
        if (own == NULL)
            return LUGCURRANT_MEMORY;
        own->is_created |= creates;
        own->is_deleted |= deletes;
        if (creates)
            own->kind = known + i + 1 <= done && lugcurrant_json_member(change, 2, &text) ? lugcurrant_json_kind(text) : 0;
    }
}

/* Checks whether the object of a copy's row has the client's id, and the client hasn't created it. DONE, MEMORY. */
static uint32_t check_row(const lugcurrant_flow *flow, const lugcurrant_list *list, lugcurrant_span row, bool *is_other)
{
    lugcurrant_span text, kind;
    lugcurrant_object_id id;
    if (!lugcurrant_json_member(row, 0, &text) || !lugcurrant_json_id(text, &id) || id.client != lugcurrant_id(flow->client) ||
        !lugcurrant_json_member(row, 1, &kind))
        return LUGCURRANT_DONE;
    const struct own *own = item_of(list, id.counter);
    if (own != NULL && own->is_created) {
        *is_other = own->kind == 0 || own->kind != lugcurrant_json_kind(kind);
        return LUGCURRANT_DONE;
    }
    if (own != NULL)
        return LUGCURRANT_DONE; /* it was deleted */
    uint32_t result = lugcurrant_object(flow->client, id.client, id.counter);
    *is_other = result == LUGCURRANT_NONE;
    return result == LUGCURRANT_MEMORY ? result : LUGCURRANT_DONE;
}

/* Checks whether a copy has an object with the client's id that the client hasn't created by its edits up to the number `done`. DONE,
 * MEMORY. */
static uint32_t check_others(lugcurrant_flow *flow, lugcurrant_span copy, uint64_t done, bool *has_others)
{
    lugcurrant_list list = {.size = sizeof(struct own)};
    lugcurrant_span rows, row;
    size_t mark = 0;
    uint32_t result = list_own(flow, done, &list);
    if (result == LUGCURRANT_DONE && lugcurrant_json_member(copy, 3, &rows))
        while (result == LUGCURRANT_DONE && !*has_others && lugcurrant_json_next(rows, &mark, &row))
            result = check_row(flow, &list, row, has_others);
    lugcurrant_list_free(&list);
    return result;
}

uint32_t lugcurrant_check_twin(lugcurrant_flow *flow, lugcurrant_span copy, bool *is_twin)
{
    uint64_t done = done_of(copy);
    *is_twin = false;
    if (lugcurrant_number_at(copy, 1) <= lugcurrant_version(flow->client) || done <= lugcurrant_acknowledged(flow->client))
        return LUGCURRANT_DONE;
    if (done <= most_tried(flow))
        return check_others(flow, copy, done, is_twin);
    *is_twin = true;
    return LUGCURRANT_DONE;
}

/* ---- the look through the log ---- */

/* Keeps an entry of the own id, by its number; another one of the number is replaced. DONE, MEMORY. */
static uint32_t note_found(lugcurrant_list *list, const struct entry *entry)
{
    if (!lugcurrant_list_reserve(list, 1))
        return LUGCURRANT_MEMORY;
    uint8_t *change = malloc(entry->change.length);
    if (change == NULL)
        return LUGCURRANT_MEMORY;
    memcpy(change, entry->change.at, entry->change.length);
    struct found found = {entry->number, change, entry->change.length};
    struct found *before = item_of(list, entry->number);
    if (before != NULL) {
        free(before->change);
        *before = found;
    } else {
        lugcurrant_list_insert(list, place_of(list, entry->number), &found);
    }
    return LUGCURRANT_DONE;
}

uint32_t lugcurrant_look_at_entry(lugcurrant_flow *flow, lugcurrant_span message)
{
    struct entry entry;
    if (!lugcurrant_read_entry(message, &entry) || entry.author != lugcurrant_id(flow->client))
        return LUGCURRANT_DONE;
    if (entry.number <= lugcurrant_acknowledged(flow->client))
        return LUGCURRANT_DONE;
    return note_found(&flow->anew.found, &entry);
}

uint32_t lugcurrant_look_at_part(lugcurrant_flow *flow, struct sent *head, uint8_t letter, lugcurrant_span message)
{
    if (letter == ENTRY) {
        if (lugcurrant_look_at_entry(flow, message) != LUGCURRANT_DONE)
            return LUGCURRANT_MEMORY;
        if (lugcurrant_number_at(message, 1) == flow->anew.from + 1) /* what comes unasked is of later ones */
            flow->anew.from++;
    } else {
        flow->anew.from = lugcurrant_number_at(message, 1);
        flow->anew.done = done_of(message);
    }
    head->entries++;
    return LUGCURRANT_DONE;
}

void lugcurrant_end_look(lugcurrant_flow *flow, const struct sent *ask, uint8_t letter, lugcurrant_span message, double now)
{
    bool is_more = letter == IDLE && ask->entries >= MOST_ENTRIES;
    bool is_later = letter != IDLE && lugcurrant_no_of(message) == LUGCURRANT_NO_NO_MEMORY;
    flow->anew.is_asking = false;
    if (is_later)
        lugcurrant_hold(flow, now);
    if (is_more || is_later)
        return;
    flow->anew.looks = false;
    flow->anew.step = JOIN_ANEW;
    flow->ask_at = now;
}

/* ---- edits that are made again ---- */

/* What became of an edit that waits. */
enum fate {
    JUDGED,
    OPEN,  /* it surely wasn't judged */
    UNSURE
};

/* Decides what became of an edit that waits. Of the numbers that a copy has hidden those are open that the server never had from this
 * program, unless the edit is in a save: then another program may have sent the very edit. For the rest it counts whether the document has
 * what the edit did. DONE, MEMORY. */
static uint32_t decide_fate(lugcurrant_flow *flow, uint64_t number, lugcurrant_span change, unsigned char *fate)
{
    const struct found *found = item_of(&flow->anew.found, number);
    if (found != NULL) {
        bool is_same = found->length == change.length && memcmp(found->change, change.at, change.length) == 0;
        *fate = is_same ? JUDGED : OPEN;
        return LUGCURRANT_DONE;
    }
    uint64_t kept = flow->limit == ENDLESS ? 0 : flow->limit;
    if (number > flow->anew.done || (number > most_tried(flow) && number > flow->saved && number > kept)) {
        *fate = OPEN;
        return LUGCURRANT_DONE;
    }
    bool is_shown;
    uint32_t result = lugcurrant_is_shown(&flow->anew.fresh, change, &is_shown);
    *fate = is_shown ? JUDGED : UNSURE;
    return result;
}

/* Decides the fates of all edits that wait, before edits that are made again change what is shown. DONE, MEMORY. */
static uint32_t decide_fates(lugcurrant_flow *flow)
{
    lugcurrant_list *fates = &flow->anew.remaking.fates;
    uint64_t known = lugcurrant_acknowledged(flow->client);
    for (;;) {
        lugcurrant_span change;
        unsigned char fate;
        uint32_t result = read_change(flow, fates->count, &change);
        if (result != LUGCURRANT_DONE)
            return result == LUGCURRANT_NONE ? LUGCURRANT_DONE : result;
        if (!lugcurrant_list_reserve(fates, 1))
            return LUGCURRANT_MEMORY;
        result = decide_fate(flow, known + fates->count + 1, change, &fate);
        if (result != LUGCURRANT_DONE)
            return result;
        lugcurrant_list_push(fates, &fate);
    }
}

/* Adds a copy of the change to the list. DONE, MEMORY. */
static uint32_t note_edit(lugcurrant_list *list, lugcurrant_span change, uint32_t code)
{
    if (!lugcurrant_list_reserve(list, 1))
        return LUGCURRANT_MEMORY;
    char *text = malloc(change.length + 1);
    if (text == NULL)
        return LUGCURRANT_MEMORY;
    memcpy(text, change.at, change.length);
    text[change.length] = 0;
    lugcurrant_flow_edit edit = {text, change.length, code};
    lugcurrant_list_push(list, &edit);
    return LUGCURRANT_DONE;
}

/* Makes an edit again in the fresh client, if that is its fate. DONE, MEMORY. */
static uint32_t make_one_again(struct anew *anew, lugcurrant_span change)
{
    struct remaking *remaking = &anew->remaking;
    unsigned char fate = *(unsigned char *)lugcurrant_list_at(&remaking->fates, (size_t)remaking->next);
    if (fate == JUDGED)
        return LUGCURRANT_DONE;
    if (fate == UNSURE)
        return note_edit(&remaking->unsure, change, LUGCURRANT_DONE);
    uint32_t code = lugcurrant_remake(&anew->fresh, change, &remaking->ids);
    if (code == LUGCURRANT_MEMORY)
        return code;
    if (code != LUGCURRANT_DONE)
        return note_edit(&remaking->lost, change, code);
    remaking->made++;
    return LUGCURRANT_DONE;
}

uint32_t lugcurrant_make_again(lugcurrant_flow *flow)
{
    struct remaking *remaking = &flow->anew.remaking;
    uint32_t result = decide_fates(flow);
    while (result == LUGCURRANT_DONE && remaking->next < remaking->fates.count) {
        lugcurrant_span change;
        result = read_change(flow, remaking->next, &change);
        if (result == LUGCURRANT_DONE)
            result = make_one_again(&flow->anew, change);
        if (result == LUGCURRANT_DONE)
            remaking->next++;
    }
    return result;
}

void lugcurrant_become_fresh(lugcurrant_flow *flow)
{
    struct anew *anew = &flow->anew;
    lugcurrant_free(flow->client);
    *flow->client = anew->fresh;
    memset(&anew->fresh, 0, sizeof anew->fresh);
    lugcurrant_push_event(flow, LUGCURRANT_FLOW_ANEW)->remaking = anew->remaking;
    memset(&anew->remaking, 0, sizeof anew->remaking);
    lugcurrant_forget_anew(flow);
    flow->judged = 0;
    flow->tried = 0;
    flow->saved = 0;
    flow->sent = 0;
    flow->emptied = 0;
    flow->is_full = false;
    flow->is_caught_up = true;
    lugcurrant_set_state(flow, LUGCURRANT_STATE_ONLINE, "");
    lugcurrant_push_event(flow, LUGCURRANT_FLOW_CAUGHT_UP);
}

/* ---- an edit that the server can't take ---- */

void lugcurrant_begin_replacing(lugcurrant_flow *flow, double now)
{
    uint32_t state = flow->dropping == LUGCURRANT_NO_TOO_LARGE ? LUGCURRANT_STATE_TOO_LARGE : LUGCURRANT_STATE_UNREADABLE;
    lugcurrant_set_state(flow, state, lugcurrant_fault_sentence(flow->dropping)); /* the connection may be another one than that of the No */
    lugcurrant_void_all(flow);
    flow->anew.step = JOIN_ANEW;
    flow->anew.replaces = true;
    lugcurrant_leave(flow);
    flow->ask_at = now;
}

uint32_t lugcurrant_load_observer(lugcurrant_flow *flow)
{
    static const char text[] = "[\"client\",[4294967295,0,0,0],[],[[[0,0],\"document\",null,[]]]]"; /* no server gives this id */
    if (!flow->anew.replaces || lugcurrant_id(&flow->anew.fresh) != 0)
        return LUGCURRANT_DONE;
    return lugcurrant_load(&flow->anew.fresh, (const uint8_t *)text, sizeof text - 1);
}

void lugcurrant_count_own(lugcurrant_flow *flow, uint8_t letter, lugcurrant_span message)
{
    struct entry entry;
    if (letter == COPY)
        flow->anew.done = done_of(message);
    else if (lugcurrant_read_entry(message, &entry) && entry.author == lugcurrant_id(flow->client))
        flow->anew.done = entry.number;
}

/* A text that grows. */
static bool append(lugcurrant_list *text, const void *bytes, size_t length)
{
    if (!lugcurrant_list_reserve(text, length))
        return false;
    memcpy(text->items + text->first + text->count, bytes, length);
    text->count += length;
    return true;
}

static bool append_word(lugcurrant_list *text, const char *word)
{
    return append(text, word, strlen(word));
}

static bool append_number(lugcurrant_list *text, uint64_t number, char end)
{
    char digits[32];
    int length = snprintf(digits, sizeof digits, "%" PRIu64 "%c", number, end);
    return append(text, digits, (size_t)length);
}

/* Checks whether the word is in the text. */
static bool has_word(const lugcurrant_list *text, const char *word)
{
    size_t length = strlen(word);
    const unsigned char *at = text->items, *end = at + text->count;
    while ((size_t)(end - at) >= length && (at = memchr(at, word[0], (size_t)(end - at) - length + 1)) != NULL) {
        if (memcmp(at, word, length) == 0)
            return true;
        at++;
    }
    return false;
}

/* Writes what the observer shows as a copy for the client. DONE, MEMORY. */
static uint32_t write_copy(lugcurrant_flow *flow, lugcurrant_list *copy)
{
    size_t length;
    uint32_t result = lugcurrant_save(&flow->anew.fresh);
    if (result == LUGCURRANT_DONE)
        result = lugcurrant_take_left(flow, &flow->anew.fresh, &length);
    if (result != LUGCURRANT_DONE)
        return result;
    lugcurrant_span saved = {flow->message, length}, rows = saved;
    lugcurrant_json_member(saved, 3, &rows);
    bool is_written = append_word(copy, "[\"copy\",") && append_number(copy, lugcurrant_version(&flow->anew.fresh), ',') &&
                      append_number(copy, lugcurrant_acknowledged(flow->client), ',') && append(copy, rows.at, rows.length) &&
                      append_word(copy, "]");
    return is_written ? LUGCURRANT_DONE : LUGCURRANT_MEMORY;
}

/* Writes the numbers of the client that is loaded, and the first edit: it clears a property that no object of the copy has. DONE, MEMORY. */
static uint32_t write_first(lugcurrant_flow *flow, const lugcurrant_list *copy, lugcurrant_list *text)
{
    char name[] = "[\"________________________________\","; /* at most 32 bytes of it */
    size_t length, shown = 3;
    uint32_t result = lugcurrant_save(flow->client);
    if (result == LUGCURRANT_DONE)
        result = lugcurrant_take_left(flow, flow->client, &length);
    if (result != LUGCURRANT_DONE)
        return result;
    lugcurrant_span saved = {flow->message, length}, numbers = saved;
    lugcurrant_json_member(saved, 1, &numbers);
    do {
        shown++;
        memcpy(name + shown - 1, "\",", 3);
    } while (has_word(copy, name) && shown < 34 && memcpy(name + shown - 1, "__", 2) != NULL);
    name[shown] = 0;
    bool is_written = append_word(text, "[\"client\",[") && append_number(text, lugcurrant_number_at(numbers, 0), ',') &&
                      append_number(text, lugcurrant_number_at(numbers, 1), ',') &&
                      append_number(text, lugcurrant_version(&flow->anew.fresh) - 1, ',') &&
                      append_number(text, lugcurrant_acknowledged(flow->client), ']') && append_word(text, ",[[\"clear\",[0,0],") &&
                      append_word(text, name + 1) && append_word(text, "]");
    return is_written ? LUGCURRANT_DONE : LUGCURRANT_MEMORY;
}

/* Writes the client that is loaded: its edits are the client's but for the first, and it has no document yet. DONE, MEMORY. */
static uint32_t write_emptied(lugcurrant_flow *flow, const lugcurrant_list *copy, lugcurrant_list *text)
{
    lugcurrant_span change;
    uint32_t result = write_first(flow, copy, text);
    for (uint64_t i = 1; result == LUGCURRANT_DONE && (result = read_change(flow, i, &change)) == LUGCURRANT_DONE; i++)
        if (!append_word(text, ",") || !append(text, change.at, change.length))
            return LUGCURRANT_MEMORY;
    if (result != LUGCURRANT_NONE)
        return result;
    return append_word(text, "],[[[0,0],\"document\",null,[]]]]") ? LUGCURRANT_DONE : LUGCURRANT_MEMORY;
}

/* The core has no call that replaces an edit, but it loads a client without a document, and that one receives the document as a copy. DONE,
 * MEMORY. */
static uint32_t load_emptied(lugcurrant_flow *flow, const lugcurrant_list *copy, const lugcurrant_list *text)
{
    lugcurrant_client *emptied = &flow->anew.emptied;
    lugcurrant_span change;
    uint32_t result = lugcurrant_load(emptied, text->items, text->count);
    if (result == LUGCURRANT_DONE)
        result = lugcurrant_receive(emptied, copy->items, copy->count) == LUGCURRANT_TOOK ? LUGCURRANT_DONE : LUGCURRANT_MEMORY;
    if (result == LUGCURRANT_DONE)
        result = read_change(flow, 0, &change);
    if (result == LUGCURRANT_DONE)
        result = note_edit(&flow->anew.remaking.lost, change, flow->dropping);
    if (result == LUGCURRANT_DONE)
        return result;
    lugcurrant_free(emptied);
    return LUGCURRANT_MEMORY;
}

/* Checks whether the observer has heard of just the edits of the client that the client has heard of. */
static bool is_same_history(lugcurrant_flow *flow)
{
    return flow->anew.done == lugcurrant_acknowledged(flow->client) && lugcurrant_version(&flow->anew.fresh) > 0 &&
           lugcurrant_version(&flow->anew.fresh) >= lugcurrant_version(flow->client);
}

uint32_t lugcurrant_make_emptied(lugcurrant_flow *flow)
{
    lugcurrant_list copy = {.size = 1}, text = {.size = 1};
    if (!is_same_history(flow))
        return LUGCURRANT_DONE;
    uint32_t result = write_copy(flow, &copy);
    if (result == LUGCURRANT_DONE)
        result = write_emptied(flow, &copy, &text);
    if (result == LUGCURRANT_DONE)
        result = load_emptied(flow, &copy, &text);
    lugcurrant_list_free(&copy);
    lugcurrant_list_free(&text);
    return result;
}

/* Tells of the edit that is replaced. It is in the list of those that are lost. */
static void tell_replaced(lugcurrant_flow *flow, struct remaking *remaking)
{
    const lugcurrant_flow_edit *edit = lugcurrant_list_at(&remaking->lost, 0);
    lugcurrant_span change = {(const uint8_t *)edit->change, edit->length}, word = change, id = change;
    struct queued *queued = lugcurrant_push_event(flow, LUGCURRANT_FLOW_REFUSED);
    lugcurrant_flow_event *event = &queued->event;
    lugcurrant_json_member(change, 0, &word);
    lugcurrant_json_member(change, 1, &id);
    lugcurrant_json_id(id, &event->id);
    event->version = lugcurrant_version(flow->client);
    event->number = flow->emptied;
    event->edit = lugcurrant_edit_word(word);
    event->reason = edit->code;
    queued->remaking = *remaking;
}

void lugcurrant_become_emptied(lugcurrant_flow *flow)
{
    uint64_t known = lugcurrant_acknowledged(flow->client);
    if (!is_same_history(flow)) {
        bool is_replaced = flow->anew.done > known;
        lugcurrant_forget_anew(flow);
        lugcurrant_begin_anew(flow, is_replaced ? LUGCURRANT_STATE_REPLACED : LUGCURRANT_STATE_STRANGER, true, 0);
        return;
    }
    lugcurrant_free(flow->client);
    *flow->client = flow->anew.emptied;
    memset(&flow->anew.emptied, 0, sizeof flow->anew.emptied);
    flow->dropping = 0;
    flow->emptied = known + 1;
    if (flow->limit != ENDLESS)
        flow->limit = known; /* the client is to be kept before the edit is sent */
    tell_replaced(flow, &flow->anew.remaking);
    memset(&flow->anew.remaking, 0, sizeof flow->anew.remaking);
    lugcurrant_forget_anew(flow);
    lugcurrant_set_state(flow, LUGCURRANT_STATE_ONLINE, "");
    lugcurrant_push_event(flow, LUGCURRANT_FLOW_CAUGHT_UP);
}
