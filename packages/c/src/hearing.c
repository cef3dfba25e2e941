/* What a flow hears: what an answer means for the message that it answers, and for what is sent next. */
#include "internal.h"

enum {
    MOST_AHEAD = 4, /* asks at once if a round trip's news fill more than one answer */
    PROVEN = 3      /* asks that must miss an edit that was answered */
};

static const double PROVEN_AFTER = 2000; /* milliseconds for which they must miss it */
static const double MISSED_AFTER = 700;  /* milliseconds after which a live connection is asked for an edit that was answered and hasn't come */
static const double MOST_WAIT = 10000;   /* milliseconds before what a server couldn't keep is sent again, at most */

static void set_fault(lugcurrant_flow *flow, const char *words)
{
    lugcurrant_set_state(flow, LUGCURRANT_STATE_FAULT, words);
}

/* The server answers: says so, unless a state that is worse holds on. */
static void set_online(lugcurrant_flow *flow)
{
    bool is_held = flow->state == LUGCURRANT_STATE_DISK_FAILED || flow->state == LUGCURRANT_STATE_DISK_FAILED_BEFORE ||
                   flow->state == LUGCURRANT_STATE_NO_MEMORY;
    if (flow->anew.step != NOT_ANEW || flow->is_full || flow->dropping != 0 || (flow->hold_for > FIRST_WAIT && is_held))
        return;
    lugcurrant_set_state(flow, LUGCURRANT_STATE_ONLINE, "");
}

/* An answer has ended: its message isn't under way any more. */
static void count_out(lugcurrant_flow *flow, const struct sent *end)
{
    if (end->what == EDIT) {
        flow->edits--;
        flow->bytes -= end->size;
    } else if (end->what == SHOW) {
        flow->showing--;
    } else if (end->is_counted) {
        flow->asking--;
    }
}

/* On a live connection the next ask is far off, whenever a message comes; but if an edit was answered and its entry doesn't come, it is asked
 * for. `is_nearer`: what has come are entries up to another number. */
static void rest(lugcurrant_flow *flow, bool is_nearer, double now)
{
    bool is_missing = lugcurrant_is_missing(flow);
    if (!lugcurrant_is_told(flow))
        return;
    double at = now + (is_missing ? MISSED_AFTER : flow->options.beat);
    flow->ask_at = is_missing && !is_nearer ? lugcurrant_least_of(flow->ask_at, at) : at;
}

void lugcurrant_hold(lugcurrant_flow *flow, double now)
{
    flow->hold_until = now + flow->hold_for;
    flow->hold_for = lugcurrant_least_of(2 * flow->hold_for, MOST_WAIT);
}

/* ---- parts of messages ---- */

uint64_t lugcurrant_number_at(lugcurrant_span list, size_t index)
{
    lugcurrant_span text;
    uint64_t number = 0;
    return lugcurrant_json_member(list, index, &text) && lugcurrant_json_number(text, &number) ? number : 0;
}

uint64_t lugcurrant_no_of(lugcurrant_span message)
{
    lugcurrant_span word;
    bool is_no = lugcurrant_json_member(message, 0, &word) && lugcurrant_json_is_word(word, "no");
    return LUGCURRANT_NO + (is_no ? lugcurrant_number_at(message, 1) : 0);
}

/* Checks whether a No to an edit says that it was not judged. */
static bool is_unjudged(uint64_t no)
{
    return no == LUGCURRANT_NO_GAP || no == LUGCURRANT_NO_FULL || no == LUGCURRANT_NO_TOO_LARGE || no == LUGCURRANT_NO_UNREADABLE;
}

bool lugcurrant_read_entry(lugcurrant_span message, struct entry *entry)
{
    lugcurrant_span author, number;
    return lugcurrant_json_member(message, 2, &entry->text) && lugcurrant_json_member(entry->text, 0, &author) &&
           lugcurrant_json_number(author, &entry->author) && lugcurrant_json_member(entry->text, 1, &number) &&
           lugcurrant_json_number(number, &entry->number) && lugcurrant_json_member(entry->text, 2, &entry->change);
}

/* ---- entries and copies ---- */

/* A message for this version that the client can't take: an entry of its own id that isn't its edit, or a copy with fewer edits of it than
 * it has heard of. If the number isn't the next one either, the server has another history: the entries before it were passed by. */
static void hear_another(lugcurrant_flow *flow, uint8_t letter, lugcurrant_span message)
{
    struct entry entry;
    if (letter == COPY)
        lugcurrant_begin_anew(flow, LUGCURRANT_STATE_STRANGER, false, 0);
    else if (!lugcurrant_read_entry(message, &entry))
        set_fault(flow, lugcurrant_fault_sentence(LUGCURRANT_NOT_A_MESSAGE));
    else if (entry.number == lugcurrant_acknowledged(flow->client) + 1)
        lugcurrant_begin_anew(flow, LUGCURRANT_STATE_REPLACED, true, lugcurrant_version(flow->client));
    else
        lugcurrant_begin_anew(flow, LUGCURRANT_STATE_STRANGER, true, 0);
}

const char *lugcurrant_edit_word(lugcurrant_span word)
{
    static const char *const words[] = {"create", "set", "clear", "move", "delete"};
    for (size_t k = 0; k < sizeof words / sizeof *words; k++)
        if (lugcurrant_json_is_word(word, words[k]))
            return words[k];
    return "";
}

/* Adds an event if this is an own entry that was refused. The client has taken it already: nothing else is changed. */
static void note_refusal(lugcurrant_flow *flow, lugcurrant_span message)
{
    struct entry entry;
    lugcurrant_span text, outcome, word, id;
    uint64_t version, reason;
    if (!lugcurrant_read_entry(message, &entry) || entry.author != lugcurrant_id(flow->client) ||
        !lugcurrant_json_member(entry.text, 3, &outcome) || !lugcurrant_json_member(outcome, 0, &word) ||
        !lugcurrant_json_is_word(word, "refused"))
        return;
    if (!lugcurrant_json_member(outcome, 1, &text) || !lugcurrant_json_number(text, &reason) || reason > UINT32_MAX ||
        !lugcurrant_json_member(message, 1, &text) || !lugcurrant_json_number(text, &version) ||
        !lugcurrant_json_member(entry.change, 0, &word) || !lugcurrant_json_member(entry.change, 1, &id))
        return;
    lugcurrant_flow_event *event = &lugcurrant_push_event(flow, LUGCURRANT_FLOW_REFUSED)->event;
    event->version = version;
    event->number = entry.number;
    event->edit = lugcurrant_edit_word(word);
    event->reason = (uint32_t)reason;
    lugcurrant_json_id(id, &event->id);
}

/* What came unasked leaves something out, as no server does that keeps the protocol. It is asked for, and then `live` is sent once more. */
static void hear_gap(lugcurrant_flow *flow, double now)
{
    if (!flow->is_live)
        return;
    flow->is_live = false;
    flow->is_caught_up = false;
    flow->live_at = now;
    flow->ask_at = now;
}

/* Counts a part of the answer to the first message under way. */
static void count_part(struct sent *head, uint8_t letter, uint32_t heard)
{
    head->entries++;
    head->is_copy |= letter == COPY;
    head->took |= heard == LUGCURRANT_TOOK;
    head->is_ahead |= heard == LUGCURRANT_AHEAD;
}

/* What an entry or a copy is to the client itself. */
static void hear_own_part(lugcurrant_flow *flow, uint8_t letter, lugcurrant_span message, uint32_t heard)
{
    if (heard == LUGCURRANT_TOOK) {
        lugcurrant_push_event(flow, LUGCURRANT_FLOW_TOOK);
        if (letter == ENTRY)
            note_refusal(flow, message);
    } else if (heard == LUGCURRANT_NOT_FOR_ME) {
        hear_another(flow, letter, message);
    }
}

/* What it is to the one that hears in its place. */
static void hear_part_anew(lugcurrant_flow *flow, uint8_t letter, lugcurrant_span message, uint32_t heard)
{
    if (heard != LUGCURRANT_TOOK)
        return;
    if (flow->anew.replaces)
        lugcurrant_count_own(flow, letter, message);
    else if (letter == COPY)
        flow->anew.looks = flow->anew.scans; /* the copy has hidden what came since the look */
}

/* ---- the end of an answer ---- */

/* The number of an edit was answered, and its entry isn't among those that came, again and again: it is in another history than the one
 * that this client has heard. The own entries are looked for from the first on. */
static void look_for_missing(lugcurrant_flow *flow, uint64_t last_judged, double now)
{
    if (last_judged <= lugcurrant_acknowledged(flow->client)) {
        flow->missing = 0;
        return;
    }
    if (flow->missing == 0)
        flow->missing_since = now;
    flow->missing++;
    if (flow->missing >= PROVEN && now - flow->missing_since >= PROVEN_AFTER)
        lugcurrant_begin_anew(flow, LUGCURRANT_STATE_STRANGER, true, 0);
}

/* An answer has brought everything. */
static void catch_up(lugcurrant_flow *flow, uint64_t last_judged, double now)
{
    if (flow->anew.looks) {
        flow->anew.step = SCAN;
        return;
    }
    if (flow->anew.step != NOT_ANEW) {
        if (flow->anew.replaces)
            lugcurrant_become_emptied(flow);
        else
            lugcurrant_become_fresh(flow);
        return;
    }
    flow->is_caught_up = true;
    look_for_missing(flow, last_judged, now);
    if (flow->dropping != 0 && lugcurrant_acknowledged(flow->client) >= flow->dropped) {
        flow->dropping = 0; /* it was judged before the No */
        set_online(flow);
    } else if (flow->dropping != 0 && lugcurrant_acknowledged(flow->client) + 1 >= flow->dropped) {
        lugcurrant_begin_replacing(flow, now);
    }
    lugcurrant_push_event(flow, LUGCURRANT_FLOW_CAUGHT_UP);
}

/* What was asked ahead of the end brings nothing, and hinders no ask. */
static void uncount_asks_ahead(lugcurrant_flow *flow)
{
    uint64_t version = lugcurrant_version(lugcurrant_hearer_of(flow));
    for (size_t k = 0; k < flow->fifo.count; k++) {
        struct sent *it = lugcurrant_list_at(&flow->fifo, k);
        if (it->is_counted && it->from > version) {
            flow->asking--;
            it->is_counted = false;
        }
    }
}

/* Sets when to ask again after an answer that wasn't full. */
static void set_pause(lugcurrant_flow *flow, const struct sent *ask, double now)
{
    bool is_more = ask->took || (lugcurrant_waiting(flow->client) > 0 && flow->anew.step == NOT_ANEW);
    flow->pause = is_more ? flow->options.least_pause : lugcurrant_least_of(1.25 * flow->pause, flow->options.most_pause);
    uint32_t asks = lugcurrant_steady(flow);
    double spaced = asks > 1 ? flow->asked_at + lugcurrant_greatest_of(flow->pause, flow->trip / asks) : now + flow->pause;
    flow->ask_at = ask->is_copy || ask->is_ahead ? now : lugcurrant_greatest_of(now, spaced);
}

static void hear_ask_answered(lugcurrant_flow *flow, const struct sent *ask, double now)
{
    if (!ask->is_counted)
        return;
    count_out(flow, ask);
    flow->trip = flow->trip != 0 ? 0.8 * flow->trip + 0.2 * (now - ask->at) : now - ask->at;
    flow->lately = ask->entries;
    set_online(flow);
    flow->useful += ask->entries > 0;
    if (ask->entries >= MOST_ENTRIES) {
        flow->is_round_full = true;
        flow->width = 2 * flow->width < flow->options.most_asks ? 2 * flow->width : flow->options.most_asks;
        flow->ask_at = now;
        return;
    }
    flow->width = 1;
    if (flow->is_round_full && flow->useful > 1)
        flow->width = flow->useful < MOST_AHEAD ? flow->useful : MOST_AHEAD;
    uncount_asks_ahead(flow);
    set_pause(flow, ask, now);
    if (ask->is_copy || ask->is_ahead)
        return;
    rest(flow, true, now);
    catch_up(flow, ask->last_judged, now);
}

static void hear_live_answered(lugcurrant_flow *flow, const struct sent *live, double now)
{
    flow->told_id = live->id;
    flow->is_live = live->id == lugcurrant_id(flow->client);
    lugcurrant_show_again(flow);
    rest(flow, true, now);
}

/* The end of an answer, which isn't a No. */
static void hear_end(lugcurrant_flow *flow, const struct sent *end, double now)
{
    if (end->what == ASK) {
        hear_ask_answered(flow, end, now);
    } else if (end->what == EDIT) {
        count_out(flow, end);
        if (end->number > flow->judged)
            flow->judged = end->number;
        flow->hold_for = FIRST_WAIT;
        set_online(flow);
        rest(flow, false, now);
    } else if (end->what == GO_LIVE) {
        hear_live_answered(flow, end, now);
    } else if (end->what == SHOW) {
        count_out(flow, end);
        flow->here = HAS_WORD;
    } else {
        lugcurrant_push_event(flow, LUGCURRANT_FLOW_TOOK);
        set_online(flow);
        flow->ask_at = now;
    }
}

/* ---- a No ---- */

static uint32_t state_of_no(uint32_t no)
{
    switch (no) {
    case LUGCURRANT_NO_FULL: return LUGCURRANT_STATE_FULL;
    case LUGCURRANT_NO_DISK_FAILED: return LUGCURRANT_STATE_DISK_FAILED;
    case LUGCURRANT_NO_DISK_FAILED_BEFORE: return LUGCURRANT_STATE_DISK_FAILED_BEFORE;
    case LUGCURRANT_NO_NO_MEMORY: return LUGCURRANT_STATE_NO_MEMORY;
    case LUGCURRANT_NO_TOO_LARGE: return LUGCURRANT_STATE_TOO_LARGE;
    case LUGCURRANT_NO_UNREADABLE: return LUGCURRANT_STATE_UNREADABLE;
    default: return LUGCURRANT_STATE_FAULT;
    }
}

/* A No to an edit. What was sent after this edit is answered by gaps now: it is sent again. */
static void hear_no_to_edit(lugcurrant_flow *flow, const struct sent *edit, uint32_t no, double now)
{
    if (!is_unjudged(no))
        lugcurrant_may_be_judged(flow, edit->number);
    for (size_t k = 0; k < flow->fifo.count; k++) {
        struct sent *it = lugcurrant_list_at(&flow->fifo, k);
        it->is_void = it->is_void || it->what == EDIT;
    }
    flow->sent = 0;
    if (no == LUGCURRANT_NO_GAP) {
        if (edit->is_first)
            lugcurrant_begin_anew(flow, LUGCURRANT_STATE_STRANGER, false, 0);
        return;
    }
    lugcurrant_set_state(flow, state_of_no(no), lugcurrant_fault_sentence(no));
    bool is_untaken = no == LUGCURRANT_NO_TOO_LARGE || no == LUGCURRANT_NO_UNREADABLE;
    if (no == LUGCURRANT_NO_FULL) {
        flow->is_full = true;
    } else if (is_untaken && edit->number == flow->emptied) {
        set_fault(flow, lugcurrant_fault_sentence(no)); /* it takes no edit at all */
    } else if (is_untaken) {
        flow->dropping = no;
        flow->dropped = edit->number;
        flow->ask_at = now;
    } else {
        lugcurrant_hold(flow, now);
    }
}

/* The server doesn't know the id. If this begins anew it is the new one, which joins once more. */
static void hear_no_stranger(lugcurrant_flow *flow)
{
    if (flow->anew.replaces)
        lugcurrant_forget_anew(flow);
    if (flow->anew.step == NOT_ANEW) {
        lugcurrant_begin_anew(flow, LUGCURRANT_STATE_STRANGER, false, 0);
        return;
    }
    lugcurrant_void_all(flow);
    lugcurrant_forget_fresh(&flow->anew);
}

static void hear_no_to_ask(lugcurrant_flow *flow, uint32_t no, double now)
{
    flow->ask_at = now + 1000;
    if (no != LUGCURRANT_NO_NO_MEMORY)
        set_fault(flow, lugcurrant_fault_sentence(no));
    else if (!flow->is_full && flow->dropping == 0)
        lugcurrant_set_state(flow, LUGCURRANT_STATE_NO_MEMORY, lugcurrant_fault_sentence(no));
}

/* The server has another history, in which the id may have edits; no memory for now; or no such word. */
static void hear_no_to_live(lugcurrant_flow *flow, uint32_t no, double now)
{
    if (no == LUGCURRANT_NO_STRANGER) {
        lugcurrant_begin_anew(flow, LUGCURRANT_STATE_STRANGER, true, 0);
        return;
    }
    if (no == LUGCURRANT_NO_NO_MEMORY)
        flow->live_at = now + 1000;
    else
        flow->is_older = true;
    flow->ask_at = now;
    flow->pause = flow->options.least_pause;
}

static void hear_no(lugcurrant_flow *flow, const struct sent *end, uint32_t no, double now)
{
    count_out(flow, end);
    if (end->what == GO_LIVE) {
        hear_no_to_live(flow, no, now);
    } else if (end->what == SHOW) {
        lugcurrant_hear_no_to_shown(flow, no, now);
    } else if (no == LUGCURRANT_NO_STRANGER) {
        hear_no_stranger(flow);
    } else if (end->what == EDIT) {
        hear_no_to_edit(flow, end, no, now);
    } else if (end->what == JOIN) {
        lugcurrant_set_state(flow, state_of_no(no), lugcurrant_fault_sentence(no));
        lugcurrant_hold(flow, now);
    } else {
        hear_no_to_ask(flow, no, now);
    }
}

/* ---- a message ---- */

/* What is told unasked from now on, or that nothing is. */
static void pass_by_live(lugcurrant_flow *flow, const struct sent *live, uint8_t letter, lugcurrant_span message)
{
    uint64_t no = letter == IDLE ? 0 : lugcurrant_no_of(message);
    if (letter == IDLE) {
        flow->told_id = live->id;
    } else if (no != LUGCURRANT_NO_STRANGER && no != LUGCURRANT_NO_NO_MEMORY) {
        flow->is_older = true;
        flow->live_at = NEVER;
    }
}

/* An answer that is of no use any more, or one that is looked through for edits of this id. DONE, MEMORY. */
static uint32_t pass_by(lugcurrant_flow *flow, struct sent *head, uint8_t letter, lugcurrant_span message, double now)
{
    bool looks = flow->anew.step == SCAN && head->is_scan;
    if (letter == ENTRY || letter == COPY)
        return looks ? lugcurrant_look_at_part(flow, head, letter, message) : LUGCURRANT_DONE;
    struct sent end = *head;
    lugcurrant_list_shift(&flow->fifo);
    count_out(flow, &end);
    if (end.what == GO_LIVE)
        pass_by_live(flow, &end, letter, message);
    if (end.what == EDIT && letter == IDLE && end.number > flow->judged)
        flow->judged = end.number;
    if (end.what == EDIT && letter != IDLE && !is_unjudged(lugcurrant_no_of(message)))
        lugcurrant_may_be_judged(flow, end.number);
    if (looks)
        lugcurrant_end_look(flow, &end, letter, message, now);
    return LUGCURRANT_DONE;
}

/* Checks whether the fresh client has heard everything once this answer ends. */
static bool ends_anew(const lugcurrant_flow *flow, const struct sent *head, uint32_t heard)
{
    return flow->anew.step == JOIN_ANEW && !flow->anew.looks && heard < LUGCURRANT_NO && head->what == ASK && head->is_counted &&
           head->entries < MOST_ENTRIES && !head->is_copy && !head->is_ahead;
}

/* Makes a copy of which no edit is the observer's own, as to it none is. DONE, MEMORY. */
static uint32_t make_seen_by_no_one(lugcurrant_flow *flow, lugcurrant_span *copy)
{
    lugcurrant_span done;
    if (!lugcurrant_json_member(*copy, 2, &done))
        return LUGCURRANT_DONE;
    if (!lugcurrant_reserve_message(flow, copy->length + 1))
        return LUGCURRANT_MEMORY;
    size_t before = (size_t)(done.at - copy->at), after = before + done.length;
    memcpy(flow->message, copy->at, before);
    flow->message[before] = '0';
    memcpy(flow->message + before + 1, copy->at + after, copy->length - after);
    copy->at = flow->message;
    copy->length = copy->length - done.length + 1;
    return LUGCURRANT_DONE;
}

/* Gives an entry or a copy to who hears in place of the client. DONE, MEMORY. */
static uint32_t receive_anew(lugcurrant_flow *flow, uint8_t letter, lugcurrant_span message, uint32_t *heard)
{
    bool replaces = flow->anew.replaces;
    if (!replaces && letter == ENTRY && lugcurrant_look_at_entry(flow, message) != LUGCURRANT_DONE)
        return LUGCURRANT_MEMORY;
    if (replaces && letter == COPY && make_seen_by_no_one(flow, &message) != LUGCURRANT_DONE)
        return LUGCURRANT_MEMORY;
    *heard = lugcurrant_receive(&flow->anew.fresh, message.at, message.length);
    return LUGCURRANT_DONE;
}

/* Gives a message to the client that hears. A fault of the message is told. DONE, MEMORY, or NONE after a fault. */
static uint32_t receive(lugcurrant_flow *flow, uint8_t letter, lugcurrant_span message, uint32_t *heard)
{
    if (flow->anew.step == NOT_ANEW)
        *heard = lugcurrant_receive_and_tell(flow->client, message.at, message.length);
    else if (receive_anew(flow, letter, message, heard) != LUGCURRANT_DONE)
        return LUGCURRANT_MEMORY;
    if (*heard == LUGCURRANT_MEMORY)
        return LUGCURRANT_MEMORY;
    if (*heard >= LUGCURRANT_TOOK)
        return LUGCURRANT_DONE;
    set_fault(flow, lugcurrant_fault_sentence(*heard));
    return LUGCURRANT_NONE;
}

/* An entry or a copy: of the answer to `head`, or unasked if that is null. DONE, MEMORY. */
static uint32_t hear_part(lugcurrant_flow *flow, struct sent *head, uint8_t letter, lugcurrant_span message, double now)
{
    bool is_own = flow->anew.step == NOT_ANEW, is_twin = false;
    uint64_t known = lugcurrant_acknowledged(flow->client);
    uint32_t heard;
    if (is_own && letter == COPY && flow->told_id != 0 && flow->told_id != lugcurrant_id(flow->client)) {
        /* What comes unasked is for the id that was given up: the copy counts that one's edits. All is told again from the next `live` on. */
        if (head != NULL)
            head->is_ahead = true;
        return LUGCURRANT_DONE;
    }
    if (is_own && letter == COPY && lugcurrant_check_twin(flow, message, &is_twin) != LUGCURRANT_DONE)
        return LUGCURRANT_MEMORY;
    if (is_twin) {
        lugcurrant_begin_anew(flow, LUGCURRANT_STATE_REPLACED, true, lugcurrant_version(flow->client));
        return LUGCURRANT_DONE;
    }
    uint32_t result = receive(flow, letter, message, &heard);
    if (result != LUGCURRANT_DONE)
        return result == LUGCURRANT_NONE ? LUGCURRANT_DONE : result;
    if (head != NULL)
        count_part(head, letter, heard);
    else if (heard == LUGCURRANT_AHEAD)
        hear_gap(flow, now);
    if (is_own)
        hear_own_part(flow, letter, message, heard);
    else
        hear_part_anew(flow, letter, message, heard);
    rest(flow, lugcurrant_acknowledged(flow->client) != known, now);
    return LUGCURRANT_DONE;
}

/* The end of the answer to `head`, the first message under way. DONE, MEMORY. */
static uint32_t hear_answer(lugcurrant_flow *flow, struct sent *head, uint8_t letter, lugcurrant_span message, double now)
{
    uint32_t heard, result = receive(flow, letter, message, &heard);
    if (result != LUGCURRANT_DONE)
        return result == LUGCURRANT_NONE ? LUGCURRANT_DONE : result;
    if (head->from > lugcurrant_version(lugcurrant_hearer_of(flow)))
        head->is_ahead = true; /* an ask, and the one before it was answered by a No */
    if (ends_anew(flow, head, heard) &&
        (flow->anew.replaces ? lugcurrant_make_emptied(flow) : lugcurrant_make_again(flow)) != LUGCURRANT_DONE)
        return LUGCURRANT_MEMORY;
    struct sent end = *head;
    lugcurrant_list_shift(&flow->fifo);
    if (heard > LUGCURRANT_NO)
        hear_no(flow, &end, heard, now);
    else
        hear_end(flow, &end, now);
    return LUGCURRANT_DONE;
}

static uint32_t hear(lugcurrant_flow *flow, uint8_t letter, lugcurrant_span message, double now)
{
    if (letter == HERE) /* it answers nothing */
        return lugcurrant_hear_shown(flow, message);
    bool is_part = letter == ENTRY || letter == COPY;
    struct sent *head = flow->fifo.count > 0 ? lugcurrant_list_at(&flow->fifo, 0) : NULL;
    if (is_part && flow->told_id != 0 && (head == NULL || head->what != ASK)) /* unasked. Who begins anew asks for all by itself */
        return flow->anew.step == NOT_ANEW ? hear_part(flow, NULL, letter, message, now) : LUGCURRANT_DONE;
    if (head == NULL) {
        set_fault(flow, "an answer came that nobody has asked for");
        return LUGCURRANT_DONE;
    }
    if (flow->anew.step == SCAN || head->is_void)
        return pass_by(flow, head, letter, message, now);
    return is_part ? hear_part(flow, head, letter, message, now) : hear_answer(flow, head, letter, message, now);
}

uint32_t lugcurrant_flow_hear(lugcurrant_flow *flow, const uint8_t *bytes, size_t length, double now)
{
    lugcurrant_span message = {bytes, length};
    bool was_settled = lugcurrant_flow_is_settled(flow);
    if (!lugcurrant_reserve_events(flow))
        return LUGCURRANT_MEMORY;
    uint32_t result = hear(flow, length > 2 ? bytes[2] : 0, message, now);
    if (result == LUGCURRANT_DONE && flow->is_live && !was_settled && lugcurrant_flow_is_settled(flow))
        lugcurrant_push_event(flow, LUGCURRANT_FLOW_CAUGHT_UP);
    return result;
}
