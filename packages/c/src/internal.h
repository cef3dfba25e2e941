/* What the sources of the flow share: lists that grow, parts of JSON texts, edits that are made again, the state of a flow, and the calls
 * from one source to another. */
#ifndef LUGCURRANT_FLOW_INTERNAL_H
#define LUGCURRANT_FLOW_INTERNAL_H

#include <lugcurrant_flow.h>

#include <stdint.h>
#include <stdlib.h>
#include <string.h>

/* A list in one array, also used as a queue: what was taken from the front leaves room, which is used again before the array grows. */
typedef struct lugcurrant_list {
    unsigned char *items;
    size_t size;   /* of an item, in bytes */
    size_t first;
    size_t count;
    size_t room;   /* items that fit */
} lugcurrant_list;

static inline void *lugcurrant_list_at(const lugcurrant_list *list, size_t index)
{
    return list->items + (list->first + index) * list->size;
}

/* Makes room for `more` items after the last one. Returns false, and changes nothing, if out of memory. */
static inline bool lugcurrant_list_reserve(lugcurrant_list *list, size_t more)
{
    if (list->first + list->count + more <= list->room)
        return true;
    size_t room = list->room;
    if (2 * (list->count + more) > room)
        room = 2 * (list->count + more);
    if (room > SIZE_MAX / 2 / list->size)
        return false;
    unsigned char *items = malloc(room * list->size);
    if (items == NULL)
        return false;
    if (list->count > 0)
        memcpy(items, lugcurrant_list_at(list, 0), list->count * list->size);
    free(list->items);
    list->items = items;
    list->room = room;
    list->first = 0;
    return true;
}

/* Inserts an item before the one at `index`, or after all. The room is reserved already. */
static inline void lugcurrant_list_insert(lugcurrant_list *list, size_t index, const void *item)
{
    unsigned char *at = list->items + (list->first + index) * list->size;
    memmove(at + list->size, at, (list->count - index) * list->size);
    memcpy(at, item, list->size);
    list->count++;
}

static inline void lugcurrant_list_push(lugcurrant_list *list, const void *item)
{
    lugcurrant_list_insert(list, list->count, item);
}

/* Takes the first item away. There is one. */
static inline void lugcurrant_list_shift(lugcurrant_list *list)
{
    list->count--;
    list->first = list->count == 0 ? 0 : list->first + 1;
}

/* Returns the array to the allocator, and leaves an empty list. */
static inline void lugcurrant_list_free(lugcurrant_list *list)
{
    free(list->items);
    list->items = NULL;
    list->first = list->count = list->room = 0;
}

/* A part of a text. It owns nothing. */
typedef struct lugcurrant_span {
    const uint8_t *at;
    size_t length;
} lugcurrant_span;

/* Finds a member of the list whose JSON the text is, by its index from 0, and reads no further than that. Returns false if the text is no
 * list or the list has no such member. Only as much is checked as is needed to find the member's end. */
bool lugcurrant_json_member(lugcurrant_span list, size_t index, lugcurrant_span *found);

/* Finds the member of a list's text after the bracket or comma at `*mark`, which is 0 at first, and moves the mark to the comma or bracket
 * at its end. Returns false if there is none. */
bool lugcurrant_json_next(lugcurrant_span list, size_t *mark, lugcurrant_span *found);

/* Reads a whole number from 0 to 2^64 - 1. Returns false if the text is none. */
bool lugcurrant_json_number(lugcurrant_span text, uint64_t *number);

/* Reads an object's id, [CLIENT,COUNTER]. Returns false if the text is none. */
bool lugcurrant_json_id(lugcurrant_span text, lugcurrant_object_id *id);

/* Checks whether the text is a string without escapes that equals the word. */
bool lugcurrant_json_is_word(lugcurrant_span text, const char *word);

/* Checks whether the document that the client shows has what the change did: then the change was judged, or isn't missed. DONE, MEMORY. */
uint32_t lugcurrant_is_shown(lugcurrant_client *client, lugcurrant_span change, bool *is_shown);

/* Reads the kind of an object that is created, LUGCURRANT_PAGE to LUGCURRANT_TEXT. Returns 0 if the text is none. */
uint32_t lugcurrant_json_kind(lugcurrant_span text);

/* Copies a JSON text without the blanks between its parts to `into`, which has room for its bytes. Sets `*length` to the number of bytes copied.
 * DONE; NOT_JSON (it is no JSON in UTF-8); TOO_DEEP (lists and objects in it are more than 100 deep). */
uint32_t lugcurrant_json_compact(lugcurrant_span text, uint8_t *into, size_t *length);

/* Makes the change of an edit again in another client. `ids` has the objects that were created again, as lugcurrant_flow_new_id by their
 * former ids; a creation adds to it. Returns DONE; why it can't be made; or MEMORY: then nothing has changed. */
uint32_t lugcurrant_remake(lugcurrant_client *client, lugcurrant_span change, lugcurrant_list *ids);

/* ---- a flow ---- */

enum {
    MOST_ENTRIES = 64, /* entries in an answer */
    MOST_EVENTS = 6    /* at least the number of events of one call, but for those of a connection that is lost */
};

static const double FIRST_WAIT = 1000; /* milliseconds before what a server couldn't keep is sent again, at first */

/* The limit if a program sets none: so many edits no client makes. */
#define ENDLESS UINT64_MAX

enum { ENTRY = 'e', COPY = 'c', IDLE = 'i', HERE = 'h' }; /* the third byte of ["entry", ["copy", ["idle", ["here" */

/* A time that never comes. */
#define NEVER 1e300

enum what { JOIN, EDIT, ASK, GO_LIVE, SHOW };

/* A message that was given to send, and what has come of its answer. */
struct sent {
    enum what what;
    size_t size;          /* of an edit: its bytes */
    uint64_t number;      /* of an edit */
    bool is_first;        /* an edit that was the first to wait */
    uint32_t id;          /* of GO_LIVE: the client's */
    uint64_t from;        /* of an ask: the version after which it asks */
    double at;            /* when it was given */
    uint64_t last_judged; /* the flow's `judged` then */
    bool is_counted;      /* it is one of `asking` */
    bool is_scan;         /* its answer is looked through for edits of this id */
    bool is_void;         /* its answer is of no use any more */
    uint64_t entries;     /* entries and copies that came */
    bool took;            /* the client took one of them */
    bool is_ahead;        /* something before one of them is missing */
    bool is_copy;
};

/* An entry of this client's id in the log of the server. */
struct found {
    uint64_t number;
    uint8_t *change;
    size_t length;
};

enum step { NOT_ANEW, SCAN, JOIN_ANEW };

/* The edits that are made again in the fresh client, how far that is, and what came of it. */
struct remaking {
    lugcurrant_list fates;  /* unsigned char, an enum fate: of the edits that wait, in order */
    uint64_t next;          /* edits that are done with */
    uint64_t made;          /* those of them that were made again */
    lugcurrant_list lost;   /* lugcurrant_flow_edit: those that could not be, or the one that is replaced */
    lugcurrant_list unsure; /* lugcurrant_flow_edit: those that may have been judged, or not */
    lugcurrant_list ids;    /* lugcurrant_flow_new_id */
};

/* A client that begins anew, or hears the document again: why, and how far it is. */
struct anew {
    enum step step;
    uint32_t state;
    bool replaces;            /* the fresh client is an observer: it hears the document again, for an edit that is replaced */
    bool scans;               /* the log is looked through for edits of this id */
    bool looks;               /* that is still to be done, or again */
    uint64_t from;            /* the version up to which it is done */
    bool is_asking;           /* the next part of it is under way */
    uint64_t done;            /* edits of this id that a copy says to be judged, or of which an observer has heard */
    lugcurrant_list found;    /* struct found, by their numbers */
    lugcurrant_client fresh;  /* what the client becomes, once it has heard what there is; or the observer */
    lugcurrant_client emptied; /* what the client becomes once the observer has heard what there is */
    struct remaking remaking;
};

/* An event, and what it owns. */
struct queued {
    lugcurrant_flow_event event;
    struct remaking remaking;
    char *value; /* of PRESENCE */
};

/* Whether the server has the word `here`. */
enum word { NOT_KNOWN, HAS_WORD, HAS_NO_WORD };

struct lugcurrant_flow {
    lugcurrant_client *client;
    lugcurrant_flow_options options;
    uint64_t limit;         /* edits above this number aren't sent */
    uint64_t judged;        /* the greatest number of an edit that was answered by idle */
    uint64_t tried;         /* the same of one that may have been judged without an answer */
    uint64_t saved;         /* the number of the last edit in a save of the client */
    uint32_t state;
    const char *words;
    uint32_t dropping;      /* why an edit must be replaced, or 0 */
    uint64_t dropped;       /* the number of that edit */
    uint64_t emptied;       /* the number of the last one that was replaced */
    struct anew anew;
    lugcurrant_list events; /* struct queued: those that weren't taken yet */
    struct queued told;     /* the one that was taken last */
    uint8_t *shown;         /* the JSON of what the client shows of itself, or null if it never did */
    size_t shown_length;
    lugcurrant_list others; /* lugcurrant_flow_other: what the others show, by their ids */
    uint8_t *message;       /* the message that was given last, or the text of an edit that is made again */
    size_t message_room;

    /* What belongs to one connection. */
    bool is_open;
    lugcurrant_list fifo;   /* struct sent: what is under way */
    uint32_t edits;         /* edits under way, and their bytes */
    size_t bytes;
    uint32_t asking;        /* asks under way */
    uint32_t width;         /* how many may be while catching up */
    uint64_t top;           /* the version that the last ask leads to */
    uint32_t useful;        /* of the asks that are under way together: how many brought news */
    bool is_round_full;     /* and whether an answer was full */
    double ask_at;
    double asked_at;
    double pause;
    double hold_until;      /* no edit and no join is sent before */
    double hold_for;
    uint64_t sent;          /* the number of the last edit that was sent */
    bool is_caught_up;      /* an ask has brought nothing more */
    double trip;            /* milliseconds from an ask to its answer */
    uint64_t lately;        /* entries an answer */
    uint32_t missing;       /* answers that missed an edit that was answered, and since when */
    double missing_since;
    bool is_full;           /* the server takes no more edits */
    bool is_live;           /* what is published comes unasked */
    uint32_t told_id;       /* the id for which it does, or 0: another one than the client's until the next `live` is answered */
    double live_at;         /* when `live` may be sent; NEVER while one is under way, or if the server has no such word */
    bool is_older;          /* it has none */
    bool is_showing;        /* what is shown is to be sent */
    double show_at;         /* when it may be */
    uint32_t showing;       /* how many values are under way */
    enum word here;
};

/* The members of ["entry",VERSION,[AUTHOR,NUMBER,WHAT,OUTCOME]] up to WHAT. */
struct entry {
    lugcurrant_span text;
    uint64_t author;
    uint64_t number;
    lugcurrant_span change;
};

static inline double lugcurrant_least_of(double a, double b)
{
    return a < b ? a : b;
}

static inline double lugcurrant_greatest_of(double a, double b)
{
    return a > b ? a : b;
}

/* ---- flow.c ---- */

/* Frees the fresh client and what came of it. If the beginning anew continues, another one joins. */
void lugcurrant_forget_fresh(struct anew *anew);

/* Ends a beginning anew, whatever it has reached. */
void lugcurrant_forget_anew(lugcurrant_flow *flow);

/* Makes room for the events of a call, and of a connection that is lost after it. Returns false if out of memory. */
bool lugcurrant_reserve_events(lugcurrant_flow *flow);

/* Adds an event. Its room is reserved already. */
struct queued *lugcurrant_push_event(lugcurrant_flow *flow, uint32_t type);

/* Sets the state and its words, and adds an event if one of them has changed. The event's room is reserved already. */
void lugcurrant_set_state(lugcurrant_flow *flow, uint32_t state, const char *words);

/* The server may have judged this edit, though it hasn't said so. */
void lugcurrant_may_be_judged(lugcurrant_flow *flow, uint64_t number);

/* Another client hears now. What is told unasked isn't for that one. */
void lugcurrant_leave(lugcurrant_flow *flow);

/* Checks whether what is published comes unasked, or will once `live` is answered. */
bool lugcurrant_is_told(const lugcurrant_flow *flow);

/* Checks whether an edit was answered whose entry hasn't come. */
bool lugcurrant_is_missing(const lugcurrant_flow *flow);

/* ---- outgoing.c ---- */

/* Makes room for so many bytes in `message`. Returns false if out of memory. */
bool lugcurrant_reserve_message(lugcurrant_flow *flow, size_t length);

/* Returns the client that hears: the one that is begun anew, if there is one. It has no id until it has joined. */
lugcurrant_client *lugcurrant_hearer_of(const lugcurrant_flow *flow);

/* Copies what the last call left in the client to `message`. DONE, MEMORY. */
uint32_t lugcurrant_take_left(lugcurrant_flow *flow, lugcurrant_client *client, size_t *length);

/* Returns how many asks may be under way while few news come. Such asks hear some news twice: few news an answer leave room for that. */
uint32_t lugcurrant_steady(const lugcurrant_flow *flow);

/* ---- hearing.c ---- */

/* Reads a number of the list's text, or 0 if it has none there. */
uint64_t lugcurrant_number_at(lugcurrant_span list, size_t index);

/* Reads the reason of ["no",REASON] and returns LUGCURRANT_NO + REASON, or LUGCURRANT_NO if the message is none. */
uint64_t lugcurrant_no_of(lugcurrant_span message);

/* Reads an entry's members. Returns false if the message hasn't got them. */
bool lugcurrant_read_entry(lugcurrant_span message, struct entry *entry);

/* Lets no edit and no join be sent for `hold_for` milliseconds, and doubles these, up to MOST_WAIT. */
void lugcurrant_hold(lugcurrant_flow *flow, double now);

/* ---- presence.c ---- */

/* Checks whether a value is to be sent that may be, once its time has come. */
bool lugcurrant_may_show(const lugcurrant_flow *flow);

/* Gives the value that the client shows to be sent. DONE; NONE (there is none to send now); MEMORY. */
uint32_t lugcurrant_next_shown(lugcurrant_flow *flow, double now, size_t *length);

/* What the client shows is to be sent once more, if it shows something. */
void lugcurrant_show_again(lugcurrant_flow *flow);

/* The server has no memory for the value now, or no such word; or it can't take this value, and keeps the last one. */
void lugcurrant_hear_no_to_shown(lugcurrant_flow *flow, uint32_t no, double now);

/* Another client shows this of itself. What comes of the own id is no news, nor what does of the one that was given up. Room for an event is
 * reserved already. DONE, also if it can't be read: then the state is FAULT; MEMORY. */
uint32_t lugcurrant_hear_shown(lugcurrant_flow *flow, lugcurrant_span message);

/* The connection is lost, and nobody is known to be there. Room for the events is reserved already. */
void lugcurrant_forget_others(lugcurrant_flow *flow);

/* ---- anew.c ---- */

/* Marks all that is under way: its answers have no further use. */
void lugcurrant_void_all(lugcurrant_flow *flow);

/* Continues as another client. It joins and hears what there is. With `scans` it then looks through the log after `from` for what was
 * judged of the edits that wait, and hears what came while it looked. Then it makes again what waits and was never judged. It looks as late
 * as it can: the server may still read an edit that was sent over a connection that is lost. Room for an event is reserved already. */
void lugcurrant_begin_anew(lugcurrant_flow *flow, uint32_t state, bool scans, uint64_t from);

/* Begins to replace the edit that the server can't take, once those before it are judged. Its number is given to one that changes nothing, so
 * that no later edit moves down. What it did to the view can't be taken back, as the client keeps no document without it: so an observer hears
 * the document again. */
void lugcurrant_begin_replacing(lugcurrant_flow *flow, double now);

/* Loads the observer, if one is needed and isn't there. DONE, MEMORY. */
uint32_t lugcurrant_load_observer(lugcurrant_flow *flow);

/* Counts the client's edits up to what the observer has heard. */
void lugcurrant_count_own(lugcurrant_flow *flow, uint8_t letter, lugcurrant_span message);

/* Makes the client whose edit is replaced, once the observer has heard all. If it is out of memory nothing has changed. DONE, MEMORY. */
uint32_t lugcurrant_make_emptied(lugcurrant_flow *flow);

/* The client becomes the one whose edit is replaced, which was made already. If the server counts other edits of the client than it has heard
 * of, the client begins anew: it has another history, or another program uses the id. */
void lugcurrant_become_emptied(lugcurrant_flow *flow);

/* Checks whether a copy counts edits as judged that aren't this program's, so that another one uses the id: the server never had them from
 * it, or the document has an object of theirs. The client would take such a copy, and its own edits of these numbers for judged. If it
 * created an object with the id of the other one, and was refused, it would show neither. DONE, MEMORY. */
uint32_t lugcurrant_check_twin(lugcurrant_flow *flow, lugcurrant_span copy, bool *is_twin);

/* Keeps an entry if it is an edit of the id that is given up and may be one that waits. DONE, MEMORY. */
uint32_t lugcurrant_look_at_entry(lugcurrant_flow *flow, lugcurrant_span message);

/* Returns the word of an edit, or "" if it is none. It is never freed. */
const char *lugcurrant_edit_word(lugcurrant_span word);

/* An entry or a copy of the log that is looked through. DONE, MEMORY. */
uint32_t lugcurrant_look_at_part(lugcurrant_flow *flow, struct sent *head, uint8_t letter, lugcurrant_span message);

/* An answer of the look has come: there is more, the server couldn't answer now, or all was seen. */
void lugcurrant_end_look(lugcurrant_flow *flow, const struct sent *ask, uint8_t letter, lugcurrant_span message, double now);

/* Makes what waits again in the fresh client. If it is out of memory it keeps what it has made, and continues there when it is called
 * again: no call shows the fresh client before. DONE, MEMORY. */
uint32_t lugcurrant_make_again(lugcurrant_flow *flow);

/* The client becomes the fresh one. What waits was made again already. */
void lugcurrant_become_fresh(lugcurrant_flow *flow);

#endif
