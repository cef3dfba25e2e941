/* What a client of a Lugcurrant document sends and hears on a connection: a link without the socket and without the clock.
 *
 * lugcurrant.h merges; this says which message goes next, and what an answer means. Up to 64 edits are under way at once and asks follow
 * them. What a connection lost is sent again. A client whose history the server doesn't have begins anew and makes its edits again. The
 * program has the socket: it sends each message as one binary WebSocket message, and passes each one that comes. It has the clock, too:
 * `now` is in milliseconds, from any start, and never falls.
 *
 *     lugcurrant_flow *flow = lugcurrant_flow_new(&client, NULL);
 *     lugcurrant_flow_open(flow, now);                              the WebSocket is open
 *     for (;;) {
 *         while (lugcurrant_flow_next_outgoing(flow, now, &bytes, &length) == LUGCURRANT_DONE) ..   send them
 *         .. wait until bytes come, for lugcurrant_flow_due(flow, now) milliseconds at most
 *         lugcurrant_flow_hear(flow, bytes, length, now);           for each message that came
 *         while (lugcurrant_flow_next_event(flow, &event) == LUGCURRANT_DONE) ..                   see what came of it
 *     }
 *     lugcurrant_flow_free(flow);
 *
 * examples/c/page.c is such a program. The server stops reading from a connection that doesn't read its answers: read while you write.
 *
 * Memory. A flow takes memory by malloc and returns it by free, as the library does. The client stays the program's: edits are made by the
 * calls of lugcurrant.h, and wait there. It must outlive the flow, stay at its address, and not be passed to lugcurrant_receive,
 * lugcurrant_resume, lugcurrant_load or lugcurrant_free while there is a flow. A flow replaces what an earlier call left in the client. No
 * two calls run on one flow or its client at once. Pointers that are passed are never null, except where a call says so.
 *
 * Out of memory. A call that returns LUGCURRANT_MEMORY has changed nothing that another call shows: call it again with the same arguments,
 * or pass lugcurrant_flow_lost and connect anew. What a flow reserves for a message is bounded by its length.
 *
 * These functions are tested, not proved: packages/c/README.md. */
#ifndef LUGCURRANT_FLOW_H
#define LUGCURRANT_FLOW_H

#include <lugcurrant.h>

#include <stdbool.h>

#ifdef __cplusplus
extern "C" {
#endif

/* api.json: begin */
/* Written by packages/generate out of api.json: change that. */
/* The states of a link. */
enum {
    LUGCURRANT_STATE_CONNECTING = 0,
    LUGCURRANT_STATE_ONLINE = 1,
    LUGCURRANT_STATE_OFFLINE = 2,
    LUGCURRANT_STATE_NO_SERVER = 3,
    LUGCURRANT_STATE_NO_SEAT = 4,
    LUGCURRANT_STATE_REPLACED = 5,
    LUGCURRANT_STATE_STRANGER = 6,
    LUGCURRANT_STATE_TOO_LARGE = 7,
    LUGCURRANT_STATE_UNREADABLE = 8,
    LUGCURRANT_STATE_FULL = 9,
    LUGCURRANT_STATE_DISK_FAILED = 10,
    LUGCURRANT_STATE_DISK_FAILED_BEFORE = 11,
    LUGCURRANT_STATE_NO_MEMORY = 12,
    LUGCURRANT_STATE_ANOTHER_DOCUMENT = 13,
    LUGCURRANT_STATE_UNGUARDED = 14,
    LUGCURRANT_STATE_FAULT = 15,
    LUGCURRANT_STATE_CLOSED = 16
};

/* Returns the name of a state, as all languages have it. */
static inline const char *lugcurrant_state_name(uint32_t number)
{
    switch (number) {
    case LUGCURRANT_STATE_CONNECTING: return "connecting";
    case LUGCURRANT_STATE_ONLINE: return "online";
    case LUGCURRANT_STATE_OFFLINE: return "offline";
    case LUGCURRANT_STATE_NO_SERVER: return "no server";
    case LUGCURRANT_STATE_NO_SEAT: return "no seat";
    case LUGCURRANT_STATE_REPLACED: return "replaced";
    case LUGCURRANT_STATE_STRANGER: return "stranger";
    case LUGCURRANT_STATE_TOO_LARGE: return "too large";
    case LUGCURRANT_STATE_UNREADABLE: return "unreadable";
    case LUGCURRANT_STATE_FULL: return "full";
    case LUGCURRANT_STATE_DISK_FAILED: return "disk failed";
    case LUGCURRANT_STATE_DISK_FAILED_BEFORE: return "disk failed before";
    case LUGCURRANT_STATE_NO_MEMORY: return "no memory";
    case LUGCURRANT_STATE_ANOTHER_DOCUMENT: return "another document";
    case LUGCURRANT_STATE_UNGUARDED: return "unguarded";
    case LUGCURRANT_STATE_FAULT: return "fault";
    case LUGCURRANT_STATE_CLOSED: return "closed";
    default: return "Unknown";
    }
}

/* Returns the same in words. */
static inline const char *lugcurrant_state_sentence(uint32_t number)
{
    switch (number) {
    case LUGCURRANT_STATE_CONNECTING: return "it connects, or waits for its first answer";
    case LUGCURRANT_STATE_ONLINE: return "the server answers";
    case LUGCURRANT_STATE_OFFLINE: return "the program wants no connection; edits wait";
    case LUGCURRANT_STATE_NO_SERVER: return "no server answers; it is tried again";
    case LUGCURRANT_STATE_NO_SEAT: return "every seat of the server is taken; it is tried again";
    case LUGCURRANT_STATE_REPLACED: return "another program uses this id; it begins anew, and makes again what waits";
    case LUGCURRANT_STATE_STRANGER: return "the server has another history; it begins anew, and makes again what waits";
    case LUGCURRANT_STATE_TOO_LARGE: return "an edit is too large for the server; one that changes nothing takes its number";
    case LUGCURRANT_STATE_UNREADABLE: return "the server can not read an edit; one that changes nothing takes its number";
    case LUGCURRANT_STATE_FULL: return "the server can take no more edits; others are heard";
    case LUGCURRANT_STATE_DISK_FAILED: return "the server's disk failed; what waits is sent again";
    case LUGCURRANT_STATE_DISK_FAILED_BEFORE: return "the server's disk failed before; what waits is sent again";
    case LUGCURRANT_STATE_NO_MEMORY: return "the server has no memory for this now; it is sent again";
    case LUGCURRANT_STATE_ANOTHER_DOCUMENT: return "the server has another document now; begin anew with it";
    case LUGCURRANT_STATE_UNGUARDED: return "the identity of the document can not be read from here (CORS): give `document`, or false to go on without the guard";
    case LUGCURRANT_STATE_FAULT: return "the server broke the protocol, or the client has no memory left";
    case LUGCURRANT_STATE_CLOSED: return "the program closed the link";
    default: return "Unknown";
    }
}

/* Returns the name of the reason why the server refused an edit, as all languages have it. */
static inline const char *lugcurrant_refusal_name(uint32_t number)
{
    switch (number) {
    case 1: return "IsRoot";
    case 2: return "BadId";
    case 3: return "Gone";
    case 4: return "ParentGone";
    case 5: return "BadParent";
    case 6: return "Cycle";
    case 7: return "Crowded";
    case 8: return "TooDeep";
    default: return "Unknown";
    }
}

/* Returns the same in words. */
static inline const char *lugcurrant_refusal_sentence(uint32_t number)
{
    switch (number) {
    case 1: return "the document itself can not be moved or deleted";
    case 2: return "the id was used before";
    case 3: return "the object was deleted meanwhile";
    case 4: return "what it would stand in was deleted meanwhile";
    case 5: return "such an object may not stand there";
    case 6: return "somebody moved the other one into it first";
    case 7: return "there is no room left at this place";
    case 8: return "objects stand at most 100 deep";
    default: return "Unknown";
    }
}
/* api.json: end */

/* A flow: made by lugcurrant_flow_new. Its fields are the library's. */
typedef struct lugcurrant_flow lugcurrant_flow;

/* How a flow behaves. A field that is 0 has the value that its comment ends with. */
typedef struct lugcurrant_flow_options {
    uint32_t window;       /* edits under way at once: 64 */
    size_t window_bytes;   /* bytes of edits under way at once; a single edit may be longer: 262144 */
    uint32_t asks;         /* asks under way at once while few news come: 4 */
    uint32_t most_asks;    /* asks under way at once while catching up: 32 */
    double least_pause;    /* milliseconds between asks while news come: 5 */
    double most_pause;     /* milliseconds to which that pause grows while none come: 400 */
    double beat;           /* milliseconds without a message after which a live connection is tried by an ask: 20000 */
} lugcurrant_flow_options;

/* The types of events. */
enum {
    LUGCURRANT_FLOW_STATE = 1,     /* the state or its words are others */
    LUGCURRANT_FLOW_TOOK = 2,      /* the client took something, so the document or its id may be another */
    LUGCURRANT_FLOW_REFUSED = 3,   /* the server refused an edit of this client, or can't take it */
    LUGCURRANT_FLOW_ANEW = 4,      /* the client has become another one, with another id and its edits made again */
    LUGCURRANT_FLOW_CAUGHT_UP = 5, /* an answer ended and brought everything that the server had; or the flow is settled again */
    LUGCURRANT_FLOW_PRESENCE = 6   /* another client shows something else of itself, or nothing any more */
};

/* An edit that was not made again, or was replaced: the JSON of its change (docs/wire.md), with a zero after it. */
typedef struct lugcurrant_flow_edit {
    const char *change;
    size_t length;  /* of the change */
    uint32_t code;  /* why it could not be: a number of lugcurrant.h, LUGCURRANT_NO_TOO_LARGE and LUGCURRANT_NO_UNREADABLE among them */
} lugcurrant_flow_edit;

/* An object that was created again, and so has another id. */
typedef struct lugcurrant_flow_new_id {
    lugcurrant_object_id was;
    lugcurrant_object_id is;
} lugcurrant_flow_new_id;

/* What another client shows of itself. */
typedef struct lugcurrant_flow_other {
    uint32_t client;    /* its id */
    const char *value;  /* any JSON, with a zero after it */
    size_t length;      /* of the value */
} lugcurrant_flow_other;

/* What happened. Only the fields of its type are set, all others are 0. */
typedef struct lugcurrant_flow_event {
    uint32_t type;

    uint32_t state;                        /* STATE: LUGCURRANT_STATE_* */
    const char *words;                     /* STATE: a sentence, or "". It is never freed */

    uint64_t version;                      /* REFUSED: the version of the entry */
    uint64_t number;                       /* REFUSED: the number of the edit */
    const char *edit;                      /* REFUSED: "create", "set", "clear", "move" or "delete". It is never freed */
    lugcurrant_object_id id;               /* REFUSED: the object of the edit */
    uint32_t reason;                       /* REFUSED: for lugcurrant_refusal_name; LUGCURRANT_NO_TOO_LARGE or _UNREADABLE if the edit is in `lost` */

    uint64_t made;                         /* ANEW: how many edits were made again, and wait now */
    const lugcurrant_flow_edit *lost;      /* ANEW: those that could not be. REFUSED: the edit, if the server can't take it */
    size_t lost_count;                     /* ANEW, REFUSED: their number */
    const lugcurrant_flow_edit *unsure;    /* ANEW: those that may have been judged or not, and that the document doesn't show; no code */
    size_t unsure_count;                   /* ANEW: their number */
    const lugcurrant_flow_new_id *ids;     /* ANEW: the objects that have another id, by their former ids */
    size_t ids_count;                      /* ANEW: their number */

    uint32_t client;                       /* PRESENCE: the id of the other client */
    const char *value;                     /* PRESENCE: what it shows, as JSON with a zero after it; null if it has gone or the connection is lost */
    size_t value_length;                   /* PRESENCE: of the value */
} lugcurrant_flow_event;

/* Makes a flow for the client, without a connection, in the state LUGCURRANT_STATE_CONNECTING. `options` may be null. The program frees it
 * by lugcurrant_flow_free. Returns null if out of memory, or if lugcurrant_library_fault has a sentence: the loaded library is of another version. */
lugcurrant_flow *lugcurrant_flow_new(lugcurrant_client *client, const lugcurrant_flow_options *options);

/* Ends the flow. The client stays, with all that waits. `flow` may be null. */
void lugcurrant_flow_free(lugcurrant_flow *flow);

/* Says that a connection is open. What was under way on the one before is sent again. */
void lugcurrant_flow_open(lugcurrant_flow *flow, double now);

/* Says that the connection has ended, or that the program closed it. No other client is known to be there then: a PRESENCE says so of each. */
void lugcurrant_flow_lost(lugcurrant_flow *flow);

/* Says that there is something to send or to hear, so that the next ask doesn't wait for its time. After an edit it needn't be called. */
void lugcurrant_flow_wake(lugcurrant_flow *flow, double now);

/* Gives the next message to send now, in order; call it until there is none, after each edit, each message heard and each time that
 * lugcurrant_flow_due gave. A message that was given counts as sent. `*bytes` belongs to the flow and is valid until the next call of this
 * function, lugcurrant_flow_hear or lugcurrant_flow_free.
 * DONE; NONE (there is none now, `*bytes` and `*length` are as they were); MEMORY. */
uint32_t lugcurrant_flow_next_outgoing(lugcurrant_flow *flow, double now, const uint8_t **bytes, size_t *length);

/* Returns the milliseconds after which there may be more to send, 0 if at once. A negative number: only after a call of open, hear, wake or
 * an edit. Call it once lugcurrant_flow_next_outgoing has returned NONE. */
double lugcurrant_flow_due(const lugcurrant_flow *flow, double now);

/* Takes one message of the server. What came of it are events.
 * DONE, also for a message that breaks the protocol: then the state is LUGCURRANT_STATE_FAULT, and the connection has no further use.
 * MEMORY: the message was not taken. Pass it again before the next one. */
uint32_t lugcurrant_flow_hear(lugcurrant_flow *flow, const uint8_t *bytes, size_t length, double now);

/* Takes the first event that wasn't taken yet. Take all events after each message: the flow keeps those that aren't taken. The lists and the
 * value of an event belong to the flow and are valid until the next call of this function or lugcurrant_flow_free.
 * After a TOOK the client has left which objects may have changed, as by lugcurrant_receive_and_tell. Read it before the next call of
 * lugcurrant_flow_hear or lugcurrant_flow_next_outgoing. After ANEW any object may have changed, and so after a REFUSED with the edit in `lost`:
 * the client keeps its id and the numbers of its edits, but that one changes nothing now.
 * DONE; NONE (there is none, `*event` is as it was). */
uint32_t lugcurrant_flow_next_event(lugcurrant_flow *flow, lugcurrant_flow_event *event);

/* Returns the state: LUGCURRANT_STATE_CONNECTING, _ONLINE, _REPLACED, _STRANGER, _TOO_LARGE, _UNREADABLE, _FULL, _DISK_FAILED,
 * _DISK_FAILED_BEFORE, _NO_MEMORY or _FAULT. The other states are for programs: a flow doesn't know why there is no connection. */
uint32_t lugcurrant_flow_state(const lugcurrant_flow *flow);

/* Returns how many edits of the client the server hasn't said to have. */
uint64_t lugcurrant_flow_unsent(const lugcurrant_flow *flow);

/* Checks whether nothing waits and all that the server had was heard since the connection was opened. */
bool lugcurrant_flow_is_settled(const lugcurrant_flow *flow);

/* Returns how many messages that were given to send are without the end of their answer. While it isn't 0 a server that is silent for long
 * is gone. */
size_t lugcurrant_flow_unanswered(const lugcurrant_flow *flow);

/* Lets no edit above this number be sent: a program that keeps its client on disk sets the number of the last edit that it has saved there.
 * Without a call there is no limit. After ANEW the numbers begin at 1 again: set the limit before the next message is taken to be sent. After a
 * REFUSED with the edit in `lost` the flow has lowered the limit below that edit: save the client, and set it again. */
void lugcurrant_flow_set_limit(lugcurrant_flow *flow, uint64_t number);

/* Says that the program has saved the client, with all its edits, by lugcurrant_save. Another program that loads the save sends the same
 * edits under the same id, so an edit in a save may have been judged even if the flow never sent it. Not needed if the program sets a limit,
 * nor for what was saved before the flow was made. */
void lugcurrant_flow_saved(lugcurrant_flow *flow);

/* Shows the other clients this value in place of the last one: JSON in UTF-8, such as the place of the pointer; null for nothing. Call it as
 * often as you like: lugcurrant_flow_next_outgoing gives at most 30 a second once the connection is live (docs/clients.md), the last one always,
 * and the last one again on each later connection. With a server without presence it gives none. Nothing of it is kept.
 * DONE; NOT_JSON; NO_ROOM (it has more than 1,024 bytes, without blanks); TOO_DEEP (lists and objects in it are more than 100 deep); MEMORY. But for
 * DONE the last value stays. */
uint32_t lugcurrant_flow_presence_set(lugcurrant_flow *flow, const char *value, size_t length);

/* Gives what the other clients show, in the order of their ids, and returns their number. `*others` belongs to the flow and is valid until the
 * next call of lugcurrant_flow_hear, _open, _lost or _free; it is null if there are none, as without a connection. Other programs may show any
 * JSON. */
size_t lugcurrant_flow_presence_others(const lugcurrant_flow *flow, const lugcurrant_flow_other **others);

/* Begins anew, as the program knows that the server has another history than the client: the identity of the document is another one
 * (docs/clients.md). Own edits are looked for in the new history first. A client without an id has nothing to begin anew with: nothing
 * happens.
 * DONE, MEMORY. */
uint32_t lugcurrant_flow_begin_anew(lugcurrant_flow *flow);

#ifdef __cplusplus
}
#endif

#endif
