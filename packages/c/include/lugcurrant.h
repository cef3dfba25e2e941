/* The client of a Lugcurrant document, for programs in C and in whatever calls C.
 *
 * A client holds what one participant shows of the document, the edits of its own that wait for the server, and the id under which the
 * server knows it. It speaks no network: the program sends the bytes that a call leaves and gives the bytes that come to
 * lugcurrant_receive. docs/clients.md says in which order messages go.
 *
 *     lugcurrant_client client = {0};
 *     if (lugcurrant_new(&client) != LUGCURRANT_DONE) ..
 *     lugcurrant_join(&client);                     leaves the text of a Join
 *     size_t length = lugcurrant_length(&client);
 *     lugcurrant_read(&client, bytes, room);        .. send these bytes as one binary message
 *     lugcurrant_receive(&client, answer, length);  .. for each message that comes
 *     lugcurrant_free(&client);
 *
 * Memory. The program owns the handle, 16 bytes that are zero at first; it doesn't copy them while they hold a client, and lets no two
 * calls run on one handle at once. The library owns what the handle points to, from lugcurrant_new to lugcurrant_free; it takes it by
 * malloc, realloc and free. Bytes that are passed stay the program's: they are read, or written, in the call alone. No pointer into the
 * library ever leaves it. A pointer that is passed is never null, not even where its length is 0.
 *
 * Every call answers; none is made to fail by its bytes or numbers. What a call that leaves bytes has left stays until the next call that
 * leaves some. After each answer but DONE and TOOK the client is as it was.
 */
#ifndef LUGCURRANT_H
#define LUGCURRANT_H

#include <stddef.h>
#include <stdint.h>
#include <stdio.h>

#ifdef __cplusplus
extern "C" {
#endif

/* A handle. `mark` says whether there is a client at `at`: whatever else stands in it, it holds none. */
typedef struct lugcurrant_client {
    void *at;
    uint64_t mark;
} lugcurrant_client;

/* An object's id: the id of the client that created it, and which of that client's creations it was. The root is 0:0. */
typedef struct lugcurrant_object_id {
    uint32_t client;
    uint32_t counter;
} lugcurrant_object_id;

/* api.json: begin */
/* Written by packages/generate out of api.json: change that. */
/* The version of this header, as all packages have it. */
#define LUGCURRANT_VERSION "0.1.0"
/* The same as one number: the major one by 10,000, the minor one by 100, and the last. */
#define LUGCURRANT_VERSION_NUMBER 100
/* The version of the messages, as a Join has it (docs/wire.md). */
#define LUGCURRANT_WIRE 2

/* The kinds of objects. Pages stand in the root, frames in pages and frames, shapes and texts in both. */
enum {
    LUGCURRANT_PAGE = 1,
    LUGCURRANT_FRAME = 2,
    LUGCURRANT_SHAPE = 3,
    LUGCURRANT_TEXT = 4
};

/* What a call answers. No number means two things. */
enum {
    LUGCURRANT_DONE = 0, /* it is done */
    LUGCURRANT_NOT_OPEN = 1, /* the server has not given this client an id yet */
    LUGCURRANT_NOT_SHOWN = 2, /* the object is not shown any more */
    LUGCURRANT_PARENT_NOT_SHOWN = 3, /* what it would stand in is not shown any more */
    LUGCURRANT_BAD_PARENT = 4, /* such an object may not stand there */
    LUGCURRANT_OWN_DESCENDANT = 5, /* an object can not stand in itself */
    LUGCURRANT_CROWDED = 6, /* there is no room left at this place */
    LUGCURRANT_IS_ROOT = 7, /* the document itself can not be moved or deleted */
    LUGCURRANT_IDS_SPENT = 8, /* this client can create no more objects */
    LUGCURRANT_FULL = 9, /* this client can make no more edits */
    LUGCURRANT_MEMORY = 10, /* there is no memory left */
    LUGCURRANT_TOO_DEEP = 11, /* objects stand at most 100 deep */
    LUGCURRANT_TAKEN = 12, /* another object has this position */
    LUGCURRANT_NO_CLIENT = 20, /* this client was freed */
    LUGCURRANT_HELD = 21, /* the handle holds a client already */
    LUGCURRANT_NONE = 22, /* there is no such text */
    LUGCURRANT_NO_ROOM = 23, /* the room is smaller than the bytes */
    LUGCURRANT_NO_KIND = 24, /* an object is a page, a frame, a shape or a text */
    LUGCURRANT_NAME_EMPTY = 30, /* the name of a property is empty */
    LUGCURRANT_NAME_TOO_LONG = 31, /* the name of a property has more than 32 bytes */
    LUGCURRANT_NAME_BAD_BYTE = 32, /* the name of a property is of a to z, 0 to 9 and _ */
    LUGCURRANT_POSITION_EMPTY = 33, /* a position is empty */
    LUGCURRANT_POSITION_TOO_LONG = 34, /* a position has more than 128 bytes */
    LUGCURRANT_POSITION_BAD_BYTE = 35, /* a position is of the bytes from space to ~ */
    LUGCURRANT_POSITION_TRAILING_ZERO = 36, /* a position does not end in a space */
    LUGCURRANT_NOT_JSON = 40, /* this is no JSON */
    LUGCURRANT_NOT_A_VALUE = 41, /* this is no value of a property */
    LUGCURRANT_NOT_A_MESSAGE = 42, /* this is no message */
    LUGCURRANT_OUT_OF_RANGE = 43, /* a number is out of its range */
    LUGCURRANT_VALUE_TOO_DEEP = 44, /* lists stand at most 16 deep in one another */
    LUGCURRANT_NOT_A_CLIENT = 45, /* this is no saved client */
    LUGCURRANT_INCONSISTENT = 46, /* no client waits with these edits */
    LUGCURRANT_NOT_AN_EDIT = 47, /* this message is no edit */
    LUGCURRANT_NOT_OWN = 48, /* this edit is another client's */
    LUGCURRANT_GAP = 49, /* an edit before this one is missing */
    LUGCURRANT_TOOK = 50, /* the client took the message */
    LUGCURRANT_OLD = 51, /* the client had it already */
    LUGCURRANT_AHEAD = 52, /* something before it is missing */
    LUGCURRANT_NOT_FOR_ME = 53, /* it is not for this client */
    LUGCURRANT_IDLE = 54, /* the answer ends */
    LUGCURRANT_NO = 60 /* the server refuses; the reason is added to this number */
};

/* The reasons of a No: LUGCURRANT_NO + n. */
enum {
    LUGCURRANT_NO_STRANGER = 61,
    LUGCURRANT_NO_REPEAT = 62,
    LUGCURRANT_NO_GAP = 63,
    LUGCURRANT_NO_FULL = 64,
    LUGCURRANT_NO_DISK_FAILED = 65,
    LUGCURRANT_NO_DISK_FAILED_BEFORE = 66,
    LUGCURRANT_NO_NO_MEMORY = 67,
    LUGCURRANT_NO_TOO_LARGE = 68,
    LUGCURRANT_NO_UNREADABLE = 69
};

/* The name of a number, as all languages have it: NotOpen, TooDeep, took, stranger. */
static inline const char *lugcurrant_fault_name(uint32_t number)
{
    switch (number) {
    case 0: return "done";
    case 1: return "NotOpen";
    case 2: return "NotShown";
    case 3: return "ParentNotShown";
    case 4: return "BadParent";
    case 5: return "OwnDescendant";
    case 6: return "Crowded";
    case 7: return "IsRoot";
    case 8: return "IdsSpent";
    case 9: return "Full";
    case 10: return "Memory";
    case 11: return "TooDeep";
    case 12: return "Taken";
    case 20: return "NoClient";
    case 21: return "Held";
    case 22: return "none";
    case 23: return "NoRoom";
    case 24: return "NoKind";
    case 30: return "NameEmpty";
    case 31: return "NameTooLong";
    case 32: return "NameBadByte";
    case 33: return "PositionEmpty";
    case 34: return "PositionTooLong";
    case 35: return "PositionBadByte";
    case 36: return "PositionTrailingZero";
    case 40: return "NotJson";
    case 41: return "NotAValue";
    case 42: return "NotAMessage";
    case 43: return "OutOfRange";
    case 44: return "ValueTooDeep";
    case 45: return "NotAClient";
    case 46: return "Inconsistent";
    case 47: return "NotAnEdit";
    case 48: return "NotOwn";
    case 49: return "Gap";
    case 50: return "took";
    case 51: return "old";
    case 52: return "ahead";
    case 53: return "not for me";
    case 54: return "idle";
    case 61: return "stranger";
    case 62: return "repeat";
    case 63: return "gap";
    case 64: return "full";
    case 65: return "disk failed";
    case 66: return "disk failed before";
    case 67: return "no memory";
    case 68: return "too large";
    case 69: return "unreadable";
    default: return "Unknown";
    }
}

/* The same in words. */
static inline const char *lugcurrant_fault_sentence(uint32_t number)
{
    switch (number) {
    case 0: return "it is done";
    case 1: return "the server has not given this client an id yet";
    case 2: return "the object is not shown any more";
    case 3: return "what it would stand in is not shown any more";
    case 4: return "such an object may not stand there";
    case 5: return "an object can not stand in itself";
    case 6: return "there is no room left at this place";
    case 7: return "the document itself can not be moved or deleted";
    case 8: return "this client can create no more objects";
    case 9: return "this client can make no more edits";
    case 10: return "there is no memory left";
    case 11: return "objects stand at most 100 deep";
    case 12: return "another object has this position";
    case 20: return "this client was freed";
    case 21: return "the handle holds a client already";
    case 22: return "there is no such text";
    case 23: return "the room is smaller than the bytes";
    case 24: return "an object is a page, a frame, a shape or a text";
    case 30: return "the name of a property is empty";
    case 31: return "the name of a property has more than 32 bytes";
    case 32: return "the name of a property is of a to z, 0 to 9 and _";
    case 33: return "a position is empty";
    case 34: return "a position has more than 128 bytes";
    case 35: return "a position is of the bytes from space to ~";
    case 36: return "a position does not end in a space";
    case 40: return "this is no JSON";
    case 41: return "this is no value of a property";
    case 42: return "this is no message";
    case 43: return "a number is out of its range";
    case 44: return "lists stand at most 16 deep in one another";
    case 45: return "this is no saved client";
    case 46: return "no client waits with these edits";
    case 47: return "this message is no edit";
    case 48: return "this edit is another client's";
    case 49: return "an edit before this one is missing";
    case 50: return "the client took the message";
    case 51: return "the client had it already";
    case 52: return "something before it is missing";
    case 53: return "it is not for this client";
    case 54: return "the answer ends";
    case 61: return "the server does not know this client";
    case 62: return "the server has judged this edit already";
    case 63: return "an edit before this one is missing";
    case 64: return "the server can take no more edits";
    case 65: return "the server's disk failed";
    case 66: return "the server's disk failed before";
    case 67: return "the server has no memory for this now";
    case 68: return "the edit is too large for the server";
    case 69: return "the server can not read what was sent";
    default: return "Unknown";
    }
}
/* api.json: end */

/* Returns the version of the library that is loaded, in the form of LUGCURRANT_VERSION_NUMBER. It is that of the header with which packages/c/build made
 * the library, and no call of the proved client. */
uint32_t lugcurrant_library_version(void);

/* Checks whether the library that is loaded and this header are of one version: their major and minor numbers are the same. */
#define LUGCURRANT_LIBRARY_MATCHES() (lugcurrant_library_version() / 100 == LUGCURRANT_VERSION_NUMBER / 100)

/* Returns null if they are of one version, else a sentence that says why the library can't be used: it is written into `room`, and cut if it has more
 * than `size` bytes with its zero. 160 are enough. Call it first: another version may have other calls and numbers. */
static inline const char *lugcurrant_library_fault(char *room, size_t size)
{
    unsigned found = (unsigned)lugcurrant_library_version();
    if (LUGCURRANT_LIBRARY_MATCHES())
        return NULL;
    snprintf(room, size, "cannot use liblugcurrant: it has version %u.%u.%u, and this program %s; take the header and the library from one build",
             found / 10000, found / 100 % 100, found % 100, LUGCURRANT_VERSION);
    return room;
}

/* Why an edit is refused: the first that holds, in the order NOT_OPEN, IS_ROOT, NOT_SHOWN, PARENT_NOT_SHOWN, BAD_PARENT, OWN_DESCENDANT,
 * TOO_DEEP, CROWDED, IDS_SPENT, FULL; at a position that is named TAKEN stands in the place of CROWDED, and at an end CROWDED is looked for
 * first, and TAKEN never comes. MEMORY comes before every other reason. Of bytes: NOT_A_CLIENT comes before OUT_OF_RANGE. */

/* Makes a client without an id, which shows the root alone. DONE, HELD, MEMORY. */
uint32_t lugcurrant_new(lugcurrant_client *client);

/* Makes the client that lugcurrant_save has left as these bytes: the same id, view and waiting edits. Load them for the same document
 * alone, and for one client at a time. DONE, HELD, NOT_JSON, NOT_A_CLIENT, OUT_OF_RANGE, VALUE_TOO_DEEP, INCONSISTENT, MEMORY. */
uint32_t lugcurrant_load(lugcurrant_client *client, const uint8_t *bytes, size_t length);

/* Ends it, with all that waits; the handle is zero again. DONE, NO_CLIENT. */
uint32_t lugcurrant_free(lugcurrant_client *client);

/* The client's id, or 0 while it has none or there is no client. */
uint32_t lugcurrant_id(lugcurrant_client *client);

/* The version that it has reached; 0 where there is no client. */
uint64_t lugcurrant_version(lugcurrant_client *client);

/* The number of its last edit of which it has taken the entry; 0 where there is no client. */
uint64_t lugcurrant_acknowledged(lugcurrant_client *client);

/* How many of its edits wait; 0 where there is no client. The last edit's number is this and the one before together. */
uint64_t lugcurrant_waiting(lugcurrant_client *client);

/* Receives one message. TOOK, OLD, AHEAD, NOT_FOR_ME, IDLE, NO + n; or the bytes are a text of no message: NOT_JSON, NOT_A_MESSAGE,
 * OUT_OF_RANGE, VALUE_TOO_DEEP; MEMORY, NO_CLIENT. */
uint32_t lugcurrant_receive(lugcurrant_client *client, const uint8_t *bytes, size_t length);

/* The same, and where it isn't an error it leaves which objects of the view may have changed: the JSON of their ids, [[1,2],..], each of
 * which may be new or gone; or null, and any may have changed. */
uint32_t lugcurrant_receive_and_tell(lugcurrant_client *client, const uint8_t *bytes, size_t length);

/* Makes an edit again by the bytes of its message, as lugcurrant_edit has left them. It must be of this client's id. With the next number it
 * becomes the last edit that waits, whatever the client shows. OLD: the client had an edit of this number already, and is as it was. Else the
 * first that holds, and nothing has changed: NOT_JSON, NOT_A_MESSAGE, OUT_OF_RANGE, VALUE_TOO_DEEP, NOT_AN_EDIT, NOT_OWN, GAP (its number is
 * above the next one), INCONSISTENT (it creates an object with another id than the client's next one); MEMORY, NO_CLIENT.
 *
 * So a save can be a log: the bytes of lugcurrant_save once, and behind them a line for each message that the client took and for each edit that
 * it made, in order. lugcurrant_load of the first, then lugcurrant_receive and lugcurrant_resume of the lines, make the very client that wrote
 * them. An edit is sent once its line is on the disk, and all before it; a last line that was cut is dropped, as its edit was never sent. Save
 * the whole client again after a copy, once the log is longer than that, and after ANEW or a REFUSED with the edit in `lost`. */
uint32_t lugcurrant_resume(lugcurrant_client *client, const uint8_t *bytes, size_t length);

/* Creates an object of this kind under the parent, behind its child `after`, or as the first where `after` is 0:0. `made` is its id then,
 * and is as it was after each error. DONE, NO_KIND, the refusals of an edit, NO_CLIENT. */
uint32_t lugcurrant_create(lugcurrant_client *client, uint32_t kind, uint32_t parent_client, uint32_t parent_counter,
                           uint32_t after_client, uint32_t after_counter, lugcurrant_object_id *made);

/* The same at the position of these bytes (docs/model.md), which no other child of the parent may have. DONE, NO_KIND, POSITION_*, the
 * refusals of an edit, NO_CLIENT. */
uint32_t lugcurrant_create_at(lugcurrant_client *client, uint32_t kind, uint32_t parent_client, uint32_t parent_counter,
                              const uint8_t *position, size_t length, lugcurrant_object_id *made);

/* The same after all children of the parent: 41 million fit one after the other, and after some 800 lugcurrant_create has no room. DONE,
 * NO_KIND, the refusals of an edit, NO_CLIENT. */
uint32_t lugcurrant_create_last(lugcurrant_client *client, uint32_t kind, uint32_t parent_client, uint32_t parent_counter,
                                lugcurrant_object_id *made);

/* The same before all children of the parent. DONE, NO_KIND, the refusals of an edit, NO_CLIENT. */
uint32_t lugcurrant_create_first(lugcurrant_client *client, uint32_t kind, uint32_t parent_client, uint32_t parent_counter,
                                 lugcurrant_object_id *made);

/* Gives a property of the object the value of which `json` is the JSON. DONE, NAME_*, NOT_JSON, NOT_A_VALUE, OUT_OF_RANGE,
 * VALUE_TOO_DEEP, the refusals of an edit, NO_CLIENT. */
uint32_t lugcurrant_set(lugcurrant_client *client, uint32_t object_client, uint32_t object_counter, const uint8_t *name,
                        size_t name_length, const uint8_t *json, size_t json_length);

/* Takes a property of the object away. DONE, NAME_*, the refusals of an edit, NO_CLIENT. */
uint32_t lugcurrant_clear(lugcurrant_client *client, uint32_t object_client, uint32_t object_counter, const uint8_t *name,
                          size_t name_length);

/* Moves the object under the parent, behind its child `after`, or as the first where `after` is 0:0. DONE, the refusals of an edit,
 * NO_CLIENT. */
uint32_t lugcurrant_move(lugcurrant_client *client, uint32_t object_client, uint32_t object_counter, uint32_t parent_client,
                         uint32_t parent_counter, uint32_t after_client, uint32_t after_counter);

/* The same to the position of these bytes, which no other child of the parent may have. DONE, POSITION_*, the refusals of an edit,
 * NO_CLIENT. */
uint32_t lugcurrant_move_at(lugcurrant_client *client, uint32_t object_client, uint32_t object_counter, uint32_t parent_client,
                            uint32_t parent_counter, const uint8_t *position, size_t length);

/* The same to the place after all other children of the parent. DONE, the refusals of an edit, NO_CLIENT. */
uint32_t lugcurrant_move_last(lugcurrant_client *client, uint32_t object_client, uint32_t object_counter, uint32_t parent_client,
                              uint32_t parent_counter);

/* The same to the place before all other children of the parent. DONE, the refusals of an edit, NO_CLIENT. */
uint32_t lugcurrant_move_first(lugcurrant_client *client, uint32_t object_client, uint32_t object_counter, uint32_t parent_client,
                               uint32_t parent_counter);

/* Removes the object; what lies below it is shown no more. DONE, the refusals of an edit, NO_CLIENT. */
uint32_t lugcurrant_delete(lugcurrant_client *client, uint32_t object_client, uint32_t object_counter);

/* Leaves the text of a Join, to be sent while the client has no id. DONE, MEMORY, NO_CLIENT. */
uint32_t lugcurrant_join(lugcurrant_client *client);

/* Leaves the text that asks for what came after the client's version. DONE, NONE (no id), MEMORY, NO_CLIENT. */
uint32_t lugcurrant_ask(lugcurrant_client *client);

/* Leaves the text of the i-th edit that waits, counted from 1. DONE, NONE (so many don't wait, or 0), MEMORY, NO_CLIENT. */
uint32_t lugcurrant_edit(lugcurrant_client *client, uint64_t i);

/* Leaves the text of the tree that the client shows: a line for each object, its id, its kind and its position, and a line
 * `.NAME JSON` for each of its properties, two blanks deeper at each level. DONE, MEMORY, NO_CLIENT. */
uint32_t lugcurrant_tree(lugcurrant_client *client);

/* Leaves the object of the view, in the tree or not, as JSON: [[CLIENT,COUNTER],KIND,PLACE,PROPERTIES], a row of docs/wire.md. DONE,
 * NONE, MEMORY, NO_CLIENT. */
uint32_t lugcurrant_object(lugcurrant_client *client, uint32_t object_client, uint32_t object_counter);

/* Leaves the ids of the objects of the view whose place names this one, in order: [[1,2],..]. DONE, MEMORY, NO_CLIENT. */
uint32_t lugcurrant_children(lugcurrant_client *client, uint32_t object_client, uint32_t object_counter);

/* Whether the object is in the tree that the client shows. DONE, NOT_SHOWN, NO_CLIENT. */
uint32_t lugcurrant_in_tree(lugcurrant_client *client, uint32_t object_client, uint32_t object_counter);

/* Leaves the client as JSON, of which lugcurrant_load makes it again: what the program keeps while it doesn't run. Save before an edit is
 * sent, or write its line (lugcurrant_resume): of two edits with one number the server takes the second for a repeat. DONE, MEMORY,
 * NO_CLIENT. */
uint32_t lugcurrant_save(lugcurrant_client *client);

/* How many bytes were left by the last call that leaves some and answered DONE; 0 where there was none. */
size_t lugcurrant_length(lugcurrant_client *client);

/* Copies the bytes that were left to the start of the room; what lies behind them there stays. DONE, NO_ROOM (nothing is written),
 * NO_CLIENT. */
uint32_t lugcurrant_read(lugcurrant_client *client, uint8_t *into, size_t room);

#ifdef __cplusplus
}
#endif

#endif
