/* Edits as texts: the members of a JSON list, and an edit that is made again from its text. As packages/js/src/remake.js. */
#include "internal.h"

enum { LONGEST_NAME = 32, LONGEST_POSITION = 128 };

static bool is_blank(uint8_t byte)
{
    return byte == ' ' || byte == '\t' || byte == '\n' || byte == '\r';
}

static bool is_same(lugcurrant_span one, lugcurrant_span other)
{
    return one.length == other.length && memcmp(one.at, other.at, one.length) == 0;
}

static lugcurrant_span trimmed(const uint8_t *at, size_t length)
{
    while (length > 0 && is_blank(at[0])) {
        at++;
        length--;
    }
    while (length > 0 && is_blank(at[length - 1]))
        length--;
    lugcurrant_span span = {at, length};
    return span;
}

bool lugcurrant_json_next(lugcurrant_span list, size_t *mark, lugcurrant_span *found)
{
    size_t depth = 0, begin = *mark + 1;
    bool is_in_text = false;
    if (*mark >= list.length || list.at[*mark] != (*mark == 0 ? '[' : ','))
        return false;
    for (size_t at = begin; at < list.length; at++) {
        uint8_t byte = list.at[at];
        if (is_in_text) {
            at += byte == '\\';
            is_in_text = byte != '"';
            continue;
        }
        if (depth == 0 && (byte == ',' || byte == ']')) {
            *mark = at;
            *found = trimmed(list.at + begin, at - begin);
            return found->length > 0;
        }
        depth += byte == '[' || byte == '{';
        depth -= byte == ']' || byte == '}';
        is_in_text = byte == '"';
    }
    return false;
}

bool lugcurrant_json_member(lugcurrant_span list, size_t index, lugcurrant_span *found)
{
    size_t mark = 0;
    lugcurrant_span member;
    for (size_t k = 0; k <= index; k++)
        if (!lugcurrant_json_next(list, &mark, &member))
            return false;
    *found = member;
    return true;
}

bool lugcurrant_json_number(lugcurrant_span text, uint64_t *number)
{
    uint64_t read = 0;
    for (size_t at = 0; at < text.length; at++) {
        if (text.at[at] < '0' || text.at[at] > '9')
            return false;
        unsigned digit = text.at[at] - '0';
        if (read > (UINT64_MAX - digit) / 10)
            return false;
        read = 10 * read + digit;
    }
    *number = read;
    return text.length > 0;
}

bool lugcurrant_json_id(lugcurrant_span text, lugcurrant_object_id *id)
{
    lugcurrant_span client, counter;
    uint64_t first, second;
    if (!lugcurrant_json_member(text, 0, &client) || !lugcurrant_json_number(client, &first) || first > UINT32_MAX ||
        !lugcurrant_json_member(text, 1, &counter) || !lugcurrant_json_number(counter, &second) || second > UINT32_MAX)
        return false;
    id->client = (uint32_t)first;
    id->counter = (uint32_t)second;
    return true;
}

bool lugcurrant_json_is_word(lugcurrant_span text, const char *word)
{
    size_t length = strlen(word);
    return text.length == length + 2 && text.at[0] == '"' && memcmp(text.at + 1, word, length) == 0 && text.at[length + 1] == '"';
}

/* Reads the four digits of an escape \uXXXX. Returns false if they aren't digits or name no byte from space to ~. */
static bool read_escaped_byte(const uint8_t *digits, uint8_t *byte)
{
    unsigned number = 0;
    for (int k = 0; k < 4; k++) {
        uint8_t digit = digits[k];
        if (digit >= '0' && digit <= '9')
            number = 16 * number + (digit - '0');
        else if ((digit | 32) >= 'a' && (digit | 32) <= 'f')
            number = 16 * number + ((digit | 32) - 'a' + 10u);
        else
            return false;
    }
    *byte = (uint8_t)number;
    return number >= ' ' && number <= '~';
}

/* Reads the string of a name or a position, of bytes from space to ~. Returns false if the text is none or has more than `room` bytes. */
static bool read_string(lugcurrant_span text, uint8_t *into, size_t room, size_t *length)
{
    size_t count = 0;
    if (text.length < 2 || text.at[0] != '"' || text.at[text.length - 1] != '"')
        return false;
    for (size_t at = 1, end = text.length - 1; at < end; at++) {
        uint8_t byte = text.at[at];
        if (byte == '\\') {
            if (++at == end)
                return false;
            byte = text.at[at];
            if (byte == 'u') {
                if (end - at < 5 || !read_escaped_byte(text.at + at + 1, &byte))
                    return false;
                at += 4;
            } else if (byte != '"' && byte != '\\' && byte != '/') {
                return false;
            }
        }
        if (count == room)
            return false;
        into[count++] = byte;
    }
    *length = count;
    return true;
}

/* Finds the value of a property in the list [[NAME,VALUE],..]. Returns false if it has none of this name. */
static bool find_property(lugcurrant_span properties, lugcurrant_span name, lugcurrant_span *value)
{
    lugcurrant_span property, found;
    size_t mark = 0;
    while (lugcurrant_json_next(properties, &mark, &property))
        if (lugcurrant_json_member(property, 0, &found) && is_same(found, name))
            return lugcurrant_json_member(property, 1, value);
    return false;
}

/* The same as lugcurrant_is_shown for an object of the tree, of which `row` is the text: [ID,KIND,PLACE,PROPERTIES]. Both texts are written
 * by the library, so equal values have equal texts. */
static bool row_shows(lugcurrant_span row, lugcurrant_span change)
{
    lugcurrant_span word, wanted, found;
    if (!lugcurrant_json_member(change, 0, &word) || !lugcurrant_json_member(change, 2, &wanted))
        return false; /* a deletion */
    if (lugcurrant_json_is_word(word, "create"))
        return lugcurrant_json_member(row, 1, &found) && is_same(found, wanted);
    if (lugcurrant_json_is_word(word, "move"))
        return lugcurrant_json_member(row, 2, &found) && is_same(found, wanted);
    bool has_property = lugcurrant_json_member(row, 3, &found) && find_property(found, wanted, &found);
    if (lugcurrant_json_is_word(word, "clear"))
        return !has_property;
    return has_property && lugcurrant_json_member(change, 3, &wanted) && is_same(found, wanted);
}

uint32_t lugcurrant_is_shown(lugcurrant_client *client, lugcurrant_span change, bool *is_shown)
{
    lugcurrant_span word, text;
    lugcurrant_object_id id;
    *is_shown = false;
    if (!lugcurrant_json_member(change, 0, &word) || !lugcurrant_json_member(change, 1, &text) || !lugcurrant_json_id(text, &id))
        return LUGCURRANT_DONE;
    if (lugcurrant_in_tree(client, id.client, id.counter) != LUGCURRANT_DONE) {
        *is_shown = lugcurrant_json_is_word(word, "delete") || lugcurrant_json_is_word(word, "clear");
        return LUGCURRANT_DONE;
    }
    uint32_t result = lugcurrant_object(client, id.client, id.counter);
    if (result != LUGCURRANT_DONE)
        return result == LUGCURRANT_MEMORY ? result : LUGCURRANT_DONE;
    size_t length = lugcurrant_length(client);
    uint8_t *bytes = malloc(length > 0 ? length : 1);
    if (bytes == NULL)
        return LUGCURRANT_MEMORY;
    lugcurrant_read(client, bytes, length);
    lugcurrant_span row = {bytes, length};
    *is_shown = row_shows(row, change);
    free(bytes);
    return LUGCURRANT_DONE;
}

static uint64_t key_of(lugcurrant_object_id id)
{
    return (uint64_t)id.client << 32 | id.counter;
}

/* Returns the index of the first object whose former id isn't less. */
static size_t place_of(const lugcurrant_list *ids, lugcurrant_object_id was)
{
    size_t low = 0, high = ids->count;
    while (low < high) {
        size_t middle = low + (high - low) / 2;
        const lugcurrant_flow_new_id *it = lugcurrant_list_at(ids, middle);
        if (key_of(it->was) < key_of(was))
            low = middle + 1;
        else
            high = middle;
    }
    return low;
}

/* Returns the id that the object has now. */
static lugcurrant_object_id id_now(const lugcurrant_list *ids, lugcurrant_object_id was)
{
    size_t at = place_of(ids, was);
    if (at == ids->count)
        return was;
    const lugcurrant_flow_new_id *it = lugcurrant_list_at(ids, at);
    return key_of(it->was) == key_of(was) ? it->is : was;
}

/* Notes the id that the object has now. Room for one more is reserved already. */
static void note_id(lugcurrant_list *ids, lugcurrant_object_id was, lugcurrant_object_id is)
{
    lugcurrant_flow_new_id noted = {was, is};
    size_t at = place_of(ids, was);
    lugcurrant_flow_new_id *it = at < ids->count ? lugcurrant_list_at(ids, at) : NULL;
    if (it != NULL && key_of(it->was) == key_of(was))
        it->is = is;
    else
        lugcurrant_list_insert(ids, at, &noted);
}

/* A place that an edit names: the parent, by the id that it has now, and the position. */
struct place {
    lugcurrant_object_id parent;
    uint8_t position[LONGEST_POSITION];
    size_t length;
};

static bool read_place(lugcurrant_span text, const lugcurrant_list *ids, struct place *place)
{
    lugcurrant_span parent, position;
    if (!lugcurrant_json_member(text, 0, &parent) || !lugcurrant_json_id(parent, &place->parent) ||
        !lugcurrant_json_member(text, 1, &position) ||
        !read_string(position, place->position, sizeof place->position, &place->length))
        return false;
    place->parent = id_now(ids, place->parent);
    return true;
}

uint32_t lugcurrant_json_kind(lugcurrant_span text)
{
    static const char *const words[] = {"page", "frame", "shape", "text"};
    for (uint32_t k = 0; k < 4; k++)
        if (lugcurrant_json_is_word(text, words[k]))
            return LUGCURRANT_PAGE + k;
    return 0;
}

/* Creates the object at the position of the edit, or after all children if another one has it. */
static uint32_t create_again(lugcurrant_client *client, lugcurrant_span change, lugcurrant_object_id was, lugcurrant_list *ids)
{
    lugcurrant_span kind, text;
    lugcurrant_object_id made;
    struct place place;
    if (!lugcurrant_json_member(change, 2, &kind) || !lugcurrant_json_member(change, 3, &text) || !read_place(text, ids, &place))
        return LUGCURRANT_NOT_A_MESSAGE;
    if (!lugcurrant_list_reserve(ids, 1))
        return LUGCURRANT_MEMORY;
    uint32_t result = lugcurrant_create_at(client, lugcurrant_json_kind(kind), place.parent.client, place.parent.counter, place.position,
                                           place.length, &made);
    if (result == LUGCURRANT_TAKEN)
        result = lugcurrant_create_last(client, lugcurrant_json_kind(kind), place.parent.client, place.parent.counter, &made);
    if (result == LUGCURRANT_DONE)
        note_id(ids, was, made);
    return result;
}

static uint32_t move_again(lugcurrant_client *client, lugcurrant_span change, lugcurrant_object_id id, const lugcurrant_list *ids)
{
    lugcurrant_span text;
    struct place place;
    if (!lugcurrant_json_member(change, 2, &text) || !read_place(text, ids, &place))
        return LUGCURRANT_NOT_A_MESSAGE;
    uint32_t result = lugcurrant_move_at(client, id.client, id.counter, place.parent.client, place.parent.counter, place.position,
                                         place.length);
    if (result == LUGCURRANT_TAKEN)
        result = lugcurrant_move_last(client, id.client, id.counter, place.parent.client, place.parent.counter);
    return result;
}

/* Sets or clears the property again. */
static uint32_t write_again(lugcurrant_client *client, lugcurrant_span change, lugcurrant_object_id id, bool is_set)
{
    lugcurrant_span text, value;
    uint8_t name[LONGEST_NAME];
    size_t length;
    if (!lugcurrant_json_member(change, 2, &text) || !read_string(text, name, sizeof name, &length))
        return LUGCURRANT_NOT_A_MESSAGE;
    if (!is_set)
        return lugcurrant_clear(client, id.client, id.counter, name, length);
    if (!lugcurrant_json_member(change, 3, &value))
        return LUGCURRANT_NOT_A_MESSAGE;
    return lugcurrant_set(client, id.client, id.counter, name, length, value.at, value.length);
}

uint32_t lugcurrant_remake(lugcurrant_client *client, lugcurrant_span change, lugcurrant_list *ids)
{
    lugcurrant_span word, text;
    lugcurrant_object_id was;
    if (!lugcurrant_json_member(change, 0, &word) || !lugcurrant_json_member(change, 1, &text) || !lugcurrant_json_id(text, &was))
        return LUGCURRANT_NOT_A_MESSAGE;
    lugcurrant_object_id id = id_now(ids, was);
    if (lugcurrant_json_is_word(word, "create"))
        return create_again(client, change, was, ids);
    if (lugcurrant_json_is_word(word, "move"))
        return move_again(client, change, id, ids);
    if (lugcurrant_json_is_word(word, "delete"))
        return lugcurrant_delete(client, id.client, id.counter);
    bool is_set = lugcurrant_json_is_word(word, "set");
    if (!is_set && !lugcurrant_json_is_word(word, "clear"))
        return LUGCURRANT_NOT_A_MESSAGE;
    return write_again(client, change, id, is_set);
}
