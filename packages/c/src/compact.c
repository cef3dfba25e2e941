/* A JSON text that is checked, and copied without the blanks between its parts. */
#include "internal.h"

enum { DEEPEST = 100 };

/* How far a text is read, and what was copied of it. */
struct reader {
    lugcurrant_span text;
    size_t at;
    uint8_t *into;
    size_t length;
    char ends[DEEPEST]; /* what ends each list and object that is open */
    size_t depth;
};

static void pass_blanks(struct reader *reader)
{
    const lugcurrant_span *text = &reader->text;
    while (reader->at < text->length && memchr(" \t\n\r", text->at[reader->at], 4) != NULL)
        reader->at++;
}

/* Returns the byte at this distance, or 0 after the text: no byte of JSON is that. */
static uint8_t peek(const struct reader *reader, size_t distance)
{
    return distance < reader->text.length - reader->at ? reader->text.at[reader->at + distance] : 0;
}

static void copy(struct reader *reader, size_t count)
{
    memcpy(reader->into + reader->length, reader->text.at + reader->at, count);
    reader->length += count;
    reader->at += count;
}

/* Copies the mark if it comes next, maybe after blanks. Returns whether it does. */
static bool take(struct reader *reader, char mark)
{
    pass_blanks(reader);
    if (peek(reader, 0) != (uint8_t)mark)
        return false;
    copy(reader, 1);
    return true;
}

static bool is_digit(uint8_t byte)
{
    return byte >= '0' && byte <= '9';
}

/* Copies the digits that come next. Returns false if there are none. */
static bool take_digits(struct reader *reader)
{
    size_t count = 0;
    while (is_digit(peek(reader, count)))
        count++;
    copy(reader, count);
    return count > 0;
}

static bool take_number(struct reader *reader)
{
    if (peek(reader, 0) == '-')
        copy(reader, 1);
    if (peek(reader, 0) == '0' && is_digit(peek(reader, 1)))
        return false;
    if (!take_digits(reader))
        return false;
    if (peek(reader, 0) == '.') {
        copy(reader, 1);
        if (!take_digits(reader))
            return false;
    }
    if ((peek(reader, 0) | 32) != 'e')
        return true;
    copy(reader, peek(reader, 1) == '+' || peek(reader, 1) == '-' ? 2 : 1);
    return take_digits(reader);
}

static bool take_word(struct reader *reader, const char *word)
{
    size_t length = strlen(word);
    if (reader->text.length - reader->at < length || memcmp(reader->text.at + reader->at, word, length) != 0)
        return false;
    copy(reader, length);
    return true;
}

/* Returns the number of bytes of the character of UTF-8 that comes next, or 0 if none does. */
static size_t next_character(const struct reader *reader)
{
    uint8_t first = peek(reader, 0), second = peek(reader, 1);
    if (first < 0x80)
        return 1;
    size_t count = first >= 0xf0 ? 4 : first >= 0xe0 ? 3 : 2;
    if (first < 0xc2 || first > 0xf4)
        return 0;
    for (size_t k = 1; k < count; k++)
        if ((peek(reader, k) & 0xc0) != 0x80)
            return 0;
    /* One that could be shorter, half of a surrogate pair, or one above U+10FFFF is none. */
    bool is_wrong = (first == 0xe0 && second < 0xa0) || (first == 0xed && second > 0x9f) || (first == 0xf0 && second < 0x90) ||
                    (first == 0xf4 && second > 0x8f);
    return is_wrong ? 0 : count;
}

/* Reads the number of the escape \uXXXX at this distance. Returns false if there is none. */
static bool read_unit(const struct reader *reader, size_t distance, unsigned *unit)
{
    if (peek(reader, distance) != '\\' || peek(reader, distance + 1) != 'u')
        return false;
    *unit = 0;
    for (size_t k = 2; k < 6; k++) {
        uint8_t byte = peek(reader, distance + k), lower = byte | 32;
        if (!is_digit(byte) && (lower < 'a' || lower > 'f'))
            return false;
        *unit = 16 * *unit + (is_digit(byte) ? byte - 48u : lower - 87u);
    }
    return true;
}

/* Returns the number of bytes of the escape that comes next, of both if it is one of a surrogate pair; 0 if none does. */
static size_t next_escape(const struct reader *reader)
{
    unsigned unit, other;
    uint8_t letter = peek(reader, 1);
    if (letter != 'u')
        return letter != 0 && strchr("\"\\/bfnrt", letter) != NULL ? 2 : 0;
    if (!read_unit(reader, 0, &unit))
        return 0;
    if (unit < 0xd800 || unit > 0xdfff)
        return 6;
    bool is_pair = unit < 0xdc00 && read_unit(reader, 6, &other) && other >= 0xdc00 && other <= 0xdfff;
    return is_pair ? 12 : 0;
}

static bool take_string(struct reader *reader)
{
    if (!take(reader, '"'))
        return false;
    while (peek(reader, 0) != '"') {
        if (peek(reader, 0) < ' ')
            return false;
        size_t count = peek(reader, 0) == '\\' ? next_escape(reader) : next_character(reader);
        if (count == 0)
            return false;
        copy(reader, count);
    }
    copy(reader, 1);
    return true;
}

static bool take_key(struct reader *reader)
{
    return take_string(reader) && take(reader, ':');
}

/* Takes a value that is no list and no object. */
static bool take_scalar(struct reader *reader)
{
    switch (peek(reader, 0)) {
    case '"': return take_string(reader);
    case 't': return take_word(reader, "true");
    case 'f': return take_word(reader, "false");
    case 'n': return take_word(reader, "null");
    default: return take_number(reader);
    }
}

/* Takes a value up to where it ends or its first member begins, which `*is_open` says. DONE, NOT_JSON, TOO_DEEP. */
static uint32_t begin_value(struct reader *reader, bool *is_open)
{
    *is_open = false;
    bool is_object = take(reader, '{');
    if (!is_object && !take(reader, '['))
        return take_scalar(reader) ? LUGCURRANT_DONE : LUGCURRANT_NOT_JSON;
    if (reader->depth == DEEPEST)
        return LUGCURRANT_TOO_DEEP;
    char end = is_object ? '}' : ']';
    if (take(reader, end))
        return LUGCURRANT_DONE;
    reader->ends[reader->depth++] = end;
    *is_open = true;
    return is_object && !take_key(reader) ? LUGCURRANT_NOT_JSON : LUGCURRANT_DONE;
}

/* After a value: takes what ends with it, and the comma before the next one. DONE, NOT_JSON. */
static uint32_t end_value(struct reader *reader)
{
    while (reader->depth > 0 && take(reader, reader->ends[reader->depth - 1]))
        reader->depth--;
    if (reader->depth == 0)
        return LUGCURRANT_DONE;
    bool is_more = take(reader, ',') && (reader->ends[reader->depth - 1] == ']' || take_key(reader));
    return is_more ? LUGCURRANT_DONE : LUGCURRANT_NOT_JSON;
}

uint32_t lugcurrant_json_compact(lugcurrant_span text, uint8_t *into, size_t *length)
{
    struct reader reader = {.text = text, .into = into};
    bool is_open = true;
    while (is_open) {
        uint32_t result = begin_value(&reader, &is_open);
        if (result == LUGCURRANT_DONE && !is_open)
            result = end_value(&reader);
        if (result != LUGCURRANT_DONE)
            return result;
        is_open = reader.depth > 0;
    }
    pass_blanks(&reader);
    *length = reader.length;
    return reader.at == text.length ? LUGCURRANT_DONE : LUGCURRANT_NOT_JSON;
}
