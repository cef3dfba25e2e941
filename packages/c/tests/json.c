/* The scanner of JSON: members of lists, numbers, ids and words of texts, whole texts without blanks, and the same of every prefix of them, in
 * blocks of memory that are no longer than the text. packages/c/test compiles it with the address sanitizer, which finds a read after the end. */
#include "../src/internal.h"

#include <stdio.h>

static int wrong;

static void expect(bool holds, const char *what, const char *text)
{
    if (!holds) {
        printf("%s: %s\n", what, text);
        wrong++;
    }
}

/* A copy in a block of its own. */
static lugcurrant_span copy_of(const char *text, size_t length)
{
    uint8_t *bytes = malloc(length > 0 ? length : 1);
    if (bytes == NULL)
        exit(2);
    memcpy(bytes, text, length);
    lugcurrant_span span = {bytes, length};
    return span;
}

/* Expects the member to be this text, or none if it is null. */
static void expect_member(const char *list, size_t index, const char *wanted)
{
    lugcurrant_span span = copy_of(list, strlen(list)), found;
    bool has = lugcurrant_json_member(span, index, &found);
    bool is_right = wanted == NULL ? !has : has && found.length == strlen(wanted) && memcmp(found.at, wanted, found.length) == 0;
    expect(is_right, "another member", list);
    free((void *)span.at);
}

static void expect_number(const char *text, bool holds, uint64_t wanted)
{
    lugcurrant_span span = copy_of(text, strlen(text));
    uint64_t number = 0;
    expect(lugcurrant_json_number(span, &number) == holds && number == wanted, "another number", text);
    free((void *)span.at);
}

static void expect_id(const char *text, bool holds)
{
    lugcurrant_span span = copy_of(text, strlen(text));
    lugcurrant_object_id id;
    expect(lugcurrant_json_id(span, &id) == holds, "another id", text);
    free((void *)span.at);
}

/* Expects the text without blanks to be this one, or this number. */
static void expect_compact(const char *text, const char *wanted, uint32_t number)
{
    lugcurrant_span span = copy_of(text, strlen(text)), into = copy_of(text, strlen(text));
    size_t length = 0;
    uint32_t result = lugcurrant_json_compact(span, (uint8_t *)into.at, &length);
    bool is_right = result == number;
    if (result == LUGCURRANT_DONE && wanted != NULL)
        is_right = is_right && length == strlen(wanted) && memcmp(into.at, wanted, length) == 0;
    expect(is_right, "another text without blanks", text);
    free((void *)span.at);
    free((void *)into.at);
}

/* Expects lists and objects, so many in one another, to be taken or not. */
static void expect_depth(size_t depth, uint32_t number)
{
    char text[2048];
    size_t length = 0;
    for (size_t k = 0; k < depth; k++)
        length += (size_t)sprintf(text + length, k % 2 ? "[" : "{\"a\":");
    length += (size_t)sprintf(text + length, "1");
    for (size_t k = depth; k-- > 0;)
        length += (size_t)sprintf(text + length, k % 2 ? "]" : "}");
    expect_compact(text, number == LUGCURRANT_DONE ? text : NULL, number);
}

static void expect_values(void)
{
    static const char *const right[] = {"0", "-0", "-1.5e+10", "0.1E-2", "1e400", "null", "true", "false", "\"\"", "[]", "{}", "[[],{}]", "{\"\":{}}",
                                        "\"\\ud83d\\ude00\\n\\/\"", "\"\xc3\xa9\xe2\x82\xac\xf0\x9f\x98\x80\x7f\""};
    static const char *const none[] = {"", " ", "01", "-", "+1", ".5", "1.", "1e", "1e+", "nul", "nulll", "True", "NaN", "[", "]", "[1,]", "[,1]", "[1 2]", "[1]]",
                                       "{", "{}}", "{1:2}", "{\"a\"}", "{\"a\":}", "{\"a\":1,}", "{\"a\" 1}", "[}", "{]", "[\"a\":1]", "\"", "\"a", "\"\\\"", "\"\\x\"",
                                       "\"\\u12g4\"", "\"\\ud800\"", "\"\\udc00\"", "\"\\ud800\\ud800\"", "\"\\ud800x\"", "\"\n\"", "\"\x80\"", "\"\xc0\x80\"",
                                       "\"\xc3\"", "\"\xe0\x80\x80\"", "\"\xed\xa0\x80\"", "\"\xf0\x80\x80\x80\"", "\"\xf4\x90\x80\x80\"", "\"\xf5\x80\x80\x80\"",
                                       "1 1", "\xef\xbb\xbf" "1", "'a'", "1//"};
    for (size_t k = 0; k < sizeof right / sizeof *right; k++)
        expect_compact(right[k], right[k], LUGCURRANT_DONE);
    for (size_t k = 0; k < sizeof none / sizeof *none; k++)
        expect_compact(none[k], NULL, LUGCURRANT_NOT_JSON);
    expect_compact(" { \"a b\" :\t[ 1 ,\n\"c , d\" ] , \"e\":{ } }\r\n", "{\"a b\":[1,\"c , d\"],\"e\":{}}", LUGCURRANT_DONE);
    expect_depth(100, LUGCURRANT_DONE);
    expect_depth(101, LUGCURRANT_TOO_DEEP);
}

/* Reads every prefix of the text in every way: no member of a prefix is longer than it. */
static void read_prefixes(const char *text)
{
    for (size_t length = 0; length <= strlen(text); length++) {
        lugcurrant_span span = copy_of(text, length), found;
        lugcurrant_object_id id;
        uint64_t number;
        for (size_t index = 0; index < 6; index++)
            if (lugcurrant_json_member(span, index, &found))
                expect(found.at > span.at && found.at + found.length < span.at + length, "a member outside of", text);
        lugcurrant_json_number(span, &number);
        lugcurrant_json_id(span, &id);
        lugcurrant_json_is_word(span, "create");
        lugcurrant_span into = copy_of(text, length);
        size_t count = 0;
        uint32_t result = lugcurrant_json_compact(span, (uint8_t *)into.at, &count);
        expect(result == (length < strlen(text) ? LUGCURRANT_NOT_JSON : LUGCURRANT_DONE) && count <= length, "a prefix is JSON", text);
        free((void *)into.at);
        free((void *)span.at);
    }
}

int main(void)
{
    static const char entry[] = "[\"entry\", 12,[1,2,[\"set\",[1,7],\"a\",\"]\\\"[,\\\\\"],[\"wasset\"]]]";
    expect_member(entry, 0, "\"entry\"");
    expect_member(entry, 1, "12");
    expect_member(entry, 2, "[1,2,[\"set\",[1,7],\"a\",\"]\\\"[,\\\\\"],[\"wasset\"]]");
    expect_member(entry, 3, NULL);
    expect_member("[1,2,[\"set\",[1,7],\"a\",\"]\\\"[,\\\\\"],[\"wasset\"]]", 2, "[\"set\",[1,7],\"a\",\"]\\\"[,\\\\\"]");
    expect_member("[\"]\\\"[,\\\\\",5]", 1, "5");
    expect_member("[]", 0, NULL);
    expect_member("[ ]", 0, NULL);
    expect_member("[1,]", 1, NULL);
    expect_member("[1", 0, NULL);
    expect_member("[1,2", 0, "1");
    expect_member("[1,2", 1, NULL);
    expect_member("12,3]", 0, NULL);
    expect_member("{1,3]", 0, NULL);
    expect_member("", 0, NULL);
    expect_member("\"[1]\"", 0, NULL);
    expect_member("[1]]", 1, NULL);
    expect_member("[\"\\", 0, NULL);
    expect_number("0", true, 0);
    expect_number("18446744073709551615", true, UINT64_MAX);
    expect_number("18446744073709551616", false, 0);
    expect_number("99999999999999999999999", false, 0);
    expect_number("-1", false, 0);
    expect_number("1.0", false, 0);
    expect_number("", false, 0);
    expect_id("[1,4294967295]", true);
    expect_id("[1,4294967296]", false);
    expect_id("[1]", false);
    expect_id("null", false);
    expect_member("[\"here\",2,{\"a\":1,\"b\":[{},\"}\"]}]", 2, "{\"a\":1,\"b\":[{},\"}\"]}");
    expect_values();
    read_prefixes(entry);
    read_prefixes("[\"create\",[1,2],\"shape\",[[1,1],\"\\u0041\\\"\"]]");
    read_prefixes("[4294967295,4294967295]");
    read_prefixes("{\"a\": [-1.5e3, \"\\ud83d\\ude00\xf0\x9f\x98\x80\"], \"b\": {\"c\": true}}");
    puts(wrong ? "the scanner is wrong" : "the scanner is right");
    return wrong ? 1 : 0;
}
