/* Tests what the header adds to the exported functions: names of refusals, versions, room that suffices, null pointers
 * beside a count of 0, structures and numbers that are not initialised, buffers that a call makes. Exits with 1 and the
 * line of what does not hold. */
#include <plistconv.h>
#include <stdio.h>
#include <string.h>

#define MUST(holds) do { if (!(holds)) { fprintf(stderr, "header.c:%d: %s\n", __LINE__, #holds); return 1; } } while (0)

static const struct { uint8_t number; const char *name; } names[] = {
#include "names.h"
};

/* The numbers of the refusals that have each unit, and how a place in it is printed. */
static const struct { uint8_t numbers[17]; const char *place; } units[] = {
    {{1, 2, 3, 40, 50, 52, 60}, ""},
    {{4, 5, 6, 7, 8, 9, 10, 11, 12, 13, 14, 15, 16, 17, 18}, " at object 7"},
    {{14, 16, 17, 18, 20, 21, 23, 24, 25, 26, 27, 28, 29, 30, 31, 32}, " at octet 7"},
    {{51, 60}, " after 7 octets"},
};

/* Whether the library prints this line, or none if the refusal has no such unit. */
static int line_holds(uint8_t number, uint8_t unit) {
    plistconv_refusal refusal = {unit == PLISTCONV_NO_PLACE ? 0 : 7, number, unit, 1};
    char wanted[80], line[80];
    size_t length = 7;
    uint8_t answer = plistconv_line((const uint8_t *)"x", 1, &refusal, (uint8_t *)line, sizeof line, &length);
    if (number == 0 || unit > PLISTCONV_SENT || !memchr(units[unit].numbers, number, sizeof units->numbers))
        return answer == PLISTCONV_UNTOLD && length == 0;
    size_t count = snprintf(wanted, sizeof wanted, "x: refused %d %s%s", number, plistconv_refusal_name(number),
                            units[unit].place);
    return answer == 0 && length == count && memcmp(line, wanted, count) == 0;
}

/* The lines of all numbers with all units. */
static int lines_hold(void) {
    for (unsigned pair = 0; pair < 256 * 256; pair++) {
        if (line_holds(pair % 256, pair / 256)) continue;
        fprintf(stderr, "header.c: the line of %u with the unit %u\n", pair % 256, pair / 256);
        return 1;
    }
    return 0;
}

/* The names of names.h, one for each number, and no others. */
static int names_hold(void) {
    uint8_t many = 0;
    for (unsigned number = 0; number < 300; number++) many += plistconv_refusal_name(number) != NULL;
    MUST(many == sizeof names / sizeof *names);
    for (size_t at = 0; at < sizeof names / sizeof *names; at++) {
        const char *name = plistconv_refusal_name(names[at].number);
        MUST(name && strcmp(name, names[at].name) == 0);
    }
    return 0;
}

/* The calls that make their buffer, with a first guess that is enough and one that is not, and of a refusal. */
static int buffers_hold(void) {
    static uint8_t deep[2 * 200 + 1], into[256 * 1024];
    const uint8_t flag[] = "(a, b)", broken[] = "(\"a";
    size_t length, wanted;
    uint8_t *out;
    plistconv_refusal refusal;
    for (size_t at = 0; at < sizeof deep; at++) deep[at] = at < 200 ? '(' : at == 200 ? 'a' : ')';
    MUST(plistconv_canonical(deep, sizeof deep, NULL, into, sizeof into, &wanted, &refusal) == 0);
    MUST(plistconv_canonical_alloc(deep, sizeof deep, NULL, &out, &length, &refusal) == 0 && length == wanted);
    MUST(memcmp(out, into, length) == 0);
    plistconv_free(out);
    MUST(plistconv_text_alloc(flag, sizeof flag - 1, &out, &length, &refusal) == 0 && length == 10);
    MUST(memcmp(out, "(\na,\nb,\n)\n", length) == 0);
    plistconv_free(out);
    /* (200 levels of indentation are more than four bytes for each one of the input) */
    MUST(plistconv_print(deep, sizeof deep, into, sizeof into, &wanted, &refusal) == 0 && wanted > 8 * sizeof deep);
    MUST(plistconv_print_alloc(deep, sizeof deep, &out, &length, &refusal) == 0 && length == wanted);
    MUST(memcmp(out, into, length) == 0);
    plistconv_free(out);
    MUST(plistconv_canonical_alloc(NULL, 0, NULL, &out, &length, &refusal) == 0 && length == 42);
    plistconv_free(out);
    MUST(plistconv_print_alloc(broken, sizeof broken - 1, &out, &length, &refusal) == PLISTCONV_UNCLOSED_STRING);
    MUST(!out && length == 0 && refusal.number == 24 && refusal.unit == PLISTCONV_OCTET && refusal.place == 1);
    plistconv_free(out);
    return 0;
}

/* Whether the buffer is a text with `count` times a part between its first and its last line. */
static int repeats(const uint8_t *into, size_t length, const char *first, const char *part, size_t count, const char *last) {
    size_t step = strlen(part);
    if (length != strlen(first) + count * step + strlen(last) || memcmp(into, first, strlen(first)) != 0) return 0;
    into += strlen(first);
    for (; count > 0; count--, into += step)
        if (memcmp(into, part, step) != 0) return 0;
    return memcmp(into, last, strlen(last)) == 0;
}

/* Texts and prints of more than 8 KiB, of one string and of many. */
static int long_holds(void) {
    static uint8_t letters[20000], items[2 * 20000 + 2], into[8 * 20000];
    size_t length;
    plistconv_refusal refusal;
    memset(letters, 'a', sizeof letters);
    MUST(plistconv_text(letters, sizeof letters, into, sizeof into, &length, &refusal) == 0);
    MUST(repeats(into, length, "", "a", sizeof letters, "\n"));
    MUST(plistconv_print(letters, sizeof letters, into, sizeof into, &length, &refusal) == 0);
    MUST(repeats(into, length, "\"", "a", sizeof letters, "\"\n"));
    for (size_t at = 0; at < sizeof items; at++) items[at] = at % 2 ? 'a' : ',';
    items[0] = '(';
    items[sizeof items - 1] = ')';
    MUST(plistconv_text(items, sizeof items, into, sizeof into, &length, &refusal) == 0);
    MUST(repeats(into, length, "(\n", "a,\n", 20000, ")\n"));
    MUST(plistconv_print(items, sizeof items, into, sizeof into, &length, &refusal) == 0);
    MUST(repeats(into, length, "[\n", "  \"a\"\n", 20000, "]\n"));
    return 0;
}

/* A key of zeros is none, and no key changes what is answered. */
static int keys_hold(const uint8_t *text, size_t count) {
    const uint8_t keys[2][PLISTCONV_HASH_KEY_OCTETS] = {{0}, {1, 2, 3}};
    static uint8_t into[4096], keyed[sizeof into];
    size_t length, needed;
    uint8_t equal;
    plistconv_refusal refusal;
    plistconv_finding finding;
    MUST(plistconv_canonical(text, count, NULL, into, sizeof into, &needed, &refusal) == 0);
    for (int at = 0; at < 2; at++) {
        MUST(plistconv_canonical(text, count, keys[at], keyed, sizeof keyed, &length, &refusal) == 0);
        MUST(length == needed && memcmp(keyed, into, length) == 0);
        MUST(plistconv_same(text, count, into, length, keys[at], &equal, &refusal) == 0 && equal == 1);
        MUST(plistconv_check(into, length, keys[at], &finding, &refusal) == 0 && finding.canonical == 1);
        MUST(plistconv_check(NULL, 0, keys[at], &finding, &refusal) == PLISTCONV_TOO_SHORT);
    }
    return 0;
}

/* No octets are the empty dictionary, also behind a null pointer. */
static int empty_holds(void) {
    static uint8_t into[4096];
    size_t length, needed;
    uint8_t equal;
    plistconv_refusal refusal;
    plistconv_finding finding;
    MUST(plistconv_canonical(NULL, 0, NULL, NULL, 0, &needed, &refusal) == 0 && needed > 0);
    MUST(plistconv_canonical(NULL, 0, NULL, into, sizeof into, &length, &refusal) == 0 && length == needed);
    MUST(length <= PLISTCONV_FILE_ROOM(0, 1));
    MUST(plistconv_same(NULL, 0, into, length, NULL, &equal, &refusal) == 0 && equal == 1);
    MUST(plistconv_same(into, length, NULL, 0, NULL, &equal, &refusal) == 0 && equal == 1);
    MUST(plistconv_check(into, length, NULL, &finding, &refusal) == 0 && finding.canonical == 1);
    MUST(plistconv_check(NULL, 0, NULL, &finding, &refusal) == PLISTCONV_TOO_SHORT && finding.canonical == 0);
    MUST(refusal.number == PLISTCONV_TOO_SHORT && refusal.unit == PLISTCONV_NO_PLACE && refusal.input == 1);
    MUST(plistconv_line(NULL, 0, &refusal, NULL, 0, &length) == 0 && length == strlen(": refused 1 TooShort"));
    MUST(plistconv_text(NULL, 0, NULL, 0, &length, &refusal) == 0 && length <= PLISTCONV_TEXT_ROOM(0, 1));
    MUST(plistconv_print(NULL, 0, NULL, 0, &length, &refusal) == 0 && length == 3);
    MUST(plistconv_lint(NULL, 0, &refusal) == 0 && refusal.number == 0);
    return 0;
}

int main(void) {
    static uint8_t into[4096];
    size_t length, needed;
    plistconv_refusal refusal;
    MUST(plistconv_version() == PLISTCONV_VERSION_NUMBER);

    /* The greatest room for its nodes and payload: a list of three strings that are not ASCII. */
    const uint8_t text[] = "(\"\\U00e9\", \"\\U00ea\", \"\\U00eb\")";
    const size_t count = sizeof text - 1;
    MUST(plistconv_canonical(text, count, NULL, into, PLISTCONV_FILE_ROOM(6, 4), &needed, &refusal) == 0);
    MUST(needed <= PLISTCONV_FILE_ROOM(6, 4));
    MUST(plistconv_text(text, count, NULL, 0, &length, &refusal) == 0 && length <= PLISTCONV_TEXT_ROOM(6, 4));

    const uint8_t xml[] = "<?xml version='1.0'?>";
    MUST(plistconv_canonical(xml, sizeof xml - 1, NULL, into, sizeof into, &length, &refusal) == PLISTCONV_XML_FORM);
    MUST(length == 0 && refusal.unit == PLISTCONV_OCTET && refusal.place == 0);

    /* The functions have addresses. */
    uint8_t (*call)(const uint8_t *, size_t, const uint8_t *, uint8_t *, size_t, size_t *, plistconv_refusal *) =
        plistconv_canonical;
    MUST(call(text, count, NULL, NULL, 0, &length, &refusal) == 0 && length == needed);
    if (names_hold() || lines_hold() || buffers_hold() || long_holds() || keys_hold(text, count)) return 1;
    if (empty_holds()) return 1;
    puts("header: " PLISTCONV_VERSION);
    return 0;
}
