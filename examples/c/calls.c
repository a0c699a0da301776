/* Calls each function of the library, and prints the line of a refusal. Exits with 0 if all answer as they must, with 5
 * if one answers 60 and leaves all as it was, and else with 1. It takes no memory but for the buffers that calls make,
 * so `make growths` can refuse each allocation in turn. */
#include <plistconv.h>
#include <string.h>
#include <unistd.h>

#define ROOM 4096
static uint8_t file[ROOM], again[ROOM], text[ROOM], line[ROOM];
static plistconv_refusal refusal;

static const uint8_t key[PLISTCONV_HASH_KEY_OCTETS] = "sixteen octets!";
static const uint8_t value[] = "{ b = (x, \"y z\", (deep, (er, { k = <00ff>; }))); c = \"h\\U00e9\"; }";
static const uint8_t printed[] = "{\n  \"b\" => [\n    \"x\"\n    \"y z\"\n    [\n      \"deep\"\n      [\n"
                                 "        \"er\"\n        {\n          \"k\" => <00ff>\n        }\n"
                                 "      ]\n    ]\n  ]\n  \"c\" => \"h\303\251\"\n}\n";
static const uint8_t twice[] = "{ a = b; c = (d); a = c; }";

static void must(int holds) {
    if (!holds) _exit(1);
}

/* The canonical file of the octets, in a buffer that must stay as it was where there is none. */
static size_t canonical(const uint8_t *octets, size_t count, uint8_t *into, uint8_t wanted) {
    size_t length = 7;
    memset(into, 0xee, ROOM);
    uint8_t number = plistconv_canonical(octets, count, NULL, into, ROOM, &length, &refusal);
    must(refusal.number == number && refusal.input == (number != 0));
    if (number != 0) {
        must(length == 0);
        for (size_t i = 0; i < ROOM; i++) must(into[i] == 0xee);
    }
    if (number == 60) _exit(5);
    must(number == wanted);
    return length;
}

static void same(const uint8_t *first, size_t count, const uint8_t *second, size_t second_count) {
    uint8_t equal = 7;
    uint8_t number = plistconv_same(first, count, second, second_count, key, &equal, &refusal);
    if (number == 60) _exit(equal == 0 ? 5 : 1);
    must(number == 0 && equal == 1);
}

/* The answer of plistconv_line in so much room. */
static uint8_t line_of(size_t room, size_t *length) {
    uint8_t number = plistconv_line((const uint8_t *)"a path", 6, &refusal, line, room, length);
    if (number == 60) _exit(*length == 0 ? 5 : 1);
    return number;
}

/* The calls that make their buffer, the last one with a second, larger one: if they are refused there is none. */
static void allocated(void) {
    static const uint8_t nested[] = "((((((((((((((((((((((((((((((a))))))))))))))))))))))))))))))";
    for (int call = 0; call < 3; call++) {
        uint8_t *out = line, number;
        size_t length = 7, count = sizeof nested - 1;
        if (call == 0) number = plistconv_canonical_alloc(nested, count, key, &out, &length, &refusal);
        else if (call == 1) number = plistconv_text_alloc(nested, count, &out, &length, &refusal);
        else number = plistconv_print_alloc(nested, count, &out, &length, &refusal);
        must(refusal.number == number && (number != 0 ? !out && length == 0 : out != line));
        if (number == 60) _exit(5);
        must(number == 0 && length == (const size_t[]){133, 152, 1924}[call]);
        plistconv_free(out);
    }
}

int main(void) {
    size_t length = canonical(value, sizeof value - 1, file, 0);
    plistconv_finding finding = {0};
    uint8_t number = plistconv_check(file, length, key, &finding, &refusal);
    if (number == 60) _exit(5);
    must(number == 0 && finding.canonical == 1);
    must(canonical(file, length, again, 0) == length && memcmp(file, again, length) == 0);
    same(value, sizeof value - 1, file, length);

    size_t text_length = 0;
    number = plistconv_text(file, length, text, ROOM, &text_length, &refusal);
    if (number == 60) _exit(text_length == 0 ? 5 : 1);
    must(number == 0);
    same(text, text_length, file, length);

    size_t print_length = 0, printed_length = 0;
    number = plistconv_print(file, length, text, ROOM, &print_length, &refusal);
    if (number == 60) _exit(print_length == 0 ? 5 : 1);
    must(number == 0 && print_length == sizeof printed - 1 && memcmp(text, printed, print_length) == 0);
    number = plistconv_print(value, sizeof value - 1, again, 3, &printed_length, &refusal);
    if (number == 60) _exit(printed_length == 0 ? 5 : 1);
    must(number == 0 && printed_length == print_length);

    number = plistconv_lint(value, sizeof value - 1, &refusal);
    if (number == 60) _exit(refusal.number == 60 ? 5 : 1);
    must(number == 0 && refusal.number == 0);

    allocated();
    canonical(twice, sizeof twice - 1, again, 14);
    size_t line_length = 0;
    must(line_of(3, &line_length) == 0 && line_length == 43 && line[0] == 0);
    must(line_of(ROOM, &line_length) == 0 && line_length == 43);
    plistconv_refusal none = {0};
    refusal.unit = PLISTCONV_NO_PLACE;
    must(line_of(ROOM, &length) == PLISTCONV_UNTOLD && length == 0);
    refusal = none;
    must(line_of(ROOM, &length) == PLISTCONV_UNTOLD && length == 0);
    line[line_length] = '\n';
    return write(1, line, line_length + 1) != (ssize_t)line_length + 1;
}
