/* Compares the library with bindings/rows.txt: rows ROWS. It is C99 and C++98, so it tests the header in both. */
#include <plistconv.h>
#include <stdio.h>
#include <stdlib.h>
#include <string.h>

#define LONGEST 65536
#define CELLS 6

/* Decodes hexadecimal in place, and returns how many bytes it is. */
static size_t decode(char *cell) {
    size_t count = 0;
    if (strcmp(cell, "-") == 0) return 0;
    for (; cell[2 * count] != 0; count++) {
        char digits[3] = {0, 0, 0};
        memcpy(digits, cell + 2 * count, 2);
        cell[count] = (char)strtoul(digits, NULL, 16);
    }
    return count;
}

/* Whether a refusal is that of the cell: NUMBER/UNIT/PLACE. */
static int is_refusal(const char *cell, uint8_t number, const plistconv_refusal *refusal) {
    static const char *const units[] = {"none", "object", "octet", "sent"};
    char told[64];
    sprintf(told, "%u/%s/%lu", (unsigned)number, units[refusal->unit & 3], (unsigned long)refusal->place);
    return refusal->number == number && refusal->input == 1 && strcmp(told, cell) == 0;
}

/* Whether the output of a call, or its refusal, is that of the cell. Frees the output. */
static int is_answer(char *cell, uint8_t number, uint8_t *out, size_t length, const plistconv_refusal *refusal) {
    int is_equal;
    if (number != 0) return !out && length == 0 && is_refusal(cell, number, refusal);
    is_equal = !strchr(cell, '/') && decode(cell) == length && memcmp(cell, out, length) == 0;
    plistconv_free(out);
    return is_equal;
}

static int is_checked(const char *cell, const uint8_t *octets, size_t count) {
    char told[64] = "canonical";
    plistconv_refusal refusal;
    plistconv_finding finding;
    uint8_t number = plistconv_check(octets, count, NULL, &finding, &refusal);
    if (number != 0) return is_refusal(cell, number, &refusal);
    if (!finding.canonical) sprintf(told, "C%u/%lu", (unsigned)finding.rule, (unsigned long)finding.object);
    return strcmp(told, cell) == 0;
}

/* Whether the library answers as the row says, under no key and under one. */
static int is_row(char **cells) {
    const uint8_t key[PLISTCONV_HASH_KEY_OCTETS] = {1, 2, 3};
    size_t count = decode(cells[1]), length;
    const uint8_t *octets = (const uint8_t *)cells[1];
    uint8_t *out, equal, number;
    plistconv_refusal refusal;
    number = plistconv_same(octets, count, octets, count, key, &equal, &refusal);
    if (number != 0 ? !is_refusal(cells[2], number, &refusal) : equal != 1) return 0;
    if (plistconv_lint(octets, count, &refusal) != number || refusal.number != number) return 0;
    number = plistconv_canonical_alloc(octets, count, key, &out, &length, &refusal);
    if (!is_answer(cells[2], number, out, length, &refusal)) return 0;
    number = plistconv_text_alloc(octets, count, &out, &length, &refusal);
    if (!is_answer(cells[3], number, out, length, &refusal)) return 0;
    number = plistconv_print_alloc(octets, count, &out, &length, &refusal);
    return is_answer(cells[4], number, out, length, &refusal) && is_checked(cells[5], octets, count);
}

int main(int argc, char **argv) {
    static char line[LONGEST];
    int rows = 0;
    FILE *file = argc == 2 ? fopen(argv[1], "r") : NULL;
    if (!file) { fprintf(stderr, "usage: rows ROWS\n"); return 3; }
    while (fgets(line, sizeof line, file)) {
        char *cells[CELLS + 1];
        int at = 0;
        if (line[0] == '#') continue;
        for (cells[0] = strtok(line, " \n"); at < CELLS && cells[at]; at++) cells[at + 1] = strtok(NULL, " \n");
        if (at != CELLS || !is_row(cells)) {
            fprintf(stderr, "rows: %s differs\n", cells[0]);
            fclose(file);
            return 1;
        }
        rows++;
    }
    fclose(file);
    printf("rows: %d\n", rows);
    return rows == 0;
}
