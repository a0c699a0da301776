/* Writes the canonical file of a property list: canonical IN OUT. Exits with 0, or with 2 if the input is refused, and
 * says so on standard error. Whoever runs it picks the file, so it passes no key; keys.c does. */
#include <plistconv.h>
#include <stdio.h>
#include <stdlib.h>
#include <string.h>

static uint8_t *read_whole(const char *path, size_t *count) {
    FILE *file = fopen(path, "rb");
    if (!file) return NULL;
    uint8_t *octets = NULL;
    size_t room = 0, given;
    *count = 0;
    do {
        if (*count == room) {
            uint8_t *more = realloc(octets, room = room ? 2 * room : 4096);
            if (!more) { free(octets); fclose(file); return NULL; }
            octets = more;
        }
        given = fread(octets + *count, 1, room - *count, file);
        *count += given;
    } while (given);
    int failed = ferror(file);
    fclose(file);
    if (failed) { free(octets); return NULL; }
    return octets;
}

/* Prints the line of a refusal of the file at the path. */
static void tell(const char *path, const plistconv_refusal *refusal) {
    size_t room = strlen(path) + 64, length = 0;
    uint8_t *line = calloc(room, 1);
    if (line && plistconv_line((const uint8_t *)path, strlen(path), refusal, line, room, &length) == 0
        && length <= room)
        fprintf(stderr, "%.*s\n", (int)length, (const char *)line);
    free(line);
}

static int write_whole(const char *path, const uint8_t *octets, size_t count) {
    FILE *file = fopen(path, "wb");
    if (!file) return 0;
    size_t written = fwrite(octets, 1, count, file);
    return fclose(file) == 0 && written == count;
}

/* Writes the canonical file of the octets to the path `out`, and returns the exit status. */
static int convert(const char *in, const uint8_t *octets, size_t count, const char *out) {
    uint8_t *canonical, equal = 0;
    size_t length;
    plistconv_refusal refusal;
    plistconv_finding finding = {0};
    int status = 0;
    uint8_t number = plistconv_canonical_alloc(octets, count, NULL, &canonical, &length, &refusal);
    if (number == 0) number = plistconv_same(octets, count, canonical, length, NULL, &equal, &refusal);
    if (number == 0) number = plistconv_check(canonical, length, NULL, &finding, &refusal);
    if (number != 0) {
        tell(in, &refusal);
        status = number == PLISTCONV_OUT_OF_MEMORY ? 5 : 2;
    } else if (!equal || !finding.canonical) {
        status = 1;
    } else if (!write_whole(out, canonical, length)) {
        perror(out);
        status = 4;
    }
    plistconv_free(canonical);
    return status;
}

int main(int argc, char **argv) {
    if (argc != 3) { fprintf(stderr, "usage: canonical IN OUT\n"); return 3; }
    size_t count;
    uint8_t *octets = read_whole(argv[1], &count);
    if (!octets) { perror(argv[1]); return 4; }
    int status = convert(argv[1], octets, count, argv[2]);
    free(octets);
    return status;
}
