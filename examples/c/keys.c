/* What a hash key changes: nothing of an answer. Pieces of data that were picked to collide under the fixed seed have one
 * canonical file with a key and without, whatever the key; with a key that nobody knows they do not collide, so picked
 * input costs no more than other input. A program takes one key, at its start. */
#define _DEFAULT_SOURCE
#include <plistconv.h>
#include <stdio.h>
#include <stdlib.h>
#include <string.h>
#include <unistd.h>
#ifdef __APPLE__
#include <sys/random.h>
#endif

#define MANY 2000
#define LONGEST 68 /* a piece of data as a text */
#define ROOM PLISTCONV_FILE_ROOM(32 * MANY, MANY + 1)
#define MUST(holds) do { if (!(holds)) { fprintf(stderr, "keys.c:%d: %s\n", __LINE__, #holds); exit(1); } } while (0)

/* Returns an array of data as a text. After the first 16 bytes of each, the state of the fixed hasher is 0. */
static uint8_t *picked(size_t *count) {
    char *text = calloc(MANY + 1, LONGEST);
    MUST(text);
    *count = 0;
    for (unsigned i = 0; i < MANY; i++)
        *count += sprintf(text + *count, "%c<%016x157c4a7fb979379e%032d>", i ? ',' : '(', i, 0);
    text[(*count)++] = ')';
    return (uint8_t *)text;
}

int main(void) {
    uint8_t key[PLISTCONV_HASH_KEY_OCTETS], other[PLISTCONV_HASH_KEY_OCTETS] = {1}, equal;
    uint8_t *octets, *file = calloc(ROOM, 1), *keyed = calloc(ROOM, 1);
    const uint8_t *keys[] = {key, other};
    size_t count, length, keyed_length;
    plistconv_refusal refusal;
    plistconv_finding finding;
    MUST(file && keyed && getentropy(key, sizeof key) == 0);
    octets = picked(&count);
    MUST(plistconv_canonical(octets, count, NULL, file, ROOM, &length, &refusal) == 0);

    for (int i = 0; i < 2; i++) {
        MUST(plistconv_canonical(octets, count, keys[i], keyed, ROOM, &keyed_length, &refusal) == 0);
        MUST(length == keyed_length && memcmp(file, keyed, length) == 0);
        MUST(plistconv_check(keyed, keyed_length, keys[i], &finding, &refusal) == 0 && finding.canonical == 1);
        MUST(plistconv_same(octets, count, keyed, keyed_length, keys[i], &equal, &refusal) == 0 && equal == 1);
    }
    printf("keys: %d pieces of data have one canonical file of %zu bytes with each key and without\n", MANY, length);
    free(octets);
    free(file);
    free(keyed);
    return 0;
}
