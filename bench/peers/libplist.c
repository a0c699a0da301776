// libplist IN OUT: reads and writes a binary property list with libplist.
#include <plist/plist.h>
#include <stdio.h>
#include <stdlib.h>

int main(int count, char **words) {
    FILE *in = count == 3 ? fopen(words[1], "rb") : NULL;
    if (in == NULL || fseek(in, 0, SEEK_END) != 0) return 1;
    long size = ftell(in);
    rewind(in);
    char *octets = malloc(size);
    if (octets == NULL || fread(octets, 1, size, in) != (size_t)size) return 1;
    plist_t value = NULL;
    plist_from_bin(octets, (uint32_t)size, &value);
    free(octets);
    char *written = NULL;
    uint32_t length = 0;
    if (value == NULL) return 1;
    plist_to_bin(value, &written, &length);
    FILE *out = fopen(words[2], "wb");
    if (out == NULL || written == NULL || fwrite(written, 1, length, out) != length) return 1;
    return fclose(out) == 0 ? 0 : 1;
}
