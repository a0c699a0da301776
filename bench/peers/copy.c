// copy IN OUT: reads a file into memory and writes it, the least that a conversion in memory can do.
#include <fcntl.h>
#include <stdlib.h>
#include <sys/stat.h>
#include <unistd.h>

int main(int count, char **words) {
    struct stat about;
    int in = count == 3 ? open(words[1], O_RDONLY) : -1;
    if (in < 0 || fstat(in, &about) != 0) return 1;
    size_t size = about.st_size, had = 0, sent = 0;
    char *octets = malloc(size);
    if (octets == NULL) return 1;
    while (had < size) {
        ssize_t more = read(in, octets + had, size - had);
        if (more <= 0) return 1;
        had += more;
    }
    int out = open(words[2], O_WRONLY | O_CREAT | O_TRUNC, 0666);
    if (out < 0) return 1;
    while (sent < size) {
        ssize_t more = write(out, octets + sent, size - sent);
        if (more <= 0) return 1;
        sent += more;
    }
    return close(out) == 0 ? 0 : 1;
}
