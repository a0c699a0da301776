// measure FILE MOST PROGRAM WORD..: runs the program for at most MOST seconds of processor time, and writes to FILE its
// elapsed seconds, its processor seconds (user and system) and its greatest resident size in KiB. Exits with the status
// of the program, or with 255 if a signal ended it.
//
// The greatest size of a child starts from the size of the process that starts it, so this process is kept small.
#define _GNU_SOURCE
#include <stdio.h>
#include <stdlib.h>
#include <sys/resource.h>
#include <sys/time.h>
#include <sys/wait.h>
#include <time.h>
#include <unistd.h>

static double seconds_of(struct timeval time) { return (double)time.tv_sec + 1e-6 * (double)time.tv_usec; }

int main(int count, char **words) {
    struct timespec begin, end;
    struct rusage usage;
    int status;
    if (count < 4) return 255;
    clock_gettime(CLOCK_MONOTONIC, &begin);
    pid_t child = fork();
    if (child == 0) {
        struct rlimit limit = {.rlim_cur = strtoul(words[2], NULL, 10), .rlim_max = RLIM_INFINITY};
        setrlimit(RLIMIT_CPU, &limit);
        execv(words[3], words + 3);
        _exit(255);
    }
    if (child < 0 || wait4(child, &status, 0, &usage) < 0) return 255;
    clock_gettime(CLOCK_MONOTONIC, &end);
    FILE *file = fopen(words[1], "w");
    if (file == NULL) return 255;
    double seconds = (double)(end.tv_sec - begin.tv_sec) + 1e-9 * (double)(end.tv_nsec - begin.tv_nsec);
    double processor = seconds_of(usage.ru_utime) + seconds_of(usage.ru_stime);
    fprintf(file, "%f %f %ld\n", seconds, processor, usage.ru_maxrss);
    fclose(file);
    return WIFEXITED(status) ? WEXITSTATUS(status) : 255;
}
