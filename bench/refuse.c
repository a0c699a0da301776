// Makes allocation number FAIL_AT fail, and writes the number of allocations to the file FAIL_COUNT.
#define _GNU_SOURCE
#include <dlfcn.h>
#include <errno.h>
#include <stdio.h>
#include <stdlib.h>

static long allocations;
static long refused = -1;
static void *(*allocate)(size_t);
static void *(*reallocate)(void *, size_t);

static int is_refused(void) {
    if (allocate == NULL) {
        const char *number = getenv("FAIL_AT");
        refused = number == NULL ? -1 : atol(number);
        allocate = dlsym(RTLD_NEXT, "malloc");
        reallocate = dlsym(RTLD_NEXT, "realloc");
    }
    allocations += 1;
    if (allocations != refused) return 0;
    errno = ENOMEM;
    return 1;
}

void *malloc(size_t size) { return is_refused() ? NULL : allocate(size); }

void *realloc(void *block, size_t size) { return is_refused() ? NULL : reallocate(block, size); }

__attribute__((destructor)) static void tell(void) {
    const char *path = getenv("FAIL_COUNT");
    FILE *file = path == NULL ? NULL : fopen(path, "w");
    if (file == NULL) return;
    fprintf(file, "%ld\n", allocations);
    fclose(file);
}
