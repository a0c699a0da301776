// Refuses random bytes, as a sandbox may.
#include <errno.h>
#include <stddef.h>

int getentropy(void *buffer, size_t length) {
    (void)buffer, (void)length;
    errno = ENOSYS;
    return -1;
}
