/* A `read` to load before the C library's: every other call, from the first on, fails with the error number in READ_ERROR. */
#define _GNU_SOURCE
#include <errno.h>
#include <stdlib.h>
#include <sys/syscall.h>
#include <unistd.h>

ssize_t read(int file, void *bytes, size_t count) {
    static unsigned calls;
    const char *error = getenv("READ_ERROR");
    if (error && calls++ % 2 == 0) {
        errno = atoi(error);
        return -1;
    }
    return syscall(SYS_read, file, bytes, count);
}
