/* `open` and `read` to load before the C library's, for a program that opens files more than once. By the environment:
   PIECES, a seed: each reading hands out 1 to 20 bytes, and one in four is interrupted by a signal before it does.
   ALTERED_FILE and ALTERED_OPENING, a file's name without its folder and the number of an opening of it, from 1 on; of
   that opening then
     OPENED_INSTEAD, the path of a file that is opened in its place;
     FAILING_READING, the number of the reading, from 1 on, that fails as on a broken disk. */
#define _GNU_SOURCE
#include <errno.h>
#include <fcntl.h>
#include <stdarg.h>
#include <stdint.h>
#include <stdlib.h>
#include <string.h>
#include <sys/syscall.h>
#include <unistd.h>

static int altered = -1;
static int openings, readings;

static int number(const char *variable) {
    const char *text = getenv(variable);
    return text ? atoi(text) : 0;
}

static int is_altered(const char *path) {
    const char *wanted = getenv("ALTERED_FILE"), *slash = strrchr(path, '/');
    return wanted && strcmp(slash ? slash + 1 : path, wanted) == 0 && ++openings == number("ALTERED_OPENING");
}

static int opened(int folder, const char *path, int flags, mode_t mode) {
    const char *other = getenv("OPENED_INSTEAD");
    int is_this = is_altered(path);
    int file = syscall(SYS_openat, folder, is_this && other ? other : path, flags, mode);
    if (is_this) {
        altered = file;
        readings = 0;
    } else if (file == altered) {
        altered = -1; /* The number of a file that was closed is given to another. */
    }
    return file;
}

/* Only an opening that may make a file has a mode. */
#define MODE_BEHIND(flags)           \
    mode_t mode = 0;                 \
    if ((flags) & O_CREAT) {         \
        va_list rest;                \
        va_start(rest, flags);       \
        mode = va_arg(rest, mode_t); \
        va_end(rest);                \
    }

int open(const char *path, int flags, ...) {
    MODE_BEHIND(flags)
    return opened(AT_FDCWD, path, flags, mode);
}

int open64(const char *path, int flags, ...) {
    MODE_BEHIND(flags)
    return opened(AT_FDCWD, path, flags, mode);
}

int openat(int folder, const char *path, int flags, ...) {
    MODE_BEHIND(flags)
    return opened(folder, path, flags, mode);
}

int openat64(int folder, const char *path, int flags, ...) {
    MODE_BEHIND(flags)
    return opened(folder, path, flags, mode);
}

/* The generator of tests/common/random.rs. */
static uint64_t any_number(void) {
    static uint64_t state;
    static int is_begun;
    if (!is_begun) {
        state = number("PIECES");
        is_begun = 1;
    }
    uint64_t x = state += 0x9E3779B97F4A7C15;
    x = (x ^ (x >> 30)) * 0xBF58476D1CE4E5B9;
    x = (x ^ (x >> 27)) * 0x94D049BB133111EB;
    return x ^ (x >> 31);
}

ssize_t read(int file, void *bytes, size_t count) {
    int failing = number("FAILING_READING");
    if (failing && file == altered && ++readings == failing) {
        errno = EIO;
        return -1;
    }
    if (getenv("PIECES")) {
        if (any_number() % 4 == 0) {
            errno = EINTR;
            return -1;
        }
        size_t most = 1 + any_number() % 20;
        if (count > most) count = most;
    }
    return syscall(SYS_read, file, bytes, count);
}
