/* A `read` that fails, for tests of the programs: loaded before the C library (LD_PRELOAD), it hands a descriptor at most
 * FAILING_READ_AFTER bytes, in one piece, and answers the next read of that descriptor with an input error. The descriptor
 * is standard input, or the first that the program opens where FAILING_READ_FILE is set. */
#define _GNU_SOURCE
#include <dlfcn.h>
#include <errno.h>
#include <stdlib.h>
#include <unistd.h>

#define FIRST_OPENED 3

ssize_t read(int file, void *buffer, size_t count) {
    static size_t given;
    ssize_t (*next)(int, void *, size_t) = (ssize_t (*)(int, void *, size_t))dlsym(RTLD_NEXT, "read");
    const char *after = getenv("FAILING_READ_AFTER");
    int failing = getenv("FAILING_READ_FILE") ? FIRST_OPENED : STDIN_FILENO;
    if (!after || file != failing)
        return next(file, buffer, count);
    size_t left = strtoul(after, 0, 10) - given;
    if (left == 0) {
        errno = EIO;
        return -1;
    }
    ssize_t got = next(file, buffer, count < left ? count : left);
    if (got > 0)
        given += (size_t)got;
    return got;
}
