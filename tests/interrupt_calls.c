/* Loaded before a program, has every other call of read, write and lseek fail, the first one too, as one does that a signal interrupts. The
 * file CALLS_INTERRUPTED has in the end how many these were. */
#define _GNU_SOURCE
#include <dlfcn.h>
#include <errno.h>
#include <stdio.h>
#include <stdlib.h>
#include <unistd.h>

static unsigned long calls;

static int is_interrupted(void) {
    errno = EINTR;
    return ++calls % 2;
}

ssize_t read(int file, void *bytes, size_t count) {
    ssize_t (*next)(int, void *, size_t) = dlsym(RTLD_NEXT, "read");
    return is_interrupted() ? -1 : next(file, bytes, count);
}

ssize_t write(int file, const void *bytes, size_t count) {
    ssize_t (*next)(int, const void *, size_t) = dlsym(RTLD_NEXT, "write");
    return is_interrupted() ? -1 : next(file, bytes, count);
}

off_t lseek(int file, off_t place, int from) {
    off_t (*next)(int, off_t, int) = dlsym(RTLD_NEXT, "lseek");
    return is_interrupted() ? -1 : next(file, place, from);
}

__attribute__((destructor)) static void tell(void) {
    const char *path = getenv("CALLS_INTERRUPTED");
    FILE *file = path ? fopen(path, "w") : NULL;
    if (file) {
        fprintf(file, "%lu\n", (calls + 1) / 2);
        fclose(file);
    }
}
