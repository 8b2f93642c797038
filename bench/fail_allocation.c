/* Loaded before a program, has its allocation of the number FAIL_ALLOCATION fail, and then makes the file ALLOCATION_FAILED. What counts,
 * from 1, is each call of malloc and realloc in the program's own code: all that it allocates by, and none of the C library's own. */
#define _GNU_SOURCE
#include <dlfcn.h>
#include <fcntl.h>
#include <stdlib.h>
#include <sys/auxv.h>
#include <unistd.h>

void *__libc_malloc(size_t size);
void *__libc_realloc(void *old, size_t size);

static unsigned long calls;

static int is_of_program(const void *caller) {
    Dl_info from, program;
    return dladdr(caller, &from) && dladdr((void *)getauxval(AT_ENTRY), &program) && from.dli_fbase == program.dli_fbase;
}

static int fails(const void *caller) {
    const char *number = getenv("FAIL_ALLOCATION"), *told = getenv("ALLOCATION_FAILED");
    if (!number || !told || !is_of_program(caller) || ++calls != strtoul(number, NULL, 10))
        return 0;
    close(open(told, O_CREAT | O_WRONLY, 0600));
    return 1;
}

void *malloc(size_t size) {
    return fails(__builtin_return_address(0)) ? NULL : __libc_malloc(size);
}

void *realloc(void *old, size_t size) {
    return fails(__builtin_return_address(0)) ? NULL : __libc_realloc(old, size);
}
