/* Adds up the numbers that are typed, waits where it is told to, and prints as it goes: a program of wasi-libc that blocks its host twice,
 * at `fgets` and at `usleep`.
 *
 *   clang --target=wasm32-wasi -mcpu=mvp -O2 -c repl.c
 *   clang --target=wasm32-wasi repl.o -o repl.wasm -lc-printscan-no-floating-point -Wl,--strip-all
 */
#include <stdio.h>
#include <stdlib.h>
#include <string.h>
#include <unistd.h>

#define EXPORT(name) __attribute__((export_name(name)))

/* Where the host puts the suspended stack. Nothing here touches it. */
static char area[4096] __attribute__((aligned(4)));

EXPORT("area") void *area_start(void) { return area; }
EXPORT("area_size") int area_size(void) { return sizeof area; }

static long total;

/* Counts down, a line at each step. */
static void wait_for(long steps) {
    for (; steps > 0; steps--) {
        printf("%ld ..\n", steps);
        fflush(stdout);
        usleep(100000);
    }
    puts("done");
}

/* Does what a line says, and tells whether to go on. */
static int obey(const char *line) {
    char *end;
    long number = strtol(line, &end, 10);
    if (end != line)
        printf("%ld\n", total += number);
    else if (strncmp(line, "wait ", 5) == 0)
        wait_for(strtol(line + 5, NULL, 10));
    else if (strncmp(line, "quit", 4) == 0)
        return 0;
    else
        puts("a number, 'wait' and a number, or 'quit'");
    return 1;
}

int main(void) {
    char line[80];
    do {
        fputs("> ", stdout);
        fflush(stdout);
    } while (fgets(line, sizeof line, stdin) && obey(line));
    printf("total %ld\n", total);
    return total != 0;
}
