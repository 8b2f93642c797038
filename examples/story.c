/* Reads numbers that come slowly, sleeps in between, and prints what it has: on its own it would block its host.
 *
 *   clang --target=wasm32 -mcpu=mvp -O2 -nostdlib -Wl,--no-entry story.c -o story.wasm
 */
#define IMPORT(name) __attribute__((import_module("env"), import_name(name)))
#define EXPORT(name) __attribute__((export_name(name)))

IMPORT("read") int read_number(int which);
IMPORT("sleep") void sleep_for(int milliseconds);
IMPORT("print") void print_number(int number);

/* Where the host puts the suspended stack. Nothing here touches it. */
static char area[4096] __attribute__((aligned(4)));

EXPORT("area") void *area_start(void) { return area; }
EXPORT("area_size") int area_size(void) { return sizeof area; }

/* The sum of a tree of numbers, depth first: a pause at each node, with its parents on the stack. */
static int sum_of(int node, int depth) {
    int number = read_number(node);
    if (depth == 0)
        return number;
    sleep_for(depth);
    return number + sum_of(2 * node, depth - 1) * 3 + sum_of(2 * node + 1, depth - 1);
}

typedef int (*step)(int);
static int slow_step(int n) { sleep_for(1); return n * 3 + 1; }
static int quick_step(int n) { return n / 2; }
static step steps[] = { quick_step, slow_step };

/* A loop through a table of functions: one of them pauses. */
static long long walk(int n) {
    long long all = 0;
    while (n != 1) {
        n = steps[n & 1](n);
        all = all * 31 + n;
    }
    return all;
}

EXPORT("run") int run(int depth) {
    int sum = sum_of(1, depth);
    print_number(sum);
    long long all = walk(read_number(99) + 27);
    print_number((int)(all ^ (all >> 32)));
    return sum ^ (int)all;
}
