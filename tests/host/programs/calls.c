/* Calls imports in each way that a host has to serve. Built as `build.sh` says; calls.wasm beside it is kept.
 *
 * Listed are `env.read`, `env.wide`, `env.sleep` and `env.fill`; `env.plain` answers at once.
 */
#define IMPORT(name) __attribute__((import_module("env"), import_name(name)))
#define EXPORT(name) __attribute__((export_name(name)))

IMPORT("read") int read_number(int which);
IMPORT("wide") long long read_wide(long long which);
IMPORT("sleep") void sleep_for(int milliseconds);
IMPORT("fill") int fill(char *at, int length);
IMPORT("plain") int plain(int number);

static char area[1024] __attribute__((aligned(4)));
EXPORT("area") void *area_start(void) { return area; }
EXPORT("area_size") int area_size(void) { return sizeof area; }

/* The sum of what is read. */
EXPORT("sum") int sum(int count) {
    int all = 0;
    for (int i = 0; i < count; i++)
        all += read_number(i);
    return all;
}

EXPORT("wide") long long wide(long long seed, int count) {
    for (int i = 0; i < count; i++)
        seed = seed * 31 + read_wide(seed ^ i);
    return seed;
}

/* Imports that answer at once, between such that don't. */
EXPORT("mixed") int mixed(int count) {
    int all = plain(count);
    for (int i = 0; i < count; i++) {
        all = all * 3 + read_number(i) + plain(i);
        sleep_for(i);
    }
    return all;
}

/* Never calls what is listed. */
EXPORT("quiet") int quiet(int number) { return plain(number) + 1; }

static int calls;
EXPORT("count_calls") int count_calls(void) { return ++calls; }

__attribute__((noinline)) static int below(int depth) {
    int here = depth * depth;
    return depth == 0 ? read_number(depth) : below(depth - 1) * 2 + here;
}

/* A pause with a stack of this many activations below the entry's. */
EXPORT("deep") int deep(int depth) { return below(depth); }

/* The sum of what is read, this many activations below the entry's. */
__attribute__((noinline)) static int sum_below(int depth, int count) {
    return depth == 0 ? sum(count) : sum_below(depth - 1, count) * 2 + depth;
}
EXPORT("deep_sum") int deep_sum(int depth, int count) { return sum_below(depth, count); }

typedef int (*step)(int);
static int slow(int n) { return read_number(n) + 1; }
static int quick(int n) { return n + 2; }
static step volatile steps[] = { slow, quick };
EXPORT("through_table") int through_table(int count) {
    int all = 0;
    for (int i = 0; i < count; i++)
        all = all * 5 + steps[i & 1](i);
    return all;
}

/* Grows the memory between pauses, and looks whether what was in it stays. */
EXPORT("grow") int grow(int times) {
    for (int i = 1; i <= times; i++) {
        char *page = (char *)(__builtin_wasm_memory_grow(0, 1) * 65536);
        page[65535] = i;
        sleep_for(i);
        if (page[65535] != i)
            return -i;
    }
    return __builtin_wasm_memory_size(0);
}

/* The host writes into a buffer while the program waits. */
EXPORT("filled") int filled(int length) {
    char buffer[64];
    int sum = 0, got = fill(buffer, length < 64 ? length : 64);
    for (int i = 0; i < got; i++)
        sum += buffer[i];
    return sum;
}

/* Traps behind a pause. */
EXPORT("divide") int divide(int number) { return number / read_number(0); }

/* A listed call behind one that isn't listed, where only `env.sleep` is. */
__attribute__((noinline)) static int unlisted(int which) { return read_number(which); }
__attribute__((noinline)) static int maybe(int number) {
    if (number == 77)
        sleep_for(number);
    return number;
}
EXPORT("behind") int behind(int which) { return unlisted(which) + maybe(which); }
EXPORT("at_once") int at_once(int which) {
    int all = unlisted(which);
    sleep_for(1);
    return all;
}
EXPORT("divides") int divides(int which) {
    int number = unlisted(which);
    int all = 100 / number;
    sleep_for(all);
    return all;
}
EXPORT("checks") int checks(int which) {
    int number = unlisted(which);
    if (number == 0)
        __builtin_trap();
    sleep_for(number);
    return number;
}
EXPORT("once") int once(int which) { return unlisted(which); }
