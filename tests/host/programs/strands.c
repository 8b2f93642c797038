/* Calls that are paused beside one another in one instance. Built as `build.sh` says; strands.wasm beside it is kept.
 *
 * Listed is `env.read`. The C stack's pointer is exported, so that a host can keep what paused calls have there.
 */
#define IMPORT(name) __attribute__((import_module("env"), import_name(name)))
#define EXPORT(name) __attribute__((export_name(name)))

IMPORT("read") int read_number(int which);

#define AREAS 4
static char areas[AREAS][2048] __attribute__((aligned(4)));
EXPORT("area_at") void *area_at(int which) { return areas[which]; }
EXPORT("area_length") int area_length(void) { return sizeof areas[0]; }

static int total;

/* Adds what is read to the total, which all calls share, and answers it. */
EXPORT("add") int add(int which) {
    int number = read_number(which);
    total += number;
    return total;
}

EXPORT("divide") int divide(int number, int which) { return number / read_number(which); }

#define WIDTH 16

/* Fills an array on the C stack from the one above, pauses within, and goes on below. */
__attribute__((noinline)) static int fold_below(int depth, int seed, const volatile int *above) {
    volatile int here[WIDTH];
    for (int i = 0; i < WIDTH; i++)
        here[i] = above[(i + 1) % WIDTH] * 5 + i;
    for (int i = 0; i < WIDTH; i += 5)
        here[i] += read_number(seed + depth + i);
    int below = depth == 0 ? 0 : fold_below(depth - 1, seed, here);
    for (int i = 0; i < WIDTH; i += 6)
        here[i] ^= read_number(below + i);
    int all = below;
    for (int i = 0; i < WIDTH; i++)
        all = all * 31 + here[i] + above[i];
    return all;
}

/* What comes of arrays in so many activations, each of which pauses. */
EXPORT("fold") int fold(int depth, int seed) {
    volatile int first[WIDTH];
    for (int i = 0; i < WIDTH; i++)
        first[i] = seed + i;
    return fold_below(depth, seed, first);
}

/* As many activations without arrays as asked for; a pause in the last. */
__attribute__((noinline)) static int below(int depth) { return depth == 0 ? read_number(0) : below(depth - 1) * 2 + depth; }
EXPORT("deep") int deep(int depth) { return below(depth); }
