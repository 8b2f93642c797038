/* Has the five exports, and breaks the protocol in the way that `run` is told. Built as `build.sh` says; broken.wasm beside it is kept. */
#define IMPORT(name) __attribute__((import_module("env"), import_name(name)))
#define EXPORT(name) __attribute__((export_name(name)))

enum { normal, unwinding, rewinding };
enum { well, other_arguments, other_import, ends_early, traps_on_its_way, frames_are_left, state_is_left };

IMPORT("read") int read_number(int which);
IMPORT("sleep") void sleep_for(int milliseconds);

static int area[16];
static int state, way, calls;

EXPORT("area") void *area_start(void) { return area; }
EXPORT("area_size") int area_size(void) { return sizeof area; }
EXPORT("asyncify_start_unwind") void start_unwind(int *at) { state = unwinding; at[0] += 4; }
EXPORT("asyncify_stop_unwind") void stop_unwind(void) { state = normal; }
EXPORT("asyncify_start_rewind") void start_rewind(int *at) { state = rewinding; at[0] -= way == frames_are_left ? 0 : 4; }
EXPORT("asyncify_stop_rewind") void stop_rewind(void) { state = way == state_is_left ? unwinding : normal; }
EXPORT("asyncify_get_state") int get_state(void) { return state; }

EXPORT("run") int run(int how) {
    int answer;
    way = how;
    if (state == rewinding && way == ends_early)
        return 0;
    if (state == rewinding && way == traps_on_its_way)
        __builtin_trap();
    if (state == rewinding && way == other_import)
        sleep_for(1);
    answer = read_number(way == other_arguments ? calls++ : 5);
    return answer;
}
