/* Has the five exports and makes the slip that `run` is told, as a program does that pauses where it wasn't rewritten for it; so
 * that a host can be tried on what it has to tell.
 *
 *   clang --target=wasm32 -mcpu=mvp -O2 -c slips.c && wasm-ld --no-entry slips.o -o slips.wasm
 */
#define IMPORT(name) __attribute__((import_module("env"), import_name(name)))
#define EXPORT(name) __attribute__((export_name(name)))

enum { normal, unwinding, rewinding };
enum { none, goes_on, keeps_no_frame, ends_rewinding, other_arguments, other_import };

IMPORT("read") int read_number(int which);
IMPORT("sleep") void sleep_for(int milliseconds);

static int area[16];
static int state, calls;

EXPORT("area") void *area_start(void) { return area; }
EXPORT("area_size") int area_size(void) { return sizeof area; }
EXPORT("asyncify_start_unwind") void start_unwind(int *at) { state = unwinding; }
EXPORT("asyncify_stop_unwind") void stop_unwind(void) { state = normal; }
EXPORT("asyncify_start_rewind") void start_rewind(int *at) { state = rewinding; }
EXPORT("asyncify_stop_rewind") void stop_rewind(void) { state = normal; }
EXPORT("asyncify_get_state") int get_state(void) { return state; }

EXPORT("run") int run(int slip) {
    if (state == rewinding && slip == ends_rewinding)
        return 0;
    if (state == rewinding && slip == other_import)
        sleep_for(5);
    int answer = read_number(slip == other_arguments ? calls++ : 5);
    if (state == unwinding && slip == goes_on)
        answer += read_number(6);
    if (state == unwinding && slip != keeps_no_frame)
        area[0] += 4;
    return answer;
}
