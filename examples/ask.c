__attribute__((import_module("env"), import_name("read")))
int read_number(int which);

static char area[1024] __attribute__((aligned(4)));   /* where the host keeps the stack */
__attribute__((export_name("area"))) void *area_at(void) { return area; }
__attribute__((export_name("area_size"))) int area_size(void) { return sizeof area; }

static int total;

__attribute__((export_name("run")))
int run(int count) {
    for (int i = 0; i < count; i++)
        total += read_number(i);   /* the host may take its time */
    return total;
}
