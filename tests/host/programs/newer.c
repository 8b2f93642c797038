/* Copies and fills memory, and extends signs, between pauses. Built as `build.sh` says, with what compilers newer than WebAssembly 1.0 emit
 * (`-msign-ext -mbulk-memory`); newer.wasm beside it is kept.
 */
#define EXPORT(name) __attribute__((export_name(name)))
__attribute__((import_module("env"), import_name("read"))) int read_number(int which);

static char area[1024] __attribute__((aligned(4)));
EXPORT("area") void *area_start(void) { return area; }
EXPORT("area_size") int area_size(void) { return sizeof area; }

static unsigned char bytes[256];

/* A number of the bytes and of their order. */
static int sum_of_bytes(void) {
    int sum = 0;
    for (int i = 0; i < (int)sizeof bytes; i++)
        sum = sum * 31 + bytes[i];
    return sum;
}

/* Fills as many bytes as are read with what is read. */
EXPORT("fill") int fill(int at) {
    int length = read_number(at) & 63;
    __builtin_memset(bytes + at, read_number(length), length);
    return sum_of_bytes();
}

/* Moves bytes to a place from a place that are read, both ways. */
EXPORT("move") int move(int length) {
    for (int i = 0; i < (int)sizeof bytes; i++)
        bytes[i] = i * 7;
    int to = read_number(1) & 127;
    __builtin_memmove(bytes + to, bytes + (read_number(2) & 127), length);
    __builtin_memmove(bytes + (read_number(3) & 127), bytes + to, length);
    return sum_of_bytes();
}

struct record { int numbers[24]; };
static struct record records[4];

/* A record is copied, a pause between its two uses. */
EXPORT("copy_records") int copy_records(int which) {
    struct record record = records[which & 3];
    record.numbers[which % 24] += read_number(which);
    records[(which + 1) & 3] = record;
    return records[(which + 1) & 3].numbers[which % 24];
}

/* Numbers of 8, 16 and 32 bits as signed ones. */
EXPORT("signs") long long signs(int count) {
    long long sum = 0;
    for (int i = 0; i < count; i++) {
        int number = read_number(i) * 0x01234567;
        sum = sum * 3 + (signed char)number + (short)(number >> 3) + (long long)(signed char)(sum >> 9) + (long long)(short)(sum >> 5) + (long long)(int)(sum >> 2);
    }
    return sum;
}
