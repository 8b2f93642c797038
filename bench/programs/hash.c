/* Hashes a stream of bytes that come from a blocking import, by the three hashes of xxHash (Debian's libxxhash-dev). */
typedef unsigned long size_t;
__attribute__((import_module("env"), import_name("read"))) int read_byte(int byte, int ticks);
void *memset(void *to, int c, size_t n) { unsigned char *p = to; while (n--) *p++ = c; return to; }
void *memcpy(void *to, const void *from, size_t n) { unsigned char *p = to; const unsigned char *q = from; while (n--) *p++ = *q++; return to; }
#define XXH_INLINE_ALL
#define XXH_NO_STDLIB
#define XXH_VECTOR 0
#define static_assert(...)
#include <xxhash.h>
static unsigned char piece[512];
static XXH32_state_t one;
static XXH64_state_t two;
static XXH3_state_t three;
__attribute__((export_name("run"))) int run(int count) {
    XXH32_reset(&one, 1);
    XXH64_reset(&two, 2);
    XXH3_64bits_reset(&three);
    for (int i = 0; i < count; i++) {
        int n = 1 + i % 500;
        for (int k = 0; k < n; k++) piece[k] = k % 7 ? k * i : read_byte(i + k, 0);
        XXH32_update(&one, piece, n);
        XXH64_update(&two, piece, n);
        XXH3_64bits_update(&three, piece, n);
    }
    return XXH32_digest(&one) ^ (int)XXH64_digest(&two) ^ (int)XXH3_64bits_digest(&three);
}
