/* Decodes a picture whose bytes come one by one from a blocking import, with the readers of stb_image (Debian's libstb-dev): a compiled
   program of some 90 KB for bench/size.sh, which writes bytes.h. */
typedef unsigned long size_t;
__attribute__((import_module("env"), import_name("read"))) int read_byte(int byte, int ticks);

static unsigned char heap[1 << 22] __attribute__((aligned(16)));
static unsigned top;
void *memset(void *to, int c, size_t n) { unsigned char *p = to; while (n--) *p++ = c; return to; }
void *memcpy(void *to, const void *from, size_t n) { unsigned char *p = to; const unsigned char *q = from; while (n--) *p++ = *q++; return to; }
void *memmove(void *to, const void *from, size_t n) {
    unsigned char *p = to; const unsigned char *q = from;
    if (p < q) while (n--) *p++ = *q++; else while (n--) p[n] = q[n];
    return to;
}
int memcmp(const void *a, const void *b, size_t n) { const unsigned char *p = a, *q = b; for (; n--; p++, q++) if (*p != *q) return *p - *q; return 0; }
int strcmp(const char *a, const char *b) { while (*a && *a == *b) a++, b++; return *(unsigned char *)a - *(unsigned char *)b; }
int strncmp(const char *a, const char *b, size_t n) { while (n && *a && *a == *b) a++, b++, n--; return n ? *(unsigned char *)a - *(unsigned char *)b : 0; }
size_t strlen(const char *a) { size_t n = 0; while (a[n]) n++; return n; }
int abs(int x) { return x < 0 ? -x : x; }
long strtol(const char *a, char **end, int base) { long n = 0; while (*a >= '0' && *a <= '9') n = n * 10 + *a++ - '0'; if (end) *end = (char *)a; return n; }
static void *take(size_t n) { unsigned at = top; n = (n + 15) & ~15ul; if (n > sizeof heap - top - 16) return 0; *(unsigned *)(heap + at) = n; top += n + 16; return heap + at + 16; }
static void *retake(void *old, size_t n) { void *now = take(n); if (now && old) { unsigned was = *(unsigned *)((unsigned char *)old - 16); memcpy(now, old, was < n ? was : n); } return now; }
#define STBI_MALLOC(n) take(n)
#define STBI_REALLOC(p, n) retake(p, n)
#define STBI_FREE(p) ((void)(p))
#define STBI_ASSERT(x) ((void)0)
#define STBI_NO_STDIO
#define STBI_NO_LINEAR
#define STBI_NO_HDR
#define STBI_NO_PSD
#define STBI_NO_THREAD_LOCALS
#define STBI_NO_SIMD
#define STB_IMAGE_IMPLEMENTATION
#include "stb_image.h"
#include "bytes.h"

static int at;
static int read_some(void *user, char *data, int size) {
    int n = 0;
    while (n < size && at < (int)sizeof picture) data[n++] = read_byte(picture[at++], 0);
    return n;
}
static void skip(void *user, int n) { at += n; }
static int is_over(void *user) { return at >= (int)sizeof picture; }

__attribute__((export_name("run"))) int run(void) {
    stbi_io_callbacks calls = {read_some, skip, is_over};
    int x, y, channels, sum = 0;
    at = top = 0;
    unsigned char *pixels = stbi_load_from_callbacks(&calls, 0, &x, &y, &channels, 3);
    if (!pixels) return -1;
    for (int i = 0; i < x * y * 3; i++) sum = sum * 31 + pixels[i];
    return sum;
}
