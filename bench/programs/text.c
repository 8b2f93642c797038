/* Formats text that goes piece by piece through a blocking import, with stb_sprintf (Debian's libstb-dev). */
typedef unsigned long size_t;
__attribute__((import_module("env"), import_name("write"))) int write_byte(int byte, int ticks);
void *memset(void *to, int c, size_t n) { unsigned char *p = to; while (n--) *p++ = c; return to; }
void *memcpy(void *to, const void *from, size_t n) { unsigned char *p = to; const unsigned char *q = from; while (n--) *p++ = *q++; return to; }
#define STB_SPRINTF_IMPLEMENTATION
#define STB_SPRINTF_NOFLOAT
#define STB_SPRINTF_NOUNALIGNED
#include "stb_sprintf.h"
static int sum;
static char *send(const char *text, void *user, int length) {
    for (int k = 0; k < length; k++) sum = sum * 31 + write_byte(text[k], 0);
    return (char *)user;
}
static void say(const char *form, ...) {
    char piece[STB_SPRINTF_MIN];
    va_list args;
    va_start(args, form);
    stbsp_vsprintfcb(send, piece, piece, form, args);
    va_end(args);
}
__attribute__((export_name("run"))) int run(int count) {
    sum = 0;
    for (int i = 0; i < count; i++) say("%d of %5u: %-8x|%08o|%s|%c|%lld\n", i, count, i * 77, i * 9, i & 1 ? "odd" : "even", 'a' + i % 26, i * 12345678901LL);
    return sum;
}
