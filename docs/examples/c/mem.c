/* Says whether standard input is UTF-8, and what it is in UTF-16.
   cc mem.c $(pkg-config --cflags --libs jillapun) -o mem && ./mem < mem.in */
#include <jillapun.h>
#include <stdio.h>

enum { MOST = 1 << 16 };

static uint8_t text[MOST];
static jillapun_char16 units[MOST + 1];

int main(void) {
    size_t len = fread(text, 1, MOST, stdin);
    size_t valid = jillapun_utf8_valid_up_to(text, len);
    if (valid < len)
        printf("malformed at byte %zu\n", valid);
    size_t count = jillapun_mem_convert_utf8_to_utf16(text, len, units, MOST + 1);
    printf("%zu units of UTF-16%s\n", count,
        jillapun_mem_is_utf16_bidi(units, count) ? ", some from right to left" : "");
    return 0;
}
