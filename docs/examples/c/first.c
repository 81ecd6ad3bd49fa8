#include <jillapun.h>
#include <stdio.h>

int main(void) {
    const uint8_t text[] = "caf\xC3\xA9 \xFF";
    jillapun_char16 units[sizeof text];
    size_t len = sizeof text - 1;
    printf("%zu of %zu bytes are UTF-8\n", jillapun_utf8_valid_up_to(text, len), len);
    printf("%zu units\n", jillapun_mem_convert_utf8_to_utf16(text, len, units, sizeof text));
}
