#include <jillapun.h>
#include <stdio.h>

/* A name of encoding_c_mem, from libjillapun_encoding_c.a. */
bool encoding_mem_is_ascii(const uint8_t *buffer, size_t len);

/* Decodes Shift_JIS by indexes that are linked in, from libjillapun_indexes.a. */
int main(void) {
    const uint8_t bytes[] = {0x93, 0xFA, 0x96, 0x7B};
    uint8_t text[16];
    jillapun_decoded decoded;
    static jillapun_tables tables; /* {0}, as all that is static; tables stay for as long as the program runs */
    jillapun_index_fault fault;
    jillapun_status status = jillapun_tables_new(jillapun_index_files, jillapun_index_files_len, &tables, &fault);
    if (status == JILLAPUN_OK)
        status = jillapun_decode(tables, JILLAPUN_SHIFT_JIS, JILLAPUN_KEEP, bytes, sizeof bytes, text,
            sizeof text, &decoded);
    if (status != JILLAPUN_OK)
        return 1;
    printf("%.*s\n", (int)decoded.written, (const char *)text);
    printf("ASCII: %s\n", encoding_mem_is_ascii(text, decoded.written) ? "yes" : "no");
    return 0;
}
