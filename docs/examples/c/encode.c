/* Encodes a text in windows-1252 through a small buffer, and says on standard error whether a character has no bytes. */
#include <jillapun.h>
#include <stdio.h>

int main(void) {
    const uint8_t text[] = "caf\xC3\xA9 \xE6\x97\xA5\n";
    const size_t len = sizeof text - 1;
    static jillapun_tables tables; /* {0}, as all that is static */
    jillapun_index_fault fault;
    jillapun_encoder encoder = {0};
    if (jillapun_tables_new(jillapun_index_files, jillapun_index_files_len, &tables, &fault) != JILLAPUN_OK)
        return 1;
    if (jillapun_encoder_new(tables, JILLAPUN_WINDOWS_1252, &encoder) != JILLAPUN_OK)
        return 1;
    uint8_t bytes[14]; /* always enough to go on */
    jillapun_encoder_progress told;
    bool had_unmappable = false;
    size_t at = 0;
    do {
        if (jillapun_encoder_encode_from_utf8(&encoder, text + at, len - at, bytes, sizeof bytes, true, &told) != JILLAPUN_OK)
            return 1;
        fwrite(bytes, 1, told.written, stdout);
        at += told.read;
        had_unmappable |= told.had_unmappable;
    } while (told.outcome == JILLAPUN_OUTPUT_FULL);
    fputs(had_unmappable ? "a character has no bytes in windows-1252\n" : "", stderr);
    return 0;
}
