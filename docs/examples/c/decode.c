/* Decodes standard input to UTF-8, chunk by chunk, and says on standard error where it is malformed:
   decode LABEL [INDEX..] < input > output, where INDEX is the path of an index text that the encoding needs. */
#include <jillapun.h>
#include <stdio.h>
#include <string.h>

/* Loads index texts, each from a file of its own name. */
static jillapun_status load(int count, char **paths, jillapun_tables *tables) {
    static uint8_t texts[2][1 << 20];
    jillapun_index_file files[2];
    jillapun_index_fault fault;
    for (int i = 0; i < count; i++) {
        const char *slash = strrchr(paths[i], '/'), *name = slash ? slash + 1 : paths[i];
        FILE *file = fopen(paths[i], "rb");
        if (!file)
            return JILLAPUN_NOT_READY;
        files[i].name = (jillapun_bytes){(const uint8_t *)name, strlen(name)};
        files[i].text = (jillapun_bytes){texts[i], fread(texts[i], 1, sizeof texts[i], file)};
        fclose(file);
    }
    return jillapun_tables_new(files, count, tables, &fault);
}

int main(int argc, char **argv) {
    static jillapun_tables tables; /* {0}, as all that is static */
    jillapun_decoder decoder = {0};
    if (argc < 2 || argc > 4 || load(argc - 2, argv + 2, &tables) != JILLAPUN_OK)
        return 1;
    uint8_t encoding = jillapun_for_label((const uint8_t *)argv[1], strlen(argv[1]));
    if (jillapun_decoder_new(tables, encoding, JILLAPUN_SNIFF, &decoder) != JILLAPUN_OK)
        return 1;
    uint8_t chunk[8], text[64]; /* so small to show that any size serves */
    unsigned long long before = 0;
    for (bool last = false; !last;) {
        size_t len = fread(chunk, 1, sizeof chunk, stdin), at = 0;
        jillapun_progress told;
        last = len < sizeof chunk;
        do {
            jillapun_decoder_decode_to_utf8_without_replacement(
                &decoder, chunk + at, len - at, text, sizeof text, last, &told);
            fwrite(text, 1, told.written, stdout);
            at += told.read;
            if (told.outcome == JILLAPUN_MALFORMED) {
                fputs("\xEF\xBF\xBD", stdout);
                fprintf(stderr, "%d malformed at byte %llu\n", told.malformed_length,
                    before + at - told.malformed_after - told.malformed_length);
            }
        } while (told.outcome != JILLAPUN_INPUT_EMPTY);
        before += len;
    }
    return 0;
}
