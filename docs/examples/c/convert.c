/* Converts standard input in memory, and says on standard error what was lost:
   convert FROM TO [INDEX..] < input > output, where INDEX is the path of an index text that an encoding needs. */
#include <jillapun.h>
#include <stdio.h>
#include <string.h>

/* Loads index texts, each from a file of its own name. */
static jillapun_status load(int count, char **paths, jillapun_tables *tables) {
    static uint8_t texts[2][1 << 20];
    jillapun_index_file files[2];
    jillapun_index_fault fault;
    for (int i = 0; i < count; i++) {
        const char *slash = strrchr(paths[i], '/'), *name = slash ? slash + 1 : paths[i];
        FILE *file = fopen(paths[i], "rb");
        if (!file)
            return JILLAPUN_NOT_READY;
        files[i].name = (jillapun_bytes){(const uint8_t *)name, strlen(name)};
        files[i].text = (jillapun_bytes){texts[i], fread(texts[i], 1, sizeof texts[i], file)};
        fclose(file);
    }
    return jillapun_tables_new(files, count, tables, &fault);
}

int main(int argc, char **argv) {
    static uint8_t input[1 << 16], output[1 << 20];
    static jillapun_loss losses[1 << 16];
    static jillapun_tables tables; /* {0}, as all that is static */
    jillapun_report told;
    if (argc < 3 || argc > 5 || load(argc - 3, argv + 3, &tables) != JILLAPUN_OK)
        return 1;
    uint8_t from = jillapun_for_label((const uint8_t *)argv[1], strlen(argv[1]));
    uint8_t to = jillapun_for_label((const uint8_t *)argv[2], strlen(argv[2]));
    size_t len = fread(input, 1, sizeof input, stdin);
    if (len == sizeof input) /* perhaps there is more: pipe.c converts any input */
        return 1;
    jillapun_status status = jillapun_convert(tables, from, to, JILLAPUN_SNIFF, JILLAPUN_DECIMAL, UINT64_MAX,
        input, len, output, sizeof output, losses, 1 << 16, &told);
    if (status != JILLAPUN_OK && status != JILLAPUN_LOSSY)
        return 1;
    fwrite(output, 1, told.written, stdout);
    for (size_t i = 0; i < told.losses; i++)
        fprintf(stderr, "%s %llu %u\n", losses[i].kind == JILLAPUN_BAD ? "bad" : "lost",
            (unsigned long long)losses[i].place, (unsigned)losses[i].number);
    fputs(status == JILLAPUN_OK ? "nothing was lost\n" : "something was lost\n", stderr);
    return 0;
}
