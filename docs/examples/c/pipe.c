/* Converts standard input to standard output by their descriptors, and says on standard error what was lost:
   pipe FROM TO [INDEX..] < input > output, where INDEX is the path of an index text that an encoding needs.
   The exit status is the verdict: 0 if nothing was lost, 1 if something was, and 2 if not all was converted. */
#define _POSIX_C_SOURCE 200809L
#include <jillapun.h>
#include <stdio.h>
#include <string.h>
#include <unistd.h>

/* Loads index texts, each from a file of its own name. */
static jillapun_status load(int count, char **paths, jillapun_tables *tables) {
    static uint8_t texts[4][1 << 20];
    jillapun_index_file files[4];
    jillapun_index_fault fault;
    for (int i = 0; i < count; i++) {
        const char *slash = strrchr(paths[i], '/'), *name = slash ? slash + 1 : paths[i];
        FILE *file = fopen(paths[i], "rb");
        if (!file)
            return JILLAPUN_NOT_READY;
        files[i].name = (jillapun_bytes){(const uint8_t *)name, strlen(name)};
        files[i].text = (jillapun_bytes){texts[i], fread(texts[i], 1, sizeof texts[i], file)};
        fclose(file);
    }
    return jillapun_tables_new(files, count, tables, &fault);
}

/* Writes so many bytes to standard output, and returns whether that could be done. */
static bool put(const uint8_t *bytes, size_t len) {
    while (len > 0) {
        ssize_t written = write(STDOUT_FILENO, bytes, len);
        if (written < 0)
            return false;
        bytes += written, len -= written;
    }
    return true;
}

/* Converts the input to its end. Returns the last status, JILLAPUN_GOES_ON if a read or a write failed. */
static jillapun_status convert(jillapun_converter *converter) {
    static uint8_t chunk[1 << 14], output[1 << 16];
    static jillapun_loss losses[256];
    jillapun_converter_progress told = {0};
    jillapun_report report;
    jillapun_status status;
    bool last = false;
    size_t len = 0, at = 0;
    do {
        if (at == len && !last && !told.wants_room) {
            ssize_t count = read(STDIN_FILENO, chunk, sizeof chunk);
            if (count < 0)
                return JILLAPUN_GOES_ON;
            len = count, at = 0, last = count == 0;
        }
        status = jillapun_converter_step(converter, chunk + at, len - at, last, output, sizeof output,
            losses, sizeof losses / sizeof *losses, &told, &report);
        at += told.read;
        if (!put(output, told.written))
            return JILLAPUN_GOES_ON;
        for (size_t i = 0; i < told.losses; i++)
            fprintf(stderr, "%s %llu %u\n", losses[i].kind == JILLAPUN_BAD ? "bad" : "lost",
                (unsigned long long)losses[i].place, (unsigned)losses[i].number);
    } while (status == JILLAPUN_GOES_ON);
    return status;
}

int main(int argc, char **argv) {
    static jillapun_tables tables; /* {0}, as all that is static */
    jillapun_converter converter = {0};
    if (argc < 3 || argc > 7 || load(argc - 3, argv + 3, &tables) != JILLAPUN_OK)
        return 2;
    uint8_t from = jillapun_for_label((const uint8_t *)argv[1], strlen(argv[1]));
    uint8_t to = jillapun_for_label((const uint8_t *)argv[2], strlen(argv[2]));
    if (jillapun_converter_new(tables, from, to, JILLAPUN_SNIFF, JILLAPUN_DECIMAL, UINT64_MAX, &converter))
        return 2;
    jillapun_status status = convert(&converter);
    return status == JILLAPUN_OK ? 0 : status == JILLAPUN_LOSSY ? 1 : 2;
}
