/* Decodes a stream in Shift_JIS chunk by chunk, and writes each malformed sequence with its offset. */
#include <jillapun.h>
#include <stdio.h>
#include <string.h>

int main(void) {
  /* Index texts are read from files, as indexes/index-jis0208.txt; this has two of their rows. */
  const char name[] = "index-jis0208.txt", rows[] = "292\t0x304B\n323\t0x306A\n";
  jillapun_index_file file = {{(const uint8_t *)name, strlen(name)}, {(const uint8_t *)rows, strlen(rows)}};
  static jillapun_tables tables; /* {0}, as all that is static */
  jillapun_decoder decoder = {0};
  jillapun_index_fault fault;
  uint8_t encoding = jillapun_for_label((const uint8_t *)"sjis", 4);
  if (jillapun_tables_new(&file, 1, &tables, &fault) != JILLAPUN_OK) return 1;
  if (jillapun_decoder_new(tables, encoding, JILLAPUN_REMOVE, &decoder) != JILLAPUN_OK) return 1;

  /* Two chunks: the first ends within a character, the second has a byte that begins none. */
  const uint8_t stream[] = {0x82, 0xA9, 0x82, 0xC8, 0xFF, 0x21};
  size_t ends[] = {3, 6}, at = 0, i = 0;
  while (i < 2) {
    uint8_t text[16];
    jillapun_progress did;
    if (jillapun_decoder_decode_to_utf8_without_replacement(
            &decoder, stream + at, ends[i] - at, text, sizeof text, i == 1, &did) != JILLAPUN_OK) return 1;
    at += did.read;
    printf("%.*s", (int)did.written, (const char *)text);
    if (did.outcome == JILLAPUN_MALFORMED)
      printf("\nmalformed: %d at %zu\n", did.malformed_length, at - did.malformed_after - did.malformed_length);
    else if (did.outcome == JILLAPUN_INPUT_EMPTY)
      i++;
  }
  printf("\n");
}
