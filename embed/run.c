/* Checks a HEX file against a certificate, and prints what the command prints:
 *     cc -o run run.c libuzebox_c.a && ./run ring.hex ring.cert */
#include "uzebox.h"
#include <stdio.h>
#include <stdlib.h>
#include <string.h>

static uint8_t words[1 << 26], files[1 << 26], answer[1 << 26], bytes[1 << 25];

/* Puts a text behind others: eight bytes of its length with the low one first, and the text. */
static size_t put(uint8_t *texts, size_t at, const void *text, size_t length) {
    if (length + 8 > sizeof words - at)
        exit(70);
    for (int k = 0; k < 8; k++)
        texts[at + k] = (uint8_t)((uint64_t)length >> 8 * k);
    memcpy(texts + at + 8, text, length);
    return at + 8 + length;
}

int main(int count, char **names) {
    size_t words_length = put(words, 0, "check", 5), files_length = 0;
    for (int k = 1; k < count; k++) {
        FILE *file = fopen(names[k], "rb");
        size_t length = file ? fread(bytes, 1, sizeof bytes, file) : 0;
        words_length = put(words, words_length, names[k], strlen(names[k]));
        files_length = put(files, files_length, names[k], strlen(names[k]));
        files_length = put(files, files_length, bytes, length);
    }
    uzebox_ran ran = uzebox_run(words, words_length, files, files_length, answer, sizeof answer);
    if (ran.status >= UZEBOX_RUN_SHORT)
        return 70;
    fwrite(answer + 8, 1, answer[0] | answer[1] << 8 | answer[2] << 16, stdout); /* the first text is what is printed */
    return (int)ran.status;
}
