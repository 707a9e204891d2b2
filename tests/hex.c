/* Loads the M text in the file that the second argument names, with the HEX text on standard input and the label of the
 * first argument, runs it and prints the listing or the refusal as the program `hexfiring` does. */
#include "jennydusk.h"

#include <inttypes.h>
#include <stdio.h>
#include <stdlib.h>

#define MOST_WORDS 2048
#define MOST_TEXT 65535
#define MOST_HEX 1048576

static uint8_t text[MOST_TEXT + 1], hex[MOST_HEX], labels[MOST_WORDS], output[MOST_TEXT + 1];
static uint32_t words[MOST_WORDS];
static uint64_t record[JENNYDUSK_SPAN];

int main(int count, char **arguments) {
    FILE *file = count == 3 ? fopen(arguments[2], "rb") : NULL;
    if (!file)
        return 2;
    size_t text_length = fread(text, 1, sizeof text, file), hex_length = fread(hex, 1, sizeof hex, stdin);
    fclose(file);
    uint64_t line = 0;
    uint64_t answer = jennydusk_load_hex(text, text_length, hex, hex_length, (uint8_t)atoi(arguments[1]), words, MOST_WORDS,
                                         labels, MOST_WORDS, record, JENNYDUSK_SPAN, &line);
    if (answer != JENNYDUSK_DONE)
        return printf("X,%" PRIu64 ",%" PRIu64 "\n", answer, line) < 0;
    jennydusk_run(record, JENNYDUSK_SPAN, words, MOST_WORDS, labels, MOST_WORDS);
    answer = jennydusk_print(record, JENNYDUSK_SPAN, words, MOST_WORDS, labels, MOST_WORDS, output, sizeof output);
    fwrite(output, 1, JENNYDUSK_COUNT(answer), stdout);
    return 0;
}
