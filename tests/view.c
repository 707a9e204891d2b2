/* Views the image on standard input at the label of the first argument and the tick of the second, and prints the
 * listing or the refusal as the program `viewing` does. */
#include "jennydusk.h"

#include <stdio.h>
#include <stdlib.h>

#define MOST_WORDS 2048
#define MOST_TEXT 65535

static uint8_t text[MOST_TEXT + 1], labels[MOST_WORDS], output[MOST_TEXT + 1];
static uint32_t words[MOST_WORDS];

int main(int count, char **arguments) {
    if (count != 3)
        return 2;
    size_t length = fread(text, 1, sizeof text, stdin);
    uint64_t answer = jennydusk_view(text, length, (uint8_t)atoi(arguments[1]), strtoull(arguments[2], NULL, 10), words,
                                     MOST_WORDS, labels, MOST_WORDS, output, sizeof output);
    if (JENNYDUSK_NUMBER(answer) != JENNYDUSK_DONE)
        printf("X,%u,%zu\n", JENNYDUSK_NUMBER(answer), JENNYDUSK_COUNT(answer));
    else
        fwrite(output, 1, JENNYDUSK_COUNT(answer), stdout);
    return 0;
}
