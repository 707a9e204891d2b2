/* Certifies the image in the file that the second argument names, at the label of the first, and prints the certificate
 * or the refusal as the program `certifying` does. */
#include "jennydusk.h"

#include <stdio.h>
#include <stdlib.h>

#define MOST_WORDS 2048
#define MOST_TEXT 65535

static uint8_t text[MOST_TEXT + 1], labels[MOST_WORDS];
static uint32_t words[MOST_WORDS];
static uint64_t certificate[JENNYDUSK_CERTIFICATE_SPAN];

int main(int count, char **arguments) {
    FILE *file = count == 3 ? fopen(arguments[2], "rb") : NULL;
    if (!file)
        return 2;
    size_t length = fread(text, 1, sizeof text, file);
    fclose(file);
    uint64_t answer = jennydusk_certify((uint8_t)atoi(arguments[1]), text, length, words, MOST_WORDS, labels, MOST_WORDS,
                                        certificate, JENNYDUSK_CERTIFICATE_SPAN);
    if (JENNYDUSK_NUMBER(answer) != JENNYDUSK_DONE)
        printf("X,%u,%zu\n", JENNYDUSK_NUMBER(answer), JENNYDUSK_COUNT(answer));
    else
        printf("V,%llu,%llu,%llu\n", (unsigned long long)certificate[JENNYDUSK_CAUSE],
               (unsigned long long)certificate[JENNYDUSK_BREAK_TICK], (unsigned long long)certificate[JENNYDUSK_PLACE]);
    return 0;
}
