/* Loads a small image from Intel HEX, runs it and prints the listing. The words are those of main.c. */
#include "jennydusk.h"

#include <inttypes.h>
#include <stdio.h>

#define SIZE 8

static const char machine[] = "M,8,7,0,240,240,100\n";
static const char hex[] = ":0C000000050010010010110200000016A5\n"
                          ":00000001FF\n";

int main(void) {
    uint64_t record[JENNYDUSK_SPAN] = {0}, line = 0;
    uint32_t words[SIZE] = {0};
    uint8_t labels[SIZE] = {0};
    uint8_t output[1024];

    uint64_t answer = jennydusk_load_hex((const uint8_t *)machine, sizeof machine - 1, (const uint8_t *)hex, sizeof hex - 1,
                                         JENNYDUSK_LOWEST, words, SIZE, labels, SIZE, record, JENNYDUSK_SPAN, &line);
    if (answer == JENNYDUSK_DONE)
        answer = jennydusk_run(record, JENNYDUSK_SPAN, words, SIZE, labels, SIZE);
    if (answer == JENNYDUSK_DONE)
        answer = jennydusk_print(record, JENNYDUSK_SPAN, words, SIZE, labels, SIZE, output, sizeof output);
    if (JENNYDUSK_NUMBER(answer) != JENNYDUSK_DONE) {
        printf("X,%u,%" PRIu64 "\n", JENNYDUSK_NUMBER(answer), line);
        return 1;
    }
    fwrite(output, 1, JENNYDUSK_COUNT(answer), stdout);
    return 0;
}
