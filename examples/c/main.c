/* Loads a small image, runs it and prints the listing, if whoever reads it may learn all that it shows. */
#include "jennydusk.h"

#include <stdio.h>

#define SIZE 8
#define REGISTERS 16
#define READER 0 /* the label of the output: nobody need trust it, and it holds nobody's secrets */

static const char image[] = "M,8,7,0,240,240,100\n"
                            "W,0,240,17825797\n"
                            "W,1,240,34672640\n"
                            "W,2,240,369098752\n";

/* The join of the pc label and the labels of all registers. */
static uint8_t label_of_record(const uint64_t *record) {
    uint8_t all = (uint8_t)record[JENNYDUSK_PC_LABEL];
    for (int k = 0; k < REGISTERS; k++)
        all = jennydusk_join(all, (uint8_t)record[JENNYDUSK_LABEL(k)]);
    return all;
}

/* The join of the labels of all words. */
static uint8_t label_of_memory(const uint8_t *labels) {
    uint8_t all = JENNYDUSK_LOWEST;
    for (int k = 0; k < SIZE; k++)
        all = jennydusk_join(all, labels[k]);
    return all;
}

int main(void) {
    uint64_t record[JENNYDUSK_SPAN] = {0};
    uint32_t words[SIZE] = {0};
    uint8_t labels[SIZE] = {0};
    uint8_t output[1024];

    uint64_t answer = jennydusk_load((const uint8_t *)image, sizeof image - 1, words, SIZE, labels, SIZE, record, JENNYDUSK_SPAN);
    if (answer == JENNYDUSK_DONE)
        answer = jennydusk_run(record, JENNYDUSK_SPAN, words, SIZE, labels, SIZE);
    if (answer == JENNYDUSK_DONE)
        answer = jennydusk_print(record, JENNYDUSK_SPAN, words, SIZE, labels, SIZE, output, sizeof output);
    if (JENNYDUSK_NUMBER(answer) != JENNYDUSK_DONE) {
        printf("X,%u,%zu\n", JENNYDUSK_NUMBER(answer), JENNYDUSK_COUNT(answer));
        return 1;
    }
    if (!jennydusk_flows(jennydusk_join(label_of_record(record), label_of_memory(labels)), READER)) {
        fputs("the listing holds secrets\n", stderr);
        return 1;
    }
    fwrite(output, 1, JENNYDUSK_COUNT(answer), stdout);
    return 0;
}
