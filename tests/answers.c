/* Calls the library on buffers that it must refuse, and sees that they are left; loads from HEX; sees that register 0
 * stays; runs to ticks, and has listed what a label sees there; has certificates made with each cause; tries its label
 * rules on every label, beside those of document 01 as they are written here; and tries every pair as a gate's. Prints
 * what went wrong. */
#include "jennydusk.h"

#include <stdio.h>
#include <string.h>

#define SIZE 2
#define ROOM 128

static uint64_t record[JENNYDUSK_SPAN + 1], record_before[JENNYDUSK_SPAN + 1];
static uint32_t words[SIZE], words_before[SIZE];
static uint8_t labels[SIZE], labels_before[SIZE], output[ROOM], output_before[ROOM];
static uint64_t certificate[JENNYDUSK_CERTIFICATE_SPAN + 1], certificate_before[JENNYDUSK_CERTIFICATE_SPAN + 1];
static int wrong;

static void keep(void) {
    memcpy(record_before, record, sizeof record);
    memcpy(words_before, words, sizeof words);
    memcpy(labels_before, labels, sizeof labels);
    memcpy(output_before, output, sizeof output);
    memcpy(certificate_before, certificate, sizeof certificate);
}

/* The answer is the one that is wanted; where it is a refusal, all is left. */
static void expect(const char *what, uint64_t answer, unsigned number, size_t count) {
    int left = !memcmp(record_before, record, sizeof record) && !memcmp(words_before, words, sizeof words)
        && !memcmp(labels_before, labels, sizeof labels) && !memcmp(output_before, output, sizeof output)
        && !memcmp(certificate_before, certificate, sizeof certificate);
    if (JENNYDUSK_NUMBER(answer) != number || JENNYDUSK_COUNT(answer) != count || (number != JENNYDUSK_DONE && !left)) {
        printf("%s: number %u, count %zu%s\n", what, JENNYDUSK_NUMBER(answer), JENNYDUSK_COUNT(answer), left ? "" : ", changed");
        wrong = 1;
    }
    keep();
}

static uint64_t load(const char *text, size_t size, size_t span) {
    return jennydusk_load((const uint8_t *)text, strlen(text), words, size, labels, size, record, span);
}

static uint64_t step(size_t size, size_t span) { return jennydusk_step(record, span, words, size, labels, size); }

static uint64_t run(size_t span) { return jennydusk_run(record, span, words, SIZE, labels, SIZE); }

static uint64_t run_to(uint64_t tick, size_t size, size_t span) {
    return jennydusk_run_to(record, span, words, size, labels, size, tick);
}

static uint64_t print(size_t length, size_t span) {
    return jennydusk_print(record, span, words, SIZE, labels, SIZE, output, length);
}

static uint64_t print_for(uint8_t label, size_t size, size_t length, size_t span) {
    return jennydusk_print_for(record, span, words, size, labels, size, label, output, length);
}

static uint64_t view(const char *text, uint8_t label, uint64_t tick, size_t size, size_t length) {
    return jennydusk_view((const uint8_t *)text, strlen(text), label, tick, words, size, labels, size, output, length);
}

static const char image[] = "M,2,1,0,240,240,5\nW,0,240,17825797\n"; /* Ra := 5, and no op behind it */
static const char zero_line[] = "M,2,1,0,240,240,5\nR,0,240,0\n"; /* it says what register 0 is without it */
static const char gate_line[] = "M,2,1,0,240,240,5\nG,0,1,1\n"; /* 1 is not sound */

/* The table's refusals of a load; no call has written yet. */
static void try_refused_loads(void) {
    memset(record, 1, sizeof record);
    memset(words, 2, sizeof words);
    memset(labels, 3, sizeof labels);
    memset(output, 4, sizeof output);
    keep();
    expect("empty text", load("", SIZE, JENNYDUSK_SPAN), JENNYDUSK_TEXT_LENGTH, 0);
    expect("bad line", load("M,2,1,0,240,240,5\nW,0,240\n", SIZE, JENNYDUSK_SPAN), JENNYDUSK_MALFORMED, 2);
    expect("not rising", load("M,2,1,0,240,240,5\nW,1,240,1\nW,0,240,1\n", SIZE, JENNYDUSK_SPAN), JENNYDUSK_ORDER, 3);
    expect("line for register 0", load(zero_line, SIZE, JENNYDUSK_SPAN), JENNYDUSK_ZERO_REGISTER, 2);
    expect("gate pair not valid", load(gate_line, SIZE, JENNYDUSK_SPAN), JENNYDUSK_GATE_PAIR, 2);
    expect("short words before the gate", load(gate_line, SIZE - 1, JENNYDUSK_SPAN), JENNYDUSK_SHORT_MEMORY, 1);
    expect("short words", load(image, SIZE - 1, JENNYDUSK_SPAN), JENNYDUSK_SHORT_MEMORY, 1);
    expect("step of no record", step(SIZE, JENNYDUSK_SPAN), JENNYDUSK_NO_RECORD, 0);
}

/* A record buffer of this many words is too short for each of the calls, whatever else they are given. */
static void try_short_buffer(size_t span) {
    expect("load to a short buffer", load(image, SIZE, span), JENNYDUSK_SHORT_BUFFER, 0);
    expect("load of no text to a short buffer", load("", 0, span), JENNYDUSK_SHORT_BUFFER, 0);
    expect("step of a short buffer", step(SIZE, span), JENNYDUSK_SHORT_BUFFER, 0);
    expect("step of a short buffer and no words", step(0, span), JENNYDUSK_SHORT_BUFFER, 0);
    expect("run of a short buffer", run(span), JENNYDUSK_SHORT_BUFFER, 0);
    expect("run of a short buffer to a tick", run_to(9, SIZE, span), JENNYDUSK_SHORT_BUFFER, 0);
    expect("run of a short buffer and no words to a tick", run_to(9, 0, span), JENNYDUSK_SHORT_BUFFER, 0);
    expect("print of a short buffer for a label", print_for(240, 0, 0, span), JENNYDUSK_SHORT_BUFFER, 0);
    expect("print of a short buffer", print(sizeof output, span), JENNYDUSK_SHORT_BUFFER, 0);
    expect("print of a short buffer to no output", print(0, span), JENNYDUSK_SHORT_BUFFER, 0);
}

/* An image is loaded, stepped, printed and run. Buffers too short are tried where they hold the start of a record. */
static void try_calls(void) {
    expect("load", load(image, SIZE, JENNYDUSK_SPAN + 1), JENNYDUSK_DONE, 0);
    try_short_buffer(JENNYDUSK_SPAN - 1);
    try_short_buffer(0);
    expect("step of short words", step(SIZE - 1, JENNYDUSK_SPAN), JENNYDUSK_SHORT_MEMORY, 0);
    expect("step", step(SIZE, JENNYDUSK_SPAN), JENNYDUSK_DONE, 0);
    if (record[JENNYDUSK_VALUE(1)] != 5 || record[JENNYDUSK_PC] != 1 || record[JENNYDUSK_CLOCK] != 1
        || record[JENNYDUSK_SPAN] != 0x0101010101010101)
        wrong = 1, puts("step: another record");
    expect("short output", print(8, JENNYDUSK_SPAN), JENNYDUSK_SHORT_OUTPUT, 0);
    expect("print", print(sizeof output, JENNYDUSK_SPAN), JENNYDUSK_DONE,
           strlen("E,0,0,1,1,240,240\nR,1,240,5\nW,0,240,17825797\n"));
    expect("run", run(JENNYDUSK_SPAN), JENNYDUSK_DONE, 0);
    if (record[JENNYDUSK_END] != JENNYDUSK_STALLED || record[JENNYDUSK_WHY] != JENNYDUSK_WHY_OP)
        wrong = 1, puts("run: another end");
}

/* ---- HEX */

#define LINE 77 /* no line that a call gives here */
#define CODE ":0400000005001001E6\n" /* word 0, Ra := 5 */
#define END ":00000001FF\n"

static uint64_t line;
static const char machine[] = "M,2,1,0,240,240,5\n";

static uint64_t load_hex(const char *text, const char *hex, size_t words_length, size_t labels_length, size_t span) {
    line = LINE;
    return jennydusk_load_hex((const uint8_t *)text, strlen(text), (const uint8_t *)hex, strlen(hex), 34, words,
                              words_length, labels, labels_length, record, span, &line);
}

/* The number is all of the answer, and the line is this one. */
static void expect_line(const char *what, uint64_t answer, unsigned number, uint64_t wanted) {
    if (line != wanted)
        wrong = 1, printf("%s: line %llu\n", what, (unsigned long long)line);
    expect(what, answer, number, 0);
}

/* A HEX text that is refused beside an M text that isn't. */
static void expect_refused(const char *what, const char *hex, unsigned number, uint64_t wanted) {
    expect_line(what, load_hex(machine, hex, SIZE, SIZE, JENNYDUSK_SPAN), number, wanted);
}

/* Refusals of the M text, whatever the HEX text is, and buffers that are too short, in the order in which they count. */
static void try_refused_machines(void) {
    size_t span = JENNYDUSK_SPAN;
    expect_line("HEX without M text", load_hex("", "x", 0, 0, span), JENNYDUSK_TEXT_LENGTH, 0);
    expect_line("HEX with no M line", load_hex("W,0,240,1\n", "x", 0, 0, span), JENNYDUSK_MALFORMED, 1);
    expect_line("HEX with an M line without LF", load_hex("M,2,1,0,240,240,5", END, SIZE, SIZE, span), JENNYDUSK_MALFORMED, 1);
    expect_line("HEX with a bad label", load_hex("M,2,1,0,240,256,5\nx", "x", 0, 0, span), JENNYDUSK_RANGE, 1);
    expect_line("HEX with no valid pair", load_hex("M,2,1,0,15,15,5\nx", "x", 0, 0, span), JENNYDUSK_PAIR, 1);
    expect_line("HEX in short words", load_hex("M,2,1,0,240,240,5\nx", "x", SIZE - 1, SIZE, span), JENNYDUSK_SHORT_MEMORY, 1);
    expect_line("HEX in short labels", load_hex(machine, END, SIZE, SIZE - 1, span), JENNYDUSK_SHORT_MEMORY, 1);
    expect_line("HEX with a second line", load_hex("M,2,1,0,240,240,5\nx", "x", SIZE, SIZE, span), JENNYDUSK_ORDER, 2);
    expect_line("HEX with an image", load_hex(image, CODE END, SIZE, SIZE, span), JENNYDUSK_ORDER, 2);
    expect_line("HEX to a short buffer", load_hex(machine, CODE END, SIZE, SIZE, span - 1), JENNYDUSK_SHORT_BUFFER, LINE);
    expect_line("nothing to a short buffer", load_hex("", "", 0, 0, span - 1), JENNYDUSK_SHORT_BUFFER, LINE);
    expect_line("HEX to no buffer", load_hex(machine, "x", SIZE, SIZE, 0), JENNYDUSK_SHORT_BUFFER, LINE);
}

static void try_refused_hex(void) {
    expect_refused("no HEX", "", JENNYDUSK_HEX_RECORD, 1);
    expect_refused("no end", CODE, JENNYDUSK_HEX_RECORD, 2);
    expect_refused("an end without LF", CODE ":00000001FF", JENNYDUSK_HEX_RECORD, 2);
    expect_refused("more behind the end", CODE END "\n", JENNYDUSK_HEX_RECORD, 3);
    expect_refused("a wrong sum", ":0400000005001001E7\n" END, JENNYDUSK_HEX_RECORD, 1);
    expect_refused("another type", CODE ":020000040000FA\n" END, JENNYDUSK_HEX_RECORD, 2);
    expect_refused("a record that says too much", ":0300000005001001E7\n" END, JENNYDUSK_HEX_RECORD, 1);
    expect_refused("a byte twice", CODE ":0100030000FC\n" END, JENNYDUSK_HEX_BYTE, 2);
    expect_refused("a byte outside", ":020007000000F7\n", JENNYDUSK_HEX_BYTE, 1);
    expect_refused("a byte behind 65535", CODE ":02FFFF00000000\n" END, JENNYDUSK_HEX_BYTE, 2);
    expect_refused("a byte outside, with a wrong sum", ":0100080000F6\n", JENNYDUSK_HEX_RECORD, 1);
}

struct memory {
    uint32_t words[SIZE];
    uint8_t labels[SIZE];
};

/* An accepted image leaves this memory, and the record that load gives for the M text; what lies behind that is left. */
static void expect_loaded(const char *what, const char *text, const char *hex, struct memory wanted) {
    uint64_t loaded[JENNYDUSK_SPAN + 1];
    memset(record, 1, sizeof record);
    memset(words, 2, sizeof words);
    memset(labels, 3, sizeof labels);
    expect_line(what, load_hex(text, hex, SIZE, SIZE, JENNYDUSK_SPAN + 1), JENNYDUSK_DONE, 0);
    if (memcmp(words, wanted.words, sizeof words) || memcmp(labels, wanted.labels, sizeof labels))
        wrong = 1, printf("%s: another memory\n", what);
    memcpy(loaded, record, sizeof record);
    load(text, SIZE, JENNYDUSK_SPAN);
    if (memcmp(loaded, record, sizeof record) || record[JENNYDUSK_SPAN] != 0x0101010101010101)
        wrong = 1, printf("%s: another record\n", what);
    keep();
}

static void try_hex(void) {
    expect_loaded("no bytes", machine, END, (struct memory){{0, 0}, {240, 240}});
    expect_loaded("a word", machine, CODE END, (struct memory){{17825797, 0}, {34, 240}});
    expect_loaded("a byte", machine, ":01000600fFfA\r\n" END, (struct memory){{0, 0xFF0000}, {240, 34}});
    expect_loaded("bytes of 0", machine, ":0100070000F8\n:0100000000FF\n:00FFFF0002\n:00123401B9\r\n",
                  (struct memory){{0, 0}, {34, 34}});
    expect_loaded("memory beyond the size", "M,1,0,0,240,240,5\n", CODE END, (struct memory){{17825797, 0x02020202}, {34, 3}});
}

/* ---- register 0 */

/* Word 0 sets R0 to 5, and takes its tick alone. */
static void try_zero_register(void) {
    expect("load", load("M,2,1,0,240,240,5\nW,0,240,16777221\n", SIZE, JENNYDUSK_SPAN), JENNYDUSK_DONE, 0);
    expect("step that would write register 0", step(SIZE, JENNYDUSK_SPAN), JENNYDUSK_DONE, 0);
    if (record[JENNYDUSK_VALUE(0)] != 0 || record[JENNYDUSK_LABEL(0)] != JENNYDUSK_LOWEST || record[JENNYDUSK_PC] != 1
        || record[JENNYDUSK_CLOCK] != 1)
        wrong = 1, puts("step that would write register 0: another record");
}

/* A fit record, but for one word of register 0, is refused by each call. */
static void try_other_zero_register(size_t word, uint64_t other) {
    uint64_t own = record[word];
    record[word] = other;
    keep();
    expect("step of another register 0", step(SIZE, JENNYDUSK_SPAN), JENNYDUSK_NO_RECORD, 0);
    expect("run of another register 0", run(JENNYDUSK_SPAN), JENNYDUSK_NO_RECORD, 0);
    expect("run of another register 0 to a tick", run_to(9, 0, JENNYDUSK_SPAN), JENNYDUSK_NO_RECORD, 0);
    expect("print of another register 0 for a label", print_for(240, 0, 0, JENNYDUSK_SPAN), JENNYDUSK_NO_RECORD, 0);
    expect("print of another register 0", print(sizeof output, JENNYDUSK_SPAN), JENNYDUSK_NO_RECORD, 0);
    record[word] = own;
    keep();
}

/* Words that are no record, in a buffer that is long enough. */
static void try_no_records(void) {
    try_other_zero_register(JENNYDUSK_VALUE(0), 1);
    try_other_zero_register(JENNYDUSK_LABEL(0), 255);
    record[JENNYDUSK_CALL(0)] = 3;
    keep();
    expect("unknown kind", print(sizeof output, JENNYDUSK_SPAN), JENNYDUSK_NO_RECORD, 0);
    record[JENNYDUSK_CALL(0)] = JENNYDUSK_EMPTY;
    record[JENNYDUSK_LABEL(2)] = 256;
    keep();
    expect("label out of range", step(SIZE, JENNYDUSK_SPAN), JENNYDUSK_NO_RECORD, 0);
}

/* ---- views */

/* Word 0 stores R2 into word 1 in three ticks. That is no op, so the run comes back to word 0 and stores again, until it
 * may not: 3, 4, 7 and 8 are the clocks of its steps. */
static const char store[] = "M,2,0,0,240,240,9\nR,1,240,1\nR,2,240,7\nR,3,255,5\nW,0,240,169934848\n";
#define LISTED "R,1,240,1\nR,2,240,7\nW,0,240,169934848\n"

/* The output begins with this listing, and what lies behind it is left; word 1 is this one. */
static void expect_listing(const char *what, uint64_t answer, const char *listing, uint32_t second) {
    size_t length = strlen(listing);
    int good = answer == JENNYDUSK_DONE + 256 * (uint64_t)length && !memcmp(output, listing, length)
        && !memcmp(output + length, output_before + length, sizeof output - length);
    if (!good || words[0] != 169934848 || words[1] != second || labels[0] != 240 || labels[1] != 240)
        wrong = 1, printf("%s: another answer, listing or memory\n", what);
    keep();
}

/* A refusal that leaves the output, with word 1 as the run has it then. */
static void expect_memory(const char *what, uint64_t answer, unsigned number, size_t count, uint32_t second) {
    if (JENNYDUSK_NUMBER(answer) != number || JENNYDUSK_COUNT(answer) != count
        || memcmp(output_before, output, sizeof output) || words[0] != 169934848 || words[1] != second)
        wrong = 1, printf("%s: number %u, count %zu, or another memory or output\n", what, JENNYDUSK_NUMBER(answer),
                          JENNYDUSK_COUNT(answer));
    keep();
}

/* A call that is carried out, and does nothing. */
static void expect_idle(const char *what, uint64_t answer) {
    if (memcmp(record_before, record, sizeof record) || memcmp(words_before, words, sizeof words))
        wrong = 1, printf("%s: it does something\n", what);
    expect(what, answer, JENNYDUSK_DONE, 0);
}

/* The load's refusals come first, whatever the tick and the output, and leave all. */
static void try_refused_views(void) {
    memset(output, 4, sizeof output);
    keep();
    expect("view of no text", view("", 240, UINT64_MAX, SIZE, 0), JENNYDUSK_TEXT_LENGTH, 0);
    expect("view of a bad line", view("M,2,1,0,240,240,5\nW,0,240\n", 240, 6, SIZE, 0), JENNYDUSK_MALFORMED, 2);
    expect("view of a bad label", view("M,2,1,0,240,256,5\n", 240, 0, SIZE, 0), JENNYDUSK_RANGE, 1);
    expect("view of no valid pair", view("M,2,1,0,15,15,5\n", 240, 6, SIZE, ROOM), JENNYDUSK_PAIR, 1);
    expect("view of a line for register 0", view(zero_line, 240, 6, SIZE, 0), JENNYDUSK_ZERO_REGISTER, 2);
    expect("view of a gate pair not valid", view(gate_line, 240, 6, SIZE, 0), JENNYDUSK_GATE_PAIR, 2);
    expect("view in short memory", view(store, 240, 10, SIZE - 1, 0), JENNYDUSK_SHORT_MEMORY, 1);
}

/* A tick above the limit, then an output that is too short. */
static void try_views(void) {
    expect_listing("view before the store", view(store, 240, 2, SIZE, ROOM), "E,0,0,0,0,240,240\n" LISTED, 0);
    expect_listing("view after it", view(store, 240, 3, SIZE, ROOM), "E,0,0,3,1,240,240\n" LISTED "W,1,240,7\n", 7);
    expect_listing("view below the limit", view(store, 240, 8, SIZE, ROOM), "E,0,0,8,0,240,240\n" LISTED "W,1,240,7\n", 7);
    expect_listing("view at the limit", view(store, 240, 9, SIZE, ROOM), "E,2,0,9,0,240,240\n" LISTED "W,1,240,7\n", 7);
    expect_memory("view above the limit", view(store, 240, 10, SIZE, 0), JENNYDUSK_TICK, 9, 0);
    expect_memory("view at tick 2^32", view(store, 240, UINT64_C(1) << 32, SIZE, ROOM), JENNYDUSK_TICK, 9, 0);
    size_t length = strlen("E,0,0,3,1,240,240\n" LISTED "W,1,240,7\n");
    expect_memory("view to a short output", view(store, 240, 3, SIZE, length - 1), JENNYDUSK_SHORT_OUTPUT, 0, 7);
    expect_memory("view to no output", view(store, 240, 2, SIZE, 0), JENNYDUSK_SHORT_OUTPUT, 0, 0);
    expect_listing("view to just enough", view(store, 240, 3, SIZE, length), "E,0,0,3,1,240,240\n" LISTED "W,1,240,7\n", 7);
}

/* What is listed for a label, at the tick 0 of an image that stalls there, or for the highest one. */
static void try_viewers(void) {
    expect("view of a stall", view("M,1,0,0,240,240,5\n", 240, 0, SIZE, ROOM), JENNYDUSK_DONE, 18);
    if (memcmp(output, "E,3,3,0,0,240,240\n", 18))
        wrong = 1, puts("view of a stall: another listing");
    expect("view of what is hidden", view("M,1,0,0,255,255,5\n", 240, 0, SIZE, ROOM), JENNYDUSK_DONE, 2);
    if (memcmp(output, "H\n", 2))
        wrong = 1, puts("view of what is hidden: another listing");
    expect_listing("view for the highest label", view(store, JENNYDUSK_HIGHEST, 2, SIZE, ROOM),
                   "E,0,0,0,0,240,240\nR,1,240,1\nR,2,240,7\nR,3,255,5\nW,0,240,169934848\n", 0);
}

/* The same run by a record of its own, from tick to tick. */
static void try_run_to(void) {
    expect("load", load(store, SIZE, JENNYDUSK_SPAN), JENNYDUSK_DONE, 0);
    expect("run to a tick in short memory", run_to(9, SIZE - 1, JENNYDUSK_SPAN), JENNYDUSK_SHORT_MEMORY, 0);
    expect("print for a label of short memory", print_for(240, SIZE - 1, 0, JENNYDUSK_SPAN), JENNYDUSK_SHORT_MEMORY, 0);
    expect_idle("run to a tick before the first step's", run_to(2, SIZE, JENNYDUSK_SPAN));
    expect("print for a label to a short output", print_for(240, SIZE, 8, JENNYDUSK_SPAN), JENNYDUSK_SHORT_OUTPUT, 0);
    expect_listing("print for a label", print_for(240, SIZE, ROOM, JENNYDUSK_SPAN), "E,0,0,0,0,240,240\n" LISTED, 0);
    expect("run to a tick", run_to(3, SIZE, JENNYDUSK_SPAN), JENNYDUSK_DONE, 0);
    expect_idle("run to a tick that is past", run_to(0, SIZE, JENNYDUSK_SPAN));
    expect_listing("print for a label", print_for(240, SIZE, ROOM, JENNYDUSK_SPAN),
                   "E,0,0,3,1,240,240\n" LISTED "W,1,240,7\n", 7);
    expect("run to a tick above the limit", run_to(UINT64_MAX, SIZE, JENNYDUSK_SPAN), JENNYDUSK_DONE, 0);
    if (record[JENNYDUSK_END] != JENNYDUSK_CLOCK_SPENT || record[JENNYDUSK_CLOCK] != 9)
        wrong = 1, puts("run to a tick above the limit: another end");
    expect_listing("print for the highest label", print_for(JENNYDUSK_HIGHEST, SIZE, ROOM, JENNYDUSK_SPAN),
                   "E,2,0,9,0,240,240\nR,1,240,1\nR,2,240,7\nR,3,255,5\nW,0,240,169934848\nW,1,240,7\n", 7);
}

/* ---- certificates */

#define LEVEL 240 /* what is labelled 240 is within, 255 is outside */
#define MARGIN 0x0505050505050505

static uint64_t certify(const char *text, size_t words_length, size_t labels_length, size_t span) {
    return jennydusk_certify(LEVEL, (const uint8_t *)text, strlen(text), words, words_length, labels, labels_length,
                             certificate, span);
}

/* A text that is refused, and buffers of which one or more are too short. */
static void try_refused_certificates(void) {
    size_t span = JENNYDUSK_CERTIFICATE_SPAN;
    memset(certificate, 5, sizeof certificate);
    keep();
    expect("certify of no text", certify("", SIZE, SIZE, span), JENNYDUSK_TEXT_LENGTH, 0);
    expect("certify of a bad line", certify("M,2,1,0,240,240,5\nW,0,240\n", SIZE, SIZE, span), JENNYDUSK_MALFORMED, 2);
    expect("certify of a bad label", certify("M,2,1,0,240,256,5\n", SIZE, SIZE, span), JENNYDUSK_RANGE, 1);
    expect("certify out of order", certify("M,2,1,0,240,240,5\nW,1,240,1\nW,0,240,1\n", SIZE, SIZE, span), JENNYDUSK_ORDER, 3);
    expect("certify of a line for register 0", certify(zero_line, SIZE, SIZE, span), JENNYDUSK_ZERO_REGISTER, 2);
    expect("certify of a gate pair not valid", certify(gate_line, SIZE, SIZE, span), JENNYDUSK_GATE_PAIR, 2);
    expect("certify of no valid pair", certify("M,2,1,0,15,15,5\n", SIZE, SIZE, span), JENNYDUSK_PAIR, 1);
    expect("certify in short words", certify(image, SIZE - 1, SIZE, span), JENNYDUSK_SHORT_MEMORY, 1);
    expect("certify in short labels", certify(image, SIZE, SIZE - 1, span), JENNYDUSK_SHORT_MEMORY, 1);
    for (size_t length = 0; length < span; length++) {
        expect("certify to a short buffer", certify(image, SIZE, SIZE, length), JENNYDUSK_SHORT_BUFFER, 0);
        expect("certify of no text to a short buffer", certify("", SIZE, SIZE, length), JENNYDUSK_SHORT_BUFFER, 0);
        expect("certify in no memory to a short buffer", certify(image, 0, 0, length), JENNYDUSK_SHORT_BUFFER, 0);
    }
}

/* The certificate of an accepted text. What lies behind its words, lent or not, is left. */
static void expect_certificate(const char *what, const char *text, uint64_t cause, uint64_t tick, uint64_t place) {
    for (size_t more = 0; more < 2; more++) {
        memset(certificate, 5, sizeof certificate);
        expect(what, certify(text, SIZE, SIZE, JENNYDUSK_CERTIFICATE_SPAN + more), JENNYDUSK_DONE, 0);
        if (certificate[JENNYDUSK_CAUSE] != cause || certificate[JENNYDUSK_BREAK_TICK] != tick
            || certificate[JENNYDUSK_PLACE] != place || certificate[JENNYDUSK_CERTIFICATE_SPAN] != MARGIN)
            wrong = 1, printf("%s: another certificate\n", what);
    }
}

/* Each cause, and words and labels as the run to the end leaves them. */
static void try_certificates(void) {
    expect_certificate("no break", image, JENNYDUSK_NO_BREAK, 0, 0);
    if (words[0] != 17825797 || words[1] != 0 || labels[0] != 240 || labels[1] != 240)
        wrong = 1, puts("certify: another memory");
    /* Word 1 relabels R5 from 255 to what R3 holds. */
    expect_certificate("release", "M,2,0,1,240,240,5\nR,3,240,240\nR,5,255,7\nW,1,240,273874944\n", JENNYDUSK_RELEASE, 2, 1);
    expect_certificate("at large", "M,2,0,1,255,255,5\nG,0,240,240\n", JENNYDUSK_AT_LARGE, 0, 0);
    expect_certificate("timed from outside", "M,2,0,1,240,255,5\n", JENNYDUSK_TIMED_FROM_OUTSIDE, 0, 1);
    /* Word 0 stores R2 into word 1, behind the break of the loaded state. */
    expect_certificate("a run that goes on", "M,2,0,0,240,255,9\nR,1,240,1\nR,2,240,7\nW,0,240,169934848\n",
                       JENNYDUSK_TIMED_FROM_OUTSIDE, 0, 0);
    if (words[1] != 7)
        wrong = 1, puts("certify: the run did not go on behind the break");
}

/* ---- labels, as document 01 has them: "A label is a byte, i * 16 + c." */

#define LABELS 256

static unsigned trust(unsigned label) { return label / 16; }

static unsigned secrecy(unsigned label) { return label % 16; }

/* Every principal of the one set is in the other. */
static bool subset(unsigned one, unsigned other) {
    for (unsigned principal = 1; principal < 16; principal *= 2)
        if (one / principal % 2 > other / principal % 2)
            return false;
    return true;
}

/* "when i' is a subset of i and c a subset of c'" */
static bool flows(unsigned from, unsigned to) {
    return subset(trust(to), trust(from)) && subset(secrecy(from), secrecy(to));
}

/* "The join is (i and i', c or c')" */
static unsigned join(unsigned a, unsigned b) { return (trust(a) & trust(b)) * 16 + (secrecy(a) | secrecy(b)); }

/* "the meet is (i or i', c and c')" */
static unsigned meet(unsigned a, unsigned b) { return (trust(a) | trust(b)) * 16 + (secrecy(a) & secrecy(b)); }

/* "the reflection swaps i and c" */
static unsigned reflection(unsigned label) { return secrecy(label) * 16 + trust(label); }

/* "sound when c is a subset of i" */
static bool sound(unsigned label) { return subset(secrecy(label), trust(label)); }

/* "valid when p flows to t and both are sound" */
static bool valid(unsigned p, unsigned t) { return flows(p, t) && sound(p) && sound(t); }

static void expect_label(const char *what, unsigned a, unsigned b, unsigned answer, unsigned wanted) {
    if (answer == wanted)
        return;
    printf("%s of %u and %u: %u, not %u\n", what, a, b, answer, wanted);
    wrong = 1;
}

static void try_pair(unsigned a, unsigned b) {
    expect_label("flows", a, b, jennydusk_flows(a, b), flows(a, b));
    expect_label("join", a, b, jennydusk_join(a, b), join(a, b));
    expect_label("meet", a, b, jennydusk_meet(a, b), meet(a, b));
    expect_label("valid pair", a, b, jennydusk_is_valid_pair(a, b), valid(a, b));
}

static void try_label(unsigned a) {
    expect_label("reflection", a, a, jennydusk_reflection(a), reflection(a));
    expect_label("sound", a, a, jennydusk_is_sound(a), sound(a));
    expect_label("flow from the lowest", JENNYDUSK_LOWEST, a, jennydusk_flows(JENNYDUSK_LOWEST, a), true);
    expect_label("flow to the highest", a, JENNYDUSK_HIGHEST, jennydusk_flows(a, JENNYDUSK_HIGHEST), true);
}

static void try_labels(void) {
    for (unsigned a = 0; a < LABELS; a++)
        try_label(a);
    for (unsigned both = 0; both < LABELS * LABELS; both++)
        try_pair(both / LABELS, both % LABELS);
}

/* ---- gates: "A fit record now also has only valid gates." */

#define GATES 8

/* A record that isn't fit is refused by every call, before memory and output that are too short. */
static void expect_unfit(void) {
    expect("step with a bad gate", step(0, JENNYDUSK_SPAN), JENNYDUSK_NO_RECORD, 0);
    expect("run with a bad gate", run(JENNYDUSK_SPAN), JENNYDUSK_NO_RECORD, 0);
    expect("run with a bad gate to a tick", run_to(9, 0, JENNYDUSK_SPAN), JENNYDUSK_NO_RECORD, 0);
    expect("print with a bad gate", print(0, JENNYDUSK_SPAN), JENNYDUSK_NO_RECORD, 0);
    expect("print with a bad gate for a label", print_for(240, 0, 0, JENNYDUSK_SPAN), JENNYDUSK_NO_RECORD, 0);
}

/* A fit record that has ended stays as it is, and is listed. */
static void expect_fit(void) {
    size_t listed = strlen("E,3,3,0,1,240,240\n");
    expect_idle("step with gates", step(SIZE, JENNYDUSK_SPAN));
    expect_idle("run with gates", run(JENNYDUSK_SPAN));
    expect_idle("run with gates to a tick", run_to(9, SIZE, JENNYDUSK_SPAN));
    expect("print with gates", print(ROOM, JENNYDUSK_SPAN), JENNYDUSK_DONE, listed);
    expect("print with gates for a label", print_for(240, SIZE, ROOM, JENNYDUSK_SPAN), JENNYDUSK_DONE, listed);
}

/* The record of a run that has stalled, with so many gates, and the pair in one slot: below their number it must be valid,
 * and behind it may be any. */
static void try_gate(unsigned count, unsigned slot, unsigned p, unsigned t) {
    uint64_t *gate = &record[JENNYDUSK_GATE(slot)], own[] = {gate[1], gate[2]};
    record[JENNYDUSK_GATE_COUNT] = count;
    gate[1] = p;
    gate[2] = t;
    keep();
    if (slot >= count || valid(p, t))
        expect_fit();
    else
        expect_unfit();
    gate[1] = own[0];
    gate[2] = own[1];
}

/* Every slot with every number of gates. */
static void try_slots(unsigned p, unsigned t) {
    for (unsigned both = 0; both < GATES * (GATES + 1); both++)
        try_gate(both / GATES, both % GATES, p, t);
}

/* A G line is accepted where its pair is valid, and is 13 where it isn't. The record and the memory are then put back. */
static void try_gate_line(unsigned p, unsigned t) {
    char text[ROOM];
    uint64_t own[JENNYDUSK_SPAN + 1];
    memcpy(own, record, sizeof record);
    snprintf(text, sizeof text, "M,2,1,1,240,240,5\nG,0,%u,%u\n", p, t);
    keep();
    if (valid(p, t))
        expect("load of a gate", load(text, SIZE, JENNYDUSK_SPAN), JENNYDUSK_DONE, 0);
    else
        expect("load of a gate", load(text, SIZE, JENNYDUSK_SPAN), JENNYDUSK_GATE_PAIR, 2);
    memcpy(record, own, sizeof record);
}

static void try_gates(void) {
    expect("load", load("M,2,1,1,240,240,5\n", SIZE, JENNYDUSK_SPAN), JENNYDUSK_DONE, 0);
    expect("run", run(JENNYDUSK_SPAN), JENNYDUSK_DONE, 0);
    for (unsigned both = 0; both < LABELS * LABELS; both++) {
        unsigned p = both / LABELS, t = both % LABELS;
        try_gate_line(p, t);
        try_gate(GATES / 2, (p + t) % GATES, p, t);
    }
    try_slots(255, 240);
    try_slots(240, 15);
    try_slots(18, 18);
    try_slots(240, 255);
}

int main(void) {
    try_refused_loads();
    try_calls();
    try_refused_machines();
    try_refused_hex();
    try_hex();
    try_zero_register();
    try_no_records();
    try_refused_views();
    try_views();
    try_viewers();
    try_run_to();
    try_refused_certificates();
    try_certificates();
    try_labels();
    try_gates();
    return wrong;
}
