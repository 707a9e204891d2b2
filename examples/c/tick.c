/* Shows the run of an image to one label, tick by tick: the state at tick k when k has come, and not before.
 *
 * usage: tick IMAGE LABEL [MICROSECONDS]      MICROSECONDS: the length of a tick, 0 if not given
 *
 * Where what is listed for the label has changed, it writes the tick and the listing; a line H stands there while the
 * control is hidden. How many steps a stretch of ticks holds may be a secret, so each tick has one run, one listing and
 * one wait, until a time that no step decides, and writes after it. */
#define _POSIX_C_SOURCE 200809L
#include "jennydusk.h"

#include <stdbool.h>
#include <stdio.h>
#include <stdlib.h>
#include <string.h>
#include <time.h>

#define WORDS 2048
#define BYTES 65536 /* room for a text that load refuses as too long, and for every listing */
#define MICROSECOND 1000L
#define SECOND 1000000000L

struct state {
    uint64_t record[JENNYDUSK_SPAN];
    uint32_t words[WORDS];
    uint8_t labels[WORDS];
};

static void need(bool good, const char *what, const char *why) {
    if (good) return;
    fprintf(stderr, "tick: %s: %s\n", what, why);
    exit(2);
}

static unsigned long number(const char *text, unsigned long most) {
    char *end;
    unsigned long n = strtoul(text, &end, 10);
    need(text[0] >= '0' && text[0] <= '9' && *end == 0 && n <= most, text, "no number, or too large");
    return n;
}

static void load(struct state *s, const char *name) {
    static uint8_t text[BYTES];
    FILE *file = fopen(name, "rb");
    need(file != NULL, name, "can't be opened");
    size_t length = fread(text, 1, BYTES, file);
    need(!ferror(file), name, "can't be read");
    fclose(file);
    uint64_t answer = jennydusk_load(text, length, s->words, WORDS, s->labels, WORDS, s->record, JENNYDUSK_SPAN);
    need(answer == JENNYDUSK_DONE, name, "refused; the program firing says where and why");
}

static void run_to(struct state *s, unsigned long tick) {
    uint64_t answer = jennydusk_run_to(s->record, JENNYDUSK_SPAN, s->words, WORDS, s->labels, WORDS, tick);
    need(answer == JENNYDUSK_DONE, "run", "refused");
}

/* Writes what the viewer sees of a state into `text`, as a string. */
static void list(const struct state *s, uint8_t viewer, char *text) {
    uint64_t answer = jennydusk_print_for(s->record, JENNYDUSK_SPAN, s->words, WORDS, s->labels, WORDS, viewer,
                                          (uint8_t *)text, BYTES - 1);
    need(JENNYDUSK_NUMBER(answer) == JENNYDUSK_DONE, "listing", "refused");
    text[JENNYDUSK_COUNT(answer)] = 0;
}

/* Whether a listing shows that the run has ended. An end that isn't seen must not show in the time either: then the
 * ticks go on to the limit. */
static bool shows_the_end(const char *text) { return text[0] == 'E' && strncmp(text, "E,0,", 4) != 0; }

/* Waits until one tick after the time of the wait before, however long the steps between them took. */
static void wait_a_tick(struct timespec *due, long nanoseconds) {
    due->tv_sec += (due->tv_nsec + nanoseconds) / SECOND;
    due->tv_nsec = (due->tv_nsec + nanoseconds) % SECOND;
    need(clock_nanosleep(CLOCK_MONOTONIC, TIMER_ABSTIME, due, NULL) == 0, "wait", "cut short");
}

int main(int count, char **arguments) {
    static struct state now;
    static char text[BYTES], shown[BYTES];
    struct timespec due;
    bool ended = false;
    need(count == 3 || count == 4, "usage", "tick IMAGE LABEL [MICROSECONDS]");
    uint8_t viewer = (uint8_t)number(arguments[2], 255);
    long tick = count == 4 ? (long)number(arguments[3], SECOND / MICROSECOND) * MICROSECOND : 0;
    load(&now, arguments[1]);
    clock_gettime(CLOCK_MONOTONIC, &due);
    for (unsigned long k = 0; k <= now.record[JENNYDUSK_LIMIT] && !ended; k++) {
        run_to(&now, k);
        list(&now, viewer, text);
        wait_a_tick(&due, tick);
        if (strcmp(text, shown) != 0) printf("= tick %lu\n%s", k, strcpy(shown, text));
        need(fflush(stdout) == 0, "standard output", "can't be written");
        ended = shows_the_end(text);
    }
    return 0;
}
