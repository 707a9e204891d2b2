/* The labelled kiln machine: load, from a text or from Intel HEX, step, run and print over buffers that the caller
 * lends, listings for one viewer, certificates, and the label rules.
 *
 * A call gets each buffer as a pointer and a length in elements; the one word for a line, of jennydusk_load_hex, as a
 * pointer alone. A pointer is aligned and not null, at length 0 too; a buffer that a call may change overlaps no other
 * one. Nothing is kept between calls. No call reads or writes behind a length that it was given. */
#ifndef JENNYDUSK_H
#define JENNYDUSK_H

#include <stdbool.h>
#include <stddef.h>
#include <stdint.h>

#define JENNYDUSK_VERSION "4.0.1"

#ifdef __cplusplus
extern "C" {
#endif

/* ---- the record: a buffer of at least so many words, one number a word. What lies behind them is left. */
#define JENNYDUSK_SPAN 76

#define JENNYDUSK_SIZE 0       /* words of memory, 1 to 2048 */
#define JENNYDUSK_LIMIT 1      /* ticks, 1 to 16777216 */
#define JENNYDUSK_ERROR_PC 2   /* where a failed fetch goes on */
#define JENNYDUSK_GATE_COUNT 3 /* 0 to 8 */
#define JENNYDUSK_GATE(k) (4 + 3 * (k)) /* gate k, 0 to 7: its entry, pc label and timing label. The pair of each below
                                         * the count is valid; the others' labels may be any */
#define JENNYDUSK_PC 28
#define JENNYDUSK_PC_LABEL 29
#define JENNYDUSK_TIMING_LABEL 30
#define JENNYDUSK_CLOCK 31
#define JENNYDUSK_CALL(k) (32 + 5 * (k)) /* open call k, 0 or 1, the older first: five words, as below */
#define JENNYDUSK_END 42
#define JENNYDUSK_WHY 43
#define JENNYDUSK_VALUE(k) (44 + (k)) /* the value of register k, 0 to 15; that of register 0 is always 0 */
#define JENNYDUSK_LABEL(k) (60 + (k)) /* its label; that of register 0 is always 240 */

/* The five words of an open call, counted from JENNYDUSK_CALL(k). They are 0 where a call of its kind keeps nothing. */
#define JENNYDUSK_CALL_KIND 0
#define JENNYDUSK_CALL_RETURN_PC 1
#define JENNYDUSK_CALL_PC_LABEL 2
#define JENNYDUSK_CALL_TIMING_LABEL 3
#define JENNYDUSK_CALL_END_TICK 4

/* The kinds of a call. */
#define JENNYDUSK_EMPTY 0
#define JENNYDUSK_GATE_CALL 1
#define JENNYDUSK_UPCALL 2

/* The ends, and why a run stalled: the pc is not below the size, the word's label doesn't flow to the pc label, the op is
 * unknown. */
#define JENNYDUSK_RUNNING 0
#define JENNYDUSK_HALTED 1
#define JENNYDUSK_CLOCK_SPENT 2
#define JENNYDUSK_STALLED 3
#define JENNYDUSK_WHY_PC 1
#define JENNYDUSK_WHY_LABEL 2
#define JENNYDUSK_WHY_OP 3

/* ---- the certificate: a buffer of at least so many words. What lies behind them is left. */
#define JENNYDUSK_CERTIFICATE_SPAN 3

#define JENNYDUSK_CAUSE 0      /* of the first break, or JENNYDUSK_NO_BREAK */
#define JENNYDUSK_BREAK_TICK 1 /* its tick; 0 where there is none */
#define JENNYDUSK_PLACE 2      /* its pc; 0 where there is none, or the pc is hidden */

/* The causes of a break at a label: a step attempts to release to within it what is outside; a state is outside it, in no
 * upcall, while a gate leads within; a state has its pc label within it and its timing label outside. */
#define JENNYDUSK_NO_BREAK 0
#define JENNYDUSK_RELEASE 1
#define JENNYDUSK_AT_LARGE 2
#define JENNYDUSK_TIMED_FROM_OUTSIDE 3

/* ---- answers: a number, with a line, a length or the limit above it; of jennydusk_load_hex the number alone, since a
 * HEX text may have more lines than fit there */
#define JENNYDUSK_NUMBER(answer) ((unsigned)((answer) % 256))
#define JENNYDUSK_COUNT(answer) ((size_t)((answer) / 256))

#define JENNYDUSK_DONE 0
#define JENNYDUSK_TEXT_LENGTH 1   /* the text is empty or above 65535 bytes; line 0 */
#define JENNYDUSK_MALFORMED 2     /* letter, field count, digits or a missing LF; the first line is no M */
#define JENNYDUSK_RANGE 3         /* a number outside its range; a ninth G */
#define JENNYDUSK_ORDER 4         /* a kind out of order, a second M, a number that isn't rising; anything behind the one
                                   * line of an M text */
#define JENNYDUSK_PAIR 5          /* the pair of the M line is not valid */
#define JENNYDUSK_SHORT_MEMORY 6  /* words or labels shorter than the size */
#define JENNYDUSK_NO_RECORD 7     /* the record is not well-formed, as where register 0 isn't value 0, label 240, or a
                                   * gate below the count has no valid pair; or the buffer holds none: a word is
                                   * outside its field's range, or a call's words are none */
#define JENNYDUSK_SHORT_OUTPUT 8  /* the output is shorter than the listing */
#define JENNYDUSK_ZERO_REGISTER 9 /* an R line for register 0, whatever it says */
#define JENNYDUSK_TICK 10         /* the tick of a view is above the limit, which stands beside the number */
#define JENNYDUSK_HEX_RECORD 11   /* a record of wrong form, type, sum or ending; the line of the HEX text */
#define JENNYDUSK_HEX_BYTE 12     /* a byte outside the memory, or given twice; the line of the HEX text */
#define JENNYDUSK_GATE_PAIR 13    /* the pair of a G line is not valid; tried after the line's other causes */
#define JENNYDUSK_SHORT_BUFFER 255 /* the record's buffer is shorter than JENNYDUSK_SPAN, or the certificate's than
                                    * JENNYDUSK_CERTIFICATE_SPAN */

/* ---- the calls. A refused call leaves the record, certificate, words, labels and output as they were; but
 * jennydusk_view, which loads and runs first, leaves only the output when it answers JENNYDUSK_TICK or
 * JENNYDUSK_SHORT_OUTPUT. A call that takes a buffer for a record or a certificate answers JENNYDUSK_SHORT_BUFFER where
 * that is too short, before it reads anything. */

/* Loads a text. The record goes to its buffer, the memory to words and labels below the size. Answers a number, 0 to 6,
 * 9, 13 or 255, and 256 times the line that was refused. A load sets the words of the gates that no line names to 0. */
uint64_t jennydusk_load(const uint8_t *text, size_t text_length, uint32_t *words, size_t words_length, uint8_t *labels,
                        size_t labels_length, uint64_t *record, size_t record_length);

/* Loads an image from Intel HEX: an M text, which is the first line of an image and nothing else, a HEX text, and a
 * label. The record is that of the M text alone: no gates, their words 0, and every register value 0, label 240. A word
 * below the size with a byte in the HEX text gets the label, which may be any, and its four bytes, the lowest first;
 * those that aren't given are 0. The others get value 0 and label 240.
 *
 * A line of the HEX text is one record: a colon, pairs of hexadecimal digits of either case, and LF or CR LF. The pairs
 * are a length, an address of two bytes, the high one first, a type, so many bytes as the length says, and a check byte;
 * the sum of them all is 0 modulo 256. A record of type 0 gives its bytes to the places from its address on, place
 * 4 * k + j to byte j of word k, j from 0 to 3. They may come in any order. One record of type 1 and length 0 is the
 * last; its address isn't read. The HEX text has no greatest length.
 *
 * Answers a number alone, the first that holds of these, and writes to *line the line that it is about, or 0 with
 * JENNYDUSK_DONE:
 *
 *   JENNYDUSK_SHORT_BUFFER; *line is left
 *   JENNYDUSK_TEXT_LENGTH, of the M text, with line 0; an empty HEX text is JENNYDUSK_HEX_RECORD
 *   JENNYDUSK_MALFORMED, JENNYDUSK_RANGE, JENNYDUSK_PAIR or JENNYDUSK_SHORT_MEMORY of the M text's line, with line 1
 *   JENNYDUSK_ORDER with line 2: the M text has anything behind its line, of whatever form
 *   of each line of the HEX text in turn, JENNYDUSK_HEX_RECORD, then JENNYDUSK_HEX_BYTE, with that line, counted from 1
 *   JENNYDUSK_HEX_RECORD with the line behind the last, where the record of type 1 is missing
 *   JENNYDUSK_DONE
 *
 * Anything behind the record of type 1 is JENNYDUSK_HEX_RECORD at the line behind it. A record without bytes is taken at
 * any address. Addresses don't go round: behind 65535 comes 65536, which is outside every memory. */
uint64_t jennydusk_load_hex(const uint8_t *text, size_t text_length, const uint8_t *hex, size_t hex_length,
                            uint8_t label, uint32_t *words, size_t words_length, uint8_t *labels,
                            size_t labels_length, uint64_t *record, size_t record_length, uint64_t *line);

/* Does one step. Answers 0, 6, 7 or 255. An ended record steps to itself.
 *
 * What is proved of labels is about ticks, not about calls. How many steps a stretch of ticks holds may be a secret:
 * whoever counts or times the calls of step, or looks at the memory after each, can learn it. A program that shows a run
 * to others goes by jennydusk_run_to instead, one call for each tick at a pace that ticks alone decide, and shows what
 * jennydusk_print_for lists for their label. examples/c/tick.c does so. */
uint64_t jennydusk_step(uint64_t *record, size_t record_length, uint32_t *words, size_t words_length, uint8_t *labels,
                        size_t labels_length);

/* Steps until the end isn't 0. Answers 0, 6, 7 or 255. */
uint64_t jennydusk_run(uint64_t *record, size_t record_length, uint32_t *words, size_t words_length, uint8_t *labels,
                       size_t labels_length);

/* Runs to a tick: does every step that finishes at or before the tick, and none that finishes later. A step finishes at
 * the clock that it leaves; so a stall at the tick is done, and an op that would pass the tick is not begun. This leaves
 * the state at that tick, whose clock may be below it. A tick below the clock does nothing, one above the limit runs to
 * the end, and the next call goes on from here. Answers 0, 6, 7 or 255. */
uint64_t jennydusk_run_to(uint64_t *record, size_t record_length, uint32_t *words, size_t words_length, uint8_t *labels,
                          size_t labels_length, uint64_t tick);

/* Writes the listing at the start of the output. Answers 0 and 256 times the listing's length, or 6, 7, 8 or 255. It is
 * that of jennydusk_print_for for JENNYDUSK_HIGHEST, which sees all. */
uint64_t jennydusk_print(const uint64_t *record, size_t record_length, const uint32_t *words, size_t words_length,
                         const uint8_t *labels, size_t labels_length, uint8_t *output, size_t output_length);

/* Writes the listing for a viewer's label: what that label sees, and nothing else. The E and F lines are there if the pc
 * label flows to the viewer's; if not, one line H, of that letter alone, stands in their place. Of registers and words
 * those are listed whose labels flow to the viewer's and that differ from value 0, label 240. Answers as
 * jennydusk_print.
 *
 * States that are alike at the label are listed alike. Whether a run brings something hidden to where the label sees it
 * is another question; jennydusk_view tells when it doesn't. */
uint64_t jennydusk_print_for(const uint64_t *record, size_t record_length, const uint32_t *words, size_t words_length,
                             const uint8_t *labels, size_t labels_length, uint8_t label, uint8_t *output,
                             size_t output_length);

/* Lists for a viewer's label the state of a text at a tick: loads it, runs it to the tick as jennydusk_run_to does, and
 * writes the listing as jennydusk_print_for does. Answers the first that holds of these:
 *
 *   a number of the load, 1 to 6, 9 or 13, and 256 times the line that was refused; memory and output are left
 *   JENNYDUSK_TICK and 256 times the limit: the tick is above the limit; memory is as loaded, the output is left
 *   JENNYDUSK_SHORT_OUTPUT and no count; memory is that of the tick, the output is left
 *   0 and 256 times the listing's length; memory is that of the tick
 *
 * At the limit every run has ended, so that a view at that tick is one of the end.
 *
 * Two texts of equal size, gates, error pc and limit that are alike at the label get the same answer and, in outputs of
 * equal length, the same bytes, at every tick up to which both runs meet three provisos. This is proved. The provisos:
 * no step lowers a label from outside the viewer's to within; none takes a gate call from outside to within; no state
 * has its pc label within and its timing label outside. They hold below the break that jennydusk_certify finds in one of
 * the two, and at every tick where it finds none. The memory is left with all of the state, secrets too: it isn't for
 * the viewer.
 *
 * That is about ticks and not about real time: how long a call takes may depend on a secret. Whoever shows views while a
 * run goes on makes these calls at a pace that ticks alone decide. */
uint64_t jennydusk_view(const uint8_t *text, size_t text_length, uint8_t label, uint64_t tick, uint32_t *words,
                        size_t words_length, uint8_t *labels, size_t labels_length, uint8_t *output,
                        size_t output_length);

/* Certifies a text at one label: loads it, and runs it to its end. The certificate goes to its buffer; words and labels
 * hold what the run leaves. Answers a number, 0 to 6, 9, 13 or 255, and 256 times the line that was refused.
 *
 * With JENNYDUSK_NO_BREAK, nothing that is hidden from the label shows at it at any tick; with another cause, at none
 * below JENNYDUSK_BREAK_TICK. That holds for this text and for every other one of equal size, gates, error pc and limit
 * that is alike at the label; those get the same certificate, so the secrets of this one may be any, or zeros. It is
 * about ticks and not about real time, and about this label alone: another one wants a call of its own. From a break on
 * nothing is promised, and still nothing may show. */
uint64_t jennydusk_certify(uint8_t label, const uint8_t *text, size_t text_length, uint32_t *words, size_t words_length,
                           uint8_t *labels, size_t labels_length, uint64_t *certificate, size_t certificate_length);

/* ---- labels: the byte i * 16 + c. The integrity i is the set of those by whom a thing is trusted, the confidentiality c
 * the set of those whose secrets it may hold. There are four principals, one bit each. Every byte is a label. */
#define JENNYDUSK_LOWEST 240 /* trusted by all; it holds nobody's secrets */
#define JENNYDUSK_HIGHEST 15 /* trusted by none; it may hold everyone's secrets */

/* Whether what bears the label `from` may reach what bears `to`: all by whom `to` is trusted trust `from` too, and `to`
 * may hold the secrets of all whose secrets `from` may hold. */
bool jennydusk_flows(uint8_t from, uint8_t to);

/* The lowest label that both flow to: trusted by those who trust both, for the secrets of all in either. */
uint8_t jennydusk_join(uint8_t one, uint8_t other);

/* The highest label that flows to both: trusted by those who trust either, for the secrets of those in both. */
uint8_t jennydusk_meet(uint8_t one, uint8_t other);

/* The label with i and c exchanged. */
uint8_t jennydusk_reflection(uint8_t label);

/* Whether a label is sound: it is trusted by all whose secrets it may hold. */
bool jennydusk_is_sound(uint8_t label);

/* Whether a pc label and a timing label make a valid pair: the one flows to the other, and both are sound. */
bool jennydusk_is_valid_pair(uint8_t pc, uint8_t timing);

#ifdef __cplusplus
}
#endif

#endif
