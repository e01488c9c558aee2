/* Jizdovel, an exact macro placer: the C interface of the static library libjizdovel.a (x86-64).
 *
 * Every function takes every text, letter string and list, and ends. Each is proved to answer what
 * its contract in crates/jizdovel says; docs/PROMISES.md lists the promises.
 *
 * The answer is a number, and a value beside it that is written through `value`:
 *
 *   JIZDOVEL_YES  the text is accepted, the record is written, alone or with its boxes, or passes
 *                 beside its chip, the positions are legal, or the letters have a fit; `value` as
 *                 each function says
 *   JIZDOVEL_NO   the positions are not legal, or the letters have no fit; `value` as each says
 *   1 .. 254      refused with that number of the refusal table; `value` is the line, 0 where the
 *                 refusal has no line
 *
 * After a refusal every lent list and buffer holds what it held before.
 *
 * Duties that no refusal can cover:
 *  - a pointer points to as many elements as its length says, aligned for its type, and is not
 *    null, even where the length is 0; `value` and `at_fault` point to one number each;
 *  - what a function may write (out, slots, positions of a fit, value, at_fault) overlaps nothing
 *    else that is lent in the same call, and nobody else reads or writes it during the call;
 *  - the stack has room: 2 megabytes are enough, as measured (docs/DECISIONS.md, 54); a thread with
 *    1 megabyte is too small for a chip whose search goes 92 letters deep.
 * The functions keep no state: calls from several threads with different lists do not disturb each
 * other.
 */
#ifndef JIZDOVEL_H
#define JIZDOVEL_H

#include <stddef.h>
#include <stdint.h>

#ifdef __cplusplus
extern "C" {
#endif

#define JIZDOVEL_YES 0
#define JIZDOVEL_NO 255

/* Enough for every chip: bytes of a record (it has at most 192, by theorem: `chip-record-short` in
 * crates/place_print/proofs/PrintedShort.antt), bytes of a record with its boxes (at most 1,495, by
 * theorem: `boxes-short` in crates/place_boxes/proofs/Short.antt), slots of a fit, numbers of a
 * position list. */
#define JIZDOVEL_RECORD_BYTES 256
#define JIZDOVEL_BOXES_BYTES 1495
#define JIZDOVEL_SLOTS 728
#define JIZDOVEL_POSITIONS 16

/* Chip text to record text: writes the record of the chip into `out`. YES: `value` is the number of
 * bytes written; bytes past them are not touched. A chip without a legal placement has the record
 * `none`. Refusals: those of reading a chip, then 15 where `out` is shorter than the record. */
uint64_t jizdovel_place(const uint8_t *text, size_t text_length,
                        uint8_t *out, size_t out_length,
                        uint64_t *value);

/* Chip text to record text for the quoting page, which takes chips of at most so many macros, fixes
 * and pins; nets have no limit of their own. Within these limits it answers and writes what
 * jizdovel_place does, byte for byte. Refusals: those of reading a chip, then 22, line 0, where the
 * chip is beyond one of them, whatever the length of `out`, then 15 where `out` is shorter than the
 * record. */
#define JIZDOVEL_PAGE_MACROS 4
#define JIZDOVEL_PAGE_FIXES 2
#define JIZDOVEL_PAGE_PINS 16
uint64_t jizdovel_quote(const uint8_t *text, size_t text_length,
                        uint8_t *out, size_t out_length,
                        uint64_t *value);

/* Chip text to record text with the box of each net: writes the record of the chip and, directly
 * after its `done` line, one line for each net in file order, `box,n,1,l,0,r,0,b,0,t,1` and LF: the
 * net's number from 1, then left, right, bottom and top, the least and the greatest x and the least
 * and the greatest y of the net's pins at the record's placement; these may be negative, or
 * beyond the die. A `none` record gets no boxes: what is written is then what jizdovel_place writes.
 * With boxes it is no record text any more: jizdovel_check_record refuses it by 2 at the first box.
 * YES: `value` is the number of bytes written; bytes past them are not touched. Refusals: those of
 * reading a chip, then 15 where `out` is shorter than the whole text, record and boxes together. */
uint64_t jizdovel_boxes(const uint8_t *text, size_t text_length,
                        uint8_t *out, size_t out_length,
                        uint64_t *value);

/* Checks a chip text. YES: it is accepted, `value` is 0. */
uint64_t jizdovel_check_chip(const uint8_t *text, size_t text_length, uint64_t *value);

/* Checks a record text, by itself. YES: it is accepted, `value` is 0. */
uint64_t jizdovel_check_record(const uint8_t *text, size_t text_length, uint64_t *value);

/* Checks a record text beside its chip's text. YES: both are accepted, and the record is `none`, or
 * has the chip's number of macros, a legal placement and its own wirelength; `value` is 0. Whether
 * the placement is the least is not examined. Refusals: those of reading the chip, then those of
 * reading the record, then with line 0 13 where the record has another number of macros, 16 where
 * its placement is not legal, 17 where its wl is not the wirelength. `at_fault` says which text the
 * line is one of: 1 the chip, 2 the record, 0 neither (YES, 13, 16, 17). */
#define JIZDOVEL_NEITHER 0
#define JIZDOVEL_CHIP 1
#define JIZDOVEL_RECORD 2
uint64_t jizdovel_check_beside(const uint8_t *chip, size_t chip_length,
                               const uint8_t *record, size_t record_length,
                               uint64_t *value, uint64_t *at_fault);

/* Measures positions x1, y1, x2, y2 .. of the macros of a chip text. YES: legal; NO: not legal;
 * `value` is the wirelength in both cases. Refusals: those of reading a chip, then 13 where there
 * are not two numbers for each macro, then 14 where one is above 1,024. */
uint64_t jizdovel_measure(const uint8_t *text, size_t text_length,
                          const uint64_t *positions, size_t positions_length,
                          uint64_t *value);

/* The fit of a letter string, one of `LRBA.` for each pair, to the chip of a text; the empty string
 * (`letters_length` 0) stands for a `.` on each pair. YES: `value` is the wirelength, `positions`
 * begins with x1, y1, x2, y2 .. and `slots` with the amounts of a flow. NO: no fit, `value` is 0,
 * `slots` begins with a closed chain, `positions` is not touched. With n macros, p pairs and q pins
 * there are 2 (2n + p + 2q) slots and 2n numbers, for the empty string too; what follows them in
 * the lists is not touched. Refusals: those of reading a chip, then 11 where the string is not
 * empty and has not one letter for each pair, then 12, then 15 where `slots` or `positions` is too
 * short. */
uint64_t jizdovel_fit(const uint8_t *text, size_t text_length,
                      const uint8_t *letters, size_t letters_length,
                      uint16_t *slots, size_t slots_length,
                      uint64_t *positions, size_t positions_length,
                      uint64_t *value);

#ifdef __cplusplus
}
#endif

#endif
