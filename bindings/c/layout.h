/* The layout pass for types, for callers in C. Link the static library that `rt lib` writes
 * (README.md in this folder). What a sheet is, what each code means and what is written is said in
 * docs/FORMAT.md; sections are cited here as [4].
 *
 * Two calls are the same build and differ only in what they say about it; the third tells which types
 * each type hangs on. They take any bytes and any lengths, allocate nothing, keep nothing between calls
 * and may be called from many threads.
 *
 * What a caller owes: `sheet` points to `sheet_len` bytes, `verdict` to `verdict_len` and `left` to
 * `left_len`, the last two writable; no output, `sets` among them, overlaps another, the sheet or
 * `answer`. A length may be 0; its pointer is then not read, but must not be null.
 */
#ifndef LAYOUT_H
#define LAYOUT_H

#include <stddef.h>
#include <stdint.h>

#ifdef __cplusplus
extern "C" {
#endif

/* A sheet has at most this many bytes, in lines of this many [1, 2]. */
#define LAYOUT_SHEET_BYTES 65536
#define LAYOUT_LINE_BYTES 32

/* It has at most this many declarations, and a set of them takes this many words [2, 13]. */
#define LAYOUT_DECLARATIONS 96
#define LAYOUT_SET_WORDS 2

/* Codes [4, 5, 7]. "Line" is the place, counted from 0 over all lines of the sheet. They are tested in
 * this order, but 13 after 9 and 10 and before 11. */
enum layout_code {
    LAYOUT_ACCEPTED = 0,        /* place 0; both sheets are written */
    LAYOUT_LENGTH = 1,          /* over 65,536 bytes, or not whole lines; place 0 */
    LAYOUT_FORM = 2,            /* line: not a line: letter, number, text or last byte */
    LAYOUT_ORDER = 3,           /* line: does not belong there; the count of lines: ends too early */
    LAYOUT_LIMIT = 4,           /* line: one more than allowed of its letter */
    LAYOUT_RANGE = 5,           /* line: a number out of its range */
    LAYOUT_REPEATED = 6,        /* line: a name that stands on an earlier line where it may not */
    LAYOUT_VERDICT = 7,         /* line: a tag (C), keep (F) or verdict number (V) that cannot be; see below */
    LAYOUT_LOOP = 8,            /* D or I line: unfolding this name leads back to it */
    LAYOUT_ARGUMENTS = 9,       /* D or I line: a wrong count of type arguments */
    LAYOUT_SIZE = 10,           /* D or I line: a type of more than 1,024 nodes */
    LAYOUT_VERDICT_SHORT = 11,  /* the verdict output is too short; place: the length needed */
    LAYOUT_LEFT_SHORT = 12,     /* the left output is too short; place: the length needed */
    LAYOUT_PARTS = 13           /* Q line: a constructor's pattern has not a part for each field */
};

/* A C line's third number is the constructor's tag plus one, and 0 for no tag: a constructor has one where
 * its type has others, its place among them from 0. Tags stand in I declarations and in the verdict sheet,
 * and in neither D declarations nor the left sheet [2, 8]. LAYOUT_VERDICT at a C line is a wrong tag. At
 * one of an I declaration whose tag is 0 the sheet may be a verdict sheet from before there were tags: build
 * the earlier units again, and this one from what they give [10]. */

/* Builds a sheet [9]. `answer` gets three numbers: code, place, rounds (0 on a refusal).
 *
 * On code 0, `verdict` begins with the verdict sheet, which is as long as the sheet, and `left` with
 * the left sheet; every byte after those is as it was. On any other code both outputs are as they
 * were, every byte. Of a sheet that ends in a pattern the left sheet ends in the new pattern's Q lines
 * and in a U line for each name that it freed [12]. */
void layout_build(const uint8_t *sheet, size_t sheet_len,
                  uint8_t *verdict, size_t verdict_len,
                  uint8_t *left, size_t left_len,
                  uint64_t answer[3]);

/* The same build. `answer` gets five numbers: code, place, rounds, and how many bytes of `verdict`
 * and of `left` were written (both 0 on a refusal). */
void layout_build_sized(const uint8_t *sheet, size_t sheet_len,
                        uint8_t *verdict, size_t verdict_len,
                        uint8_t *left, size_t left_len,
                        uint64_t answer[5]);

/* The reach index [13]: for each declaration, D or I, the set of those that its body names, or that are
 * named in the body of one in the set. `answer` gets two numbers: code and place, those of a build whose
 * outputs are long enough, so 11 and 12 are not among them.
 *
 * On code 0 every word is written. Declarations are counted from 0, in the order of the sheet; bit j % 64
 * of word 2 * i + j / 64 is 1 if declaration j is in the set of declaration i, and 0 if not, or if one of
 * them is not there. On any other code all words are as they were. */
void layout_reach_index(const uint8_t *sheet, size_t sheet_len,
                        uint64_t sets[LAYOUT_DECLARATIONS * LAYOUT_SET_WORDS],
                        uint64_t answer[2]);

#ifdef __cplusplus
}
#endif

#endif
