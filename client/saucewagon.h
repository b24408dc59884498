/* The planner for C: link target/staticlib/libsaucewagon_c.a, which `client/make staticlib saucewagon_c` proves and writes.
 *
 * A job sheet is a run of bytes: carriers, risers with their lists, rules between two risers, swaps of carriers; docs/SHEET.md has the
 * layout. Every call takes any bytes at all, tests them, and returns SAUCEWAGON_ACCEPTED or the number of a refusal.
 *
 * For the numbers 1 to 9 the place says where in the sheet the fault is: the start of the field, counted in bytes from 0.
 * For every other number, 0 too, the place is 0.
 *
 * What the caller owes: each pointer is good for as many elements as the length beside it says (a single number's pointer for
 * that number), none is NULL, also where the length is 0, and nothing that is written overlaps anything else that is handed over.
 * Nothing else is asked: no content of any list is trusted, and no call fails to return.
 * A call keeps nothing, calls nothing back and uses no memory of its own but the stack, so that calls on different lists may run side
 * by side. The most stack that a listing was seen to take is 116,312 bytes, in a thread of 120 KiB (of the C library glibc, which keeps
 * some of it for itself); a folding took 43,464, in a thread of 48 KiB. Have 128 KiB. Measured on x86-64 by client/stack.
 */
#ifndef SAUCEWAGON_H
#define SAUCEWAGON_H

#include <stddef.h>
#include <stdint.h>

/* The limits of a sheet: the most carriers, risers, rules, pairs that a rule allows, and swaps; and the length of the longest sheet. */
#define SAUCEWAGON_CARRIERS 15
#define SAUCEWAGON_RISERS 12
#define SAUCEWAGON_RULES 66
#define SAUCEWAGON_PAIRS 225
#define SAUCEWAGON_SWAPS 8
#define SAUCEWAGON_LONGEST 30214

/* What a call returns. */
enum {
    SAUCEWAGON_ACCEPTED = 0,
    SAUCEWAGON_SHEET_ENDS = 1,          /* the sheet ends before the next field is whole */
    SAUCEWAGON_WRONG_COUNT = 2,         /* a count is outside its limits */
    SAUCEWAGON_WRONG_CARRIER = 3,       /* a riser's carrier is not a carrier, or not above the one before */
    SAUCEWAGON_WRONG_RULE = 4,          /* a rule's two risers are not two risers in order, or don't follow the rule before */
    SAUCEWAGON_WRONG_PAIR = 5,          /* an allowed pair is outside the risers' lists, or not after the pair before */
    SAUCEWAGON_NO_PERMUTATION = 6,      /* a swap is not a permutation of the carriers */
    SAUCEWAGON_LIST_NOT_KEPT = 7,       /* a swap takes some riser's list out of itself */
    SAUCEWAGON_RULE_NOT_KEPT = 8,       /* a swap takes an allowed pair of some rule to a pair not allowed there */
    SAUCEWAGON_BYTES_FOLLOW = 9,        /* bytes follow the last swap */
    SAUCEWAGON_BEYOND_ALLOWANCE = 10,   /* more rows would be opened than the allowance */
    SAUCEWAGON_BEYOND_ROOM = 11,        /* more plans would be listed than there is room for */
    SAUCEWAGON_ROW_NOT_WHOLE = 12,      /* a row to fold has another length than the sheet has risers, or a carrier outside its riser's list */
    SAUCEWAGON_BUFFERS_NOT_FITTING = 13 /* the buffers to fold into are not exactly as many bytes as risers, and as carriers */
};

#ifdef __cplusplus
extern "C" {
#endif

/* Lists the plans of a sheet, once per kind.
 *
 * Two lists are lent: `bytes` for the rows and `sizes` for the class sizes. With n risers there is room for as many plans as the
 * smaller of (bytes_length divided by n, rounded down) and sizes_length. At most `allowance` rows may be opened.
 *
 *   accepted   the rows stand one after another from the start of `bytes`, n carriers each, ascending, with their class sizes
 *              in the same order in `sizes`; the rest of both lists is unchanged. *listed is the number of rows, *opened how
 *              many rows of all lengths were opened, *total how many plans there are in all.
 *   1 to 9     both lists are unchanged; *listed, *opened and *total are 0.
 *   10         `bytes` is all 255 and `sizes` all 0; *opened is the allowance, *listed and *total are 0.
 *   11         `bytes` is all 255 and `sizes` all 0; *listed, *opened and *total are the true numbers.
 */
uint64_t saucewagon_list(const uint8_t *sheet, size_t sheet_length,
                         uint64_t allowance,
                         uint8_t *bytes, size_t bytes_length,
                         uint64_t *sizes, size_t sizes_length,
                         uint64_t *place, uint64_t *listed, uint64_t *opened, uint64_t *total);

/* Folds a row: which of its images under the swaps comes first, and how many images it has.
 *
 * The row has a carrier for each riser, from that riser's list; it need not keep the rules. Two buffers are lent: `first` of
 * exactly as many bytes as there are risers, `member` of exactly as many as there are carriers.
 *
 *   accepted   `first` is the first image; `member` is a product of the swaps that takes the row there, byte c being what
 *              carrier c becomes (any such product, where there are several); *size is the number of different images.
 *   refused    both buffers are unchanged; *size is 0.
 */
uint64_t saucewagon_fold(const uint8_t *sheet, size_t sheet_length,
                         const uint8_t *row, size_t row_length,
                         uint8_t *first, size_t first_length,
                         uint8_t *member, size_t member_length,
                         uint64_t *place, uint64_t *size);

#ifdef __cplusplus
}
#endif

#endif
