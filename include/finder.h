/*
 * The proved finder's functions for C, of the archive libc_face.a. `oracle/native --lib c_face` makes it: `rt lib` in crates/c_face_c, under that name.
 *
 * A list goes as a pointer and the number of its elements. So many must be there, aligned as their type is, and the pointer must not be NULL, even for
 * no elements. No list that a function writes may overlap another of the same call. That is all that a caller owes: whatever the numbers and the lists
 * hold, and however long they are, each function reads and writes inside them only, ends, and says what is wrong.
 *
 * The sheet. Value of row r in column c lies at c*rows + r. `order` has, at c*rows + i, the row at sorted place i of column c, ascending. `cuts` holds
 * column c's cuts from c*rows on: the places, from 1, whose value is above the one before; `counts` says how many, column by column. finder_prepare fills
 * these three. Values, order and cuts have rows*columns elements exactly, counts has columns, labels has rows. Scratch has at least
 * FINDER_SCRATCH_PER_ROW words a row; the functions that are lent it leave that many words 0, and any further ones as they were.
 *
 * A call's numbers come in the order that is named with its function; one that is not there counts as 0. An answer of fewer words than its function
 * writes is left alone, and words past those stay as they are. Word 0 says what the answer is; a word that a case does not use is 0.
 *
 * Turned back: FINDER_TURNED_BACK, a reason's number, its place.
 *   1 rows, columns or labels outside their limits       2 an input list of the wrong length
 *   3 scratch too short, or a list of the preparer's     4 support, gap, error or bound above its limit
 *   5 a value not finite or above 10^12 in size (index)  6 a label too high (row)
 *   7 an order entry that is no row, or a row met before in its column (index)
 *   8 a sorted value below its predecessor (index)       9 count or cuts not exactly the value changes (column)
 * The lowest number that holds is the one given. After 1 to 4 scratch is as it was.
 */
#ifndef FINDER_H
#define FINDER_H

#include <stddef.h>
#include <stdint.h>

#ifdef __cplusplus
extern "C" {
#endif

#define FINDER_SCRATCH_PER_ROW 8

/* words that the functions answer */
#define FINDER_PREPARE_WORDS 3
#define FINDER_CHECK_WORDS 3
#define FINDER_SEARCH_WORDS 19
#define FINDER_SIDE_WORDS 7

/* word 0 of an answer */
#define FINDER_TURNED_BACK 0
#define FINDER_PREPARED 1
#define FINDER_ACCEPTED 1
#define FINDER_KEPT 1
#define FINDER_FOUND 2

/* word 0 of a side */
#define FINDER_LEAF 0
#define FINDER_SPLIT 1

/* where the sides begin in an answer */
#define FINDER_SEARCH_LEFT 5
#define FINDER_SEARCH_RIGHT 12

/*
 * The preparer: sorts each column's rows by value, equal ones by row number, and lists its cuts; unused cut places become 0.
 * Numbers: rows (1 to 4096), columns (1 to 16).
 * Answer: FINDER_PREPARED; or turned back by 1, 2, 3 or 5, and then nothing is written to the lists.
 */
void finder_prepare(
    const uint32_t *numbers, size_t numbers_length,
    const double *values, size_t values_length,
    uint16_t *order, size_t order_length,
    uint16_t *cuts, size_t cuts_length,
    uint16_t *counts, size_t counts_length,
    uint64_t *answer, size_t answer_length);

/*
 * The input check that the search begins with, by itself.
 * Numbers: as finder_search. Answer: FINDER_ACCEPTED; or turned back by 1 to 9.
 */
void finder_check(
    const uint32_t *numbers, size_t numbers_length,
    const double *values, size_t values_length,
    const uint8_t *labels, size_t labels_length,
    const uint16_t *order, size_t order_length,
    const uint16_t *cuts, size_t cuts_length,
    const uint16_t *counts, size_t counts_length,
    uint32_t *scratch, size_t scratch_length,
    uint64_t *answer, size_t answer_length);

/*
 * The search for the best rule of at most three questions, "is column c at most t?".
 * Numbers: rows, columns, labels (1 to 32), support (0 to 4096), gap, starting error, upper bound (0 to 1000000 each).
 * Answer, one of
 *   turned back by 1 to 9;
 *   FINDER_KEPT, error, cuts tried: no rule with fewer mistakes than the starting error was found;
 *   FINDER_FOUND, error, cuts tried, column, threshold's bits, the left side's words, the right side's words.
 * A side is FINDER_LEAF, label, error; or FINDER_SPLIT, column, threshold's bits, left label, right label, left error, right error.
 * A threshold's bits are those of a double. A row whose value is at most the threshold goes left.
 */
void finder_search(
    const uint32_t *numbers, size_t numbers_length,
    const double *values, size_t values_length,
    const uint8_t *labels, size_t labels_length,
    const uint16_t *order, size_t order_length,
    const uint16_t *cuts, size_t cuts_length,
    const uint16_t *counts, size_t counts_length,
    uint32_t *scratch, size_t scratch_length,
    uint64_t *answer, size_t answer_length);

#ifdef __cplusplus
}
#endif

#endif
