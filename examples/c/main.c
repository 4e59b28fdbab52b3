/* Searches document 01's worked example from C: four rows of one column, two labels. Prints the answer as the finder does. */
#include "finder.h"

#include <inttypes.h>
#include <stdio.h>

enum { ROWS = 4, COLUMNS = 1, LABELS = 2 };

static void print_side(char mark, const uint64_t *side)
{
    if (side[0] == FINDER_LEAF)
        printf("%c LEAF label=%" PRIu64 " error=%" PRIu64 "\n", mark, side[1], side[2]);
    else
        printf("%c SPLIT column=%" PRIu64 " at=%016" PRIX64 " left=%" PRIu64 "/%" PRIu64 " right=%" PRIu64 "/%" PRIu64 "\n",
               mark, side[1], side[2], side[3], side[5], side[4], side[6]);
}

static void print_answer(const uint64_t *answer)
{
    switch (answer[0]) {
    case FINDER_TURNED_BACK:
        printf("REFUSED %" PRIu64 " place=%" PRIu64 "\n", answer[1], answer[2]);
        break;
    case FINDER_KEPT:
        printf("KEPT error=%" PRIu64 " tried=%" PRIu64 "\n", answer[1], answer[2]);
        break;
    default:
        printf("FOUND error=%" PRIu64 " column=%" PRIu64 " at=%016" PRIX64 " tried=%" PRIu64 "\n", answer[1], answer[3], answer[4], answer[2]);
        print_side('L', answer + FINDER_SEARCH_LEFT);
        print_side('R', answer + FINDER_SEARCH_RIGHT);
    }
}

int main(void)
{
    const uint32_t numbers[] = {ROWS, COLUMNS, LABELS, 1, 0, 2, 1000000};
    const double values[ROWS * COLUMNS] = {1, 2, 3, 4};
    const uint8_t labels[ROWS] = {0, 1, 0, 1};
    uint16_t order[ROWS * COLUMNS], cuts[ROWS * COLUMNS], counts[COLUMNS];
    uint32_t scratch[FINDER_SCRATCH_PER_ROW * ROWS];
    uint64_t answer[FINDER_SEARCH_WORDS];

    finder_prepare(numbers, 2, values, ROWS * COLUMNS, order, ROWS * COLUMNS, cuts, ROWS * COLUMNS, counts, COLUMNS, answer, FINDER_PREPARE_WORDS);
    if (answer[0] == FINDER_PREPARED)
        finder_search(numbers, 7, values, ROWS * COLUMNS, labels, ROWS, order, ROWS * COLUMNS, cuts, ROWS * COLUMNS, counts, COLUMNS,
                      scratch, FINDER_SCRATCH_PER_ROW * ROWS, answer, FINDER_SEARCH_WORDS);
    print_answer(answer);
    return 0;
}
