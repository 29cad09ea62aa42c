/*
 * The buffers that the settling tests lend to a call. Before the call every cell holds a number that follows from its place; afterwards
 * a cell that holds another one was changed.
 */
#ifndef LENT_H
#define LENT_H

#include "claims.h"
#include "day.h"

enum { PAST = 3 }; /* cells more than any call needs */

static struct {
    uint8_t choice[MOST_ROWS + PAST];
    uint32_t sheet[MOST_MARKS + PAST], scratch[CLAIMS_LONGEST_SCRATCH + PAST];
} lent;

/* How many cells each buffer has. */
enum { CHOICE_CELLS = MOST_ROWS + PAST, SHEET_CELLS = MOST_MARKS + PAST, SCRATCH_CELLS = CLAIMS_LONGEST_SCRATCH + PAST };

/* What a cell holds before a call. */
static uint32_t filler(size_t i) { return (uint32_t)(i * 2654435761u + 12345u); }

static void fill_lent(void) {
    for (size_t i = 0; i < CHOICE_CELLS; i++) lent.choice[i] = (uint8_t)filler(i);
    for (size_t i = 0; i < SHEET_CELLS; i++) lent.sheet[i] = filler(i);
    for (size_t i = 0; i < SCRATCH_CELLS; i++) lent.scratch[i] = filler(i);
}

/* Whether the cells from the given places on hold what they held before. */
static inline int untouched(size_t choice, size_t sheet, size_t scratch) {
    for (size_t i = choice; i < CHOICE_CELLS; i++)
        if (lent.choice[i] != (uint8_t)filler(i)) return 0;
    for (size_t i = sheet; i < SHEET_CELLS; i++)
        if (lent.sheet[i] != filler(i)) return 0;
    for (size_t i = scratch; i < SCRATCH_CELLS; i++)
        if (lent.scratch[i] != filler(i)) return 0;
    return 1;
}

#endif
