/*
 * A new claim file of the week layout judged by plain C, fits and rank by plain C, and closings judged by plain C. The plain reader into
 * tables is read_day of day.h; it takes the limits of one weekday into the tables, and both readers judge the limits of all seven.
 */
#ifndef PLAIN_H
#define PLAIN_H

#include "days.h"

struct plain_rank {
    unsigned refusal, fits, rank;
};

/* 0, or the number of the first fault: what read_day answers, without the tables. */
unsigned plain_judge(const uint8_t *file, size_t length);

/* Whether a selection fits a side by the limits of a weekday, and its rank there, by rank_side of day.h. */
struct plain_rank plain_fits_and_rank(const uint8_t *file, size_t length, const uint8_t *selection, size_t selected, unsigned side,
                                      unsigned weekday);

/* The same by rank_greedily of day.h. */
struct plain_rank greedy_fits_and_rank(const uint8_t *file, size_t length, const uint8_t *selection, size_t selected, unsigned side,
                                       unsigned weekday);

/*
 * Whether a closing is accepted by the limits of a weekday: 0, or the number. The price of each group, which is its mark and the price above
 * it, is kept in a table; sums have 64 bits.
 */
unsigned plain_accept(const uint8_t *file, size_t length, const uint8_t *choice, size_t choices, const uint32_t *sheet, size_t marks,
                      unsigned weekday);

#endif
