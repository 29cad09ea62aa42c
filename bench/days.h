/*
 * Families of days, written as new claim files of the week layout from a fixed seed.
 *
 * KINDS is the number of kinds that rows have: 2 under the first terms, 4 under the second. Each program of bench/ is built for one of the
 * terms, and bench/run says which.
 */
#ifndef DAYS_H
#define DAYS_H

#include "day.h"

#ifndef KINDS
#define KINDS 2
#endif

/*
 * The families, by their numbers. A mean is over the families before IN_MEAN. On the days of the others a settler can be slow, and they
 * stand beside the mean.
 */
enum {
    FLAT, CHAINS, FORESTS, BINARY, PATHS, TIES, EARNED, ORDINARY, NOTHING, EVERYTHING,
    IN_MEAN,
    SWAPS_FEW = IN_MEAN, SWAPS_FEW_EARNED, SWAPS_WIDE, SWAPS_WIDE_EARNED, SWAPS_DEEP, SWAPS_DEEP_EARNED, STAIRS, STAIRS_EARNED,
    FAMILIES
};

enum { DAYS = 6 /* of each family and size */ };

/* A family's name, and whether its answer is far: so many arcs are to be turned that the time may grow with the square of the claims. */
struct family {
    const char *name;
    int is_far;
};
extern const struct family families[FAMILIES];

/* The kind of an earned row: 1, or under the second terms any of 1 to 3, which its place in the file decides. */
static inline unsigned earned_kind(unsigned row) { return 1 + row * 2654435761u / 7 % (KINDS - 1); }

/*
 * Day `number` of a family, with `rows` claims (2 or more), as tables. It has rows / 2 groups in each section; swaps have six at least, and
 * swaps with few groups have no more than four.
 */
struct day tables_of(unsigned family, unsigned rows, unsigned number);

/* Its file, in which every limit is the same on all weekdays. */
void make_day(unsigned family, unsigned rows, unsigned number, struct file *file);

#endif
