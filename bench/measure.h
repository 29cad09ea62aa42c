/* Medians of times, a contestant's day, and targets. */
#ifndef MEASURE_H
#define MEASURE_H

#include "contest.h"

/* A time is the median of REPEATS, except where a program says otherwise. MOST_DAYS are all days of a size, MEAN_DAYS those in the mean. */
enum { MOST_CONTESTANTS = 4, REPEATS = 21, MOST_REPEATS = 101, MOST_DAYS = FAMILIES * DAYS, MEAN_DAYS = IN_MEAN * DAYS };

struct contestant {
    const char *name;
    void (*settle)(const uint8_t *file, size_t length, struct outcome *out);
    int knows_rows; /* leaves a choice, with the row order right */
};

/* The contestants built in, ours first; the count without LEMON is one less. */
extern const struct contestant contestants[];
extern const unsigned contestant_count;

/* Times in microseconds. */
double now(void);
double median(double *times, unsigned count);

/*
 * The median time of each contestant on each of `count` days, from the file's bytes to the answer. The contestants take turns, and so do
 * the days: no day is settled twice in a row, which would teach the processor its branches.
 */
void measure_days(const struct file *days, unsigned count, unsigned repeats, double (*medians)[MOST_CONTESTANTS]);

/* The median time of a piece of work done `times` times in a row, for one time. */
double measure_work(void (*work)(const void *), const void *with, unsigned times, unsigned repeats);

/* Prints a value, and under the first terms, which alone have targets, whether it is at most so great. */
void target(const char *what, double value, double most);

#endif
