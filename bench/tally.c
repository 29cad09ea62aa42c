/*
 * The table of times of the calls on a tally: on the full-size days of the families in the mean, and on chains of the most groups with all
 * rows at their end, of which half fit. A tally is begun and every row is put in that has a place, in row order; then every row is put in
 * again, which is refused; every count is read; and the rows are taken out.
 */
#include <stdio.h>
#include "measure.h"
#include "ours.h"

enum { BEGIN, PUT_IN, REFUSED, COUNT, TAKE_OUT, CALLS_MADE };
static const char *const names[CALLS_MADE] = {"begin", "put in", "put in, refused", "count", "take out"};

/* How long the calls of each sort took together, in microseconds, and how many there were. */
struct times {
    double taken[CALLS_MADE];
    unsigned made[CALLS_MADE];
};

static volatile unsigned sink;

static void add(struct times *t, unsigned which, double start, unsigned made) {
    t->taken[which] += now() - start;
    t->made[which] += made;
}

/* The rows that come in, in row order. Answers how many there are. */
static unsigned rows_in(const struct file *file, unsigned *rows) {
    unsigned count = 0;
    ours_begin(file);
    for (unsigned row = 0; row < MOST_ROWS; row++)
        if (ours_put_in(row) == 0) rows[count++] = row;
    return count;
}

static void time_file(const struct file *file, struct times *t) {
    unsigned rows[MOST_ROWS], count = rows_in(file, rows);
    double start = now();
    ours_begin(file);
    add(t, BEGIN, start, 1);
    start = now();
    for (unsigned k = 0; k < count; k++) sink += ours_put_in(rows[k]);
    add(t, PUT_IN, start, count);
    start = now();
    for (unsigned row = 0; row < MOST_ROWS; row++) sink += ours_put_in(row);
    add(t, REFUSED, start, MOST_ROWS);
    start = now();
    for (unsigned k = 0; k < 2 * MOST_GROUPS; k++) sink += ours_count(k % 2, k / 2);
    add(t, COUNT, start, 2 * MOST_GROUPS);
    start = now();
    for (unsigned k = 0; k < count; k++) sink += ours_take_out(rows[k]);
    add(t, TAKE_OUT, start, count);
}

/* The median, over the repeats, of the mean time of a call on these files, in nanoseconds. */
static void measure(const struct file *files, unsigned count, double *nanoseconds) {
    double means[CALLS_MADE][REPEATS];
    for (unsigned k = 0; k < REPEATS; k++) {
        struct times t = {0};
        for (unsigned f = 0; f < count; f++) time_file(&files[f], &t);
        for (unsigned which = 0; which < CALLS_MADE; which++) means[which][k] = 1000 * t.taken[which] / t.made[which];
    }
    for (unsigned which = 0; which < CALLS_MADE; which++) nanoseconds[which] = median(means[which], REPEATS);
}

int main(void) {
    static struct file days[MEAN_DAYS], chains;
    double on_days[CALLS_MADE], on_chains[CALLS_MADE];
    struct day half = chain_day(MOST_ROWS / 2);
    for (unsigned k = 0; k < MEAN_DAYS; k++) make_day(k / DAYS, MOST_ROWS, k % DAYS, &days[k]);
    write_day(&half, WEEK, &chains);
    measure(days, MEAN_DAYS, on_days);
    measure(&chains, 1, on_chains);
    printf("%-34s %8s %8s\n", "a call on a tally, nanoseconds", "chains", "days");
    for (unsigned which = 0; which < CALLS_MADE; which++) printf("%-34s %8.0f %8.0f\n", names[which], on_chains[which], on_days[which]);
    return 0;
}
