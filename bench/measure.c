/* Medians of times, and targets. */
#include <stdio.h>
#include <stdlib.h>
#include <time.h>
#include "measure.h"
#include "ours.h"

const struct contestant contestants[] = {
    {"ours", ours_settle, 1},
    {"C flow", flow_settle, 1},
    {"C simplex", simplex_settle, 1},
#ifdef WITH_LEMON
    {"LEMON", lemon_settle, 0},
#endif
};
const unsigned contestant_count = sizeof contestants / sizeof *contestants;

double now(void) {
    struct timespec t;
    clock_gettime(CLOCK_MONOTONIC, &t);
    return (double)t.tv_sec * 1e6 + (double)t.tv_nsec / 1e3;
}

static int by_size(const void *a, const void *b) {
    double x = *(const double *)a, y = *(const double *)b;
    return (x > y) - (x < y);
}

double median(double *times, unsigned count) {
    qsort(times, count, sizeof *times, by_size);
    return times[count / 2];
}

/* The first turn warms the buffers and is not counted. */
void measure_days(const struct file *days, unsigned count, unsigned repeats, double (*medians)[MOST_CONTESTANTS]) {
    static double times[MOST_DAYS][MOST_CONTESTANTS][MOST_REPEATS];
    static struct outcome out;
    for (unsigned k = 0; k <= repeats; k++)
        for (unsigned d = 0; d < count; d++)
            for (unsigned who = 0; who < contestant_count; who++) {
                double start = now();
                contestants[who].settle(days[d].bytes, days[d].length, &out);
                if (k > 0) times[d][who][k - 1] = now() - start;
            }
    for (unsigned d = 0; d < count; d++)
        for (unsigned who = 0; who < contestant_count; who++) medians[d][who] = median(times[d][who], repeats);
}

double measure_work(void (*work)(const void *), const void *with, unsigned times, unsigned repeats) {
    static double taken[MOST_REPEATS];
    for (unsigned k = 0; k < repeats; k++) {
        double start = now();
        for (unsigned i = 0; i < times; i++) work(with);
        taken[k] = (now() - start) / times;
    }
    return median(taken, repeats);
}

void target(const char *what, double value, double most) {
    printf("%-58s %6.2f", what, value);
    if (KINDS == FIRST_KINDS) printf(", target %.2f: %s", most, value <= most ? "met" : "missed");
    printf("\n");
}
