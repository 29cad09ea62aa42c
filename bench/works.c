/* Reading, fits and rank, and accept. They are measured under the first terms alone. */
#include "works.h"

#include <stdio.h>
#include "measure.h"
#include "ours.h"

#if KINDS == 2

static volatile unsigned sink;
static uint8_t selection[MOST_ROWS];
static struct day tables;

static void judge_ours(const void *with) {
    const struct file *d = with;
    sink += ours_judge(d->bytes, d->length);
}
static void judge_plain(const void *with) {
    const struct file *d = with;
    sink += plain_judge(d->bytes, d->length);
}
static void read_plain(const void *with) {
    const struct file *d = with;
    sink += read_day(d->bytes, d->length, week_file, &tables);
}
static void rank_ours(const void *with) {
    const struct file *d = with;
    sink += ours_fits_and_rank(d->bytes, d->length, selection, MOST_ROWS, 0, 0).rank;
    sink += ours_fits_and_rank(d->bytes, d->length, selection, MOST_ROWS, 1, 0).rank;
}
static void rank_plain(const void *with) {
    const struct file *d = with;
    sink += plain_fits_and_rank(d->bytes, d->length, selection, MOST_ROWS, 0, 0).rank;
    sink += plain_fits_and_rank(d->bytes, d->length, selection, MOST_ROWS, 1, 0).rank;
}
static void rank_greedy(const void *with) {
    const struct file *d = with;
    sink += greedy_fits_and_rank(d->bytes, d->length, selection, MOST_ROWS, 0, 0).rank;
    sink += greedy_fits_and_rank(d->bytes, d->length, selection, MOST_ROWS, 1, 0).rank;
}

/* Our own closing of the day, which stands in `closing` and in our sheet. */
static struct outcome closing;
static void accept_ours(const void *with) {
    const struct file *d = with;
    sink += ours_accept(d->bytes, d->length, closing.choice, MOST_ROWS, 0);
}
static void accept_plain(const void *with) {
    const struct file *d = with;
    sink += plain_accept(d->bytes, d->length, closing.choice, MOST_ROWS, ours_sheet(), MOST_MARKS, 0);
}

static void (*const works[])(const void *) = {judge_ours, judge_plain, read_plain, rank_ours, rank_plain, rank_greedy,
                                              accept_ours, accept_plain};
enum { TIMES = 20 };
enum { JUDGE_OURS, JUDGE_PLAIN, READ_PLAIN, RANK_OURS, RANK_PLAIN, RANK_GREEDY, ACCEPT_OURS, ACCEPT_PLAIN, WORKS };

static double work_means[WORKS];

/* Reading, whole files and files that end early; ranks of two thirds of the rows, both sides; and our own closing judged. */
void measure_works(void) {
    struct file day;
    for (unsigned c = 0; c < MOST_ROWS; c++) selection[c] = c % 3 != 0;
    for (unsigned f = 0; f < IN_MEAN; f++)
        for (unsigned k = 0; k < DAYS; k++) {
            make_day(f, MOST_ROWS, k, &day);
            if (k % 2 == 0) day.length -= k + 1;
            for (unsigned w = 0; w < RANK_OURS; w++) work_means[w] += measure_work(works[w], &day, TIMES, REPEATS) / MEAN_DAYS;
            make_day(f, MOST_ROWS, k, &day);
            ours_settle(day.bytes, day.length, &closing);
            for (unsigned w = RANK_OURS; w < WORKS; w++) work_means[w] += measure_work(works[w], &day, TIMES, REPEATS) / MEAN_DAYS;
        }
}

void print_works(void) {
    printf("\nReading a file (accepted or refused), fits and rank of both sides, and accept of our own closing, microseconds.\n");
    printf("reading:       ours %.2f, plain C %.2f, plain C into tables %.2f\n", work_means[JUDGE_OURS], work_means[JUDGE_PLAIN],
           work_means[READ_PLAIN]);
    printf("fits and rank: ours %.2f, plain C %.2f, greedy plain C %.2f\n", work_means[RANK_OURS], work_means[RANK_PLAIN],
           work_means[RANK_GREEDY]);
    printf("accept:        ours %.2f, plain C %.2f\n", work_means[ACCEPT_OURS], work_means[ACCEPT_PLAIN]);
}

void print_work_targets(void) {
    target("reading to a plain C reader", work_means[JUDGE_OURS] / work_means[JUDGE_PLAIN], 3);
    target("reading to a plain C reader into tables", work_means[JUDGE_OURS] / work_means[READ_PLAIN], 3);
    target("fits and rank to plain C", work_means[RANK_OURS] / work_means[RANK_PLAIN], 1.5);
    target("fits and rank to greedy plain C", work_means[RANK_OURS] / work_means[RANK_GREEDY], 3);
    target("accept to plain C", work_means[ACCEPT_OURS] / work_means[ACCEPT_PLAIN], 1.5);
}

#else

void measure_works(void) {}
void print_works(void) {}
void print_work_targets(void) {}

#endif
