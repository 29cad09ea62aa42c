/*
 * The tables: every contestant on every family of days, and on days that are given as files.
 *
 *   bench table FILE...      all tables, with the files as the found days
 *   bench files FILE...      the table of these files
 *   bench day F N K          one day: family F (0 to 17), N claims, number K
 *   bench list               a line for each family: 1 or 0, for whether it is in the mean, and its name
 *   bench once WHO F N       contestant WHO settles the days of family F once, for a count of its instructions
 */
#include <stdio.h>
#include <stdlib.h>
#include <string.h>
#include "found.h"
#include "measure.h"
#include "ours.h"
#include "works.h"

enum { OURS = 0, SIZES = 4, FULL = 3 };

static const unsigned sizes[SIZES] = {MOST_ROWS / 8, MOST_ROWS / 4, MOST_ROWS / 2, MOST_ROWS};

/* Medians of each day, and their means over the days of a family. */
static double days[SIZES][MOST_DAYS][MOST_CONTESTANTS];
static double means[FAMILIES][SIZES][MOST_CONTESTANTS];

/* All days of a size, family after family. */
static void measure_size(unsigned s) {
    static struct file files[MOST_DAYS];
    for (unsigned d = 0; d < MOST_DAYS; d++) make_day(d / DAYS, sizes[s], d % DAYS, &files[d]);
    measure_days(files, MOST_DAYS, REPEATS, days[s]);
    for (unsigned d = 0; d < MOST_DAYS; d++)
        for (unsigned who = 0; who < contestant_count; who++) means[d / DAYS][s][who] += days[s][d][who] / DAYS;
}

/* The mean at full size, over the families that are in it. */
static double mean_of(unsigned who) {
    double sum = 0;
    for (unsigned f = 0; f < IN_MEAN; f++) sum += means[f][FULL][who];
    return sum / IN_MEAN;
}

/* The hand-written peer with the least mean at full size. */
static unsigned best_peer(void) {
    unsigned best = OURS;
    for (unsigned who = 1; who < contestant_count; who++)
        if (contestants[who].knows_rows && (best == OURS || mean_of(who) < mean_of(best))) best = who;
    return best;
}

/* LEMON's place among the contestants, or OURS where it is not built in. */
static unsigned lemon(void) {
    for (unsigned who = 1; who < contestant_count; who++)
        if (!contestants[who].knows_rows) return who;
    return OURS;
}

static double greater(double a, double b) { return a < b ? b : a; }

/* The greatest ratio of ours to a peer on a day of the families from `first` on and before `end`. */
static double worst_day(unsigned first, unsigned end, unsigned peer) {
    double worst = 0;
    for (unsigned d = first * DAYS; d < end * DAYS; d++) worst = greater(worst, days[FULL][d][OURS] / days[FULL][d][peer]);
    return worst;
}

/* The greatest ratio of the means of a family. */
static double worst_family(unsigned peer) {
    double worst = 0;
    for (unsigned f = 0; f < FAMILIES; f++) worst = greater(worst, means[f][FULL][OURS] / means[f][FULL][peer]);
    return worst;
}

static void print_ratio(double ours, double theirs, int known) {
    if (known)
        printf(" %9.2f", ours / theirs);
    else
        printf(" %9s", "-");
}

static void print_line(const char *name, const double *times, unsigned peer, double worst) {
    printf("%-18s", name);
    for (unsigned who = 0; who < contestant_count; who++) printf(" %9.1f", times[who]);
    print_ratio(times[OURS], times[lemon()], lemon() != OURS);
    print_ratio(times[OURS], times[peer], 1);
    printf(" %9.2f\n", worst);
}

/* Full-size days: a line for each family in the mean, the mean, and a line for each other family. */
static void print_families(unsigned peer) {
    double all[MOST_CONTESTANTS];
    for (unsigned who = 0; who < contestant_count; who++) all[who] = mean_of(who);
    if (KINDS == SECOND_KINDS) printf("\nThe second terms: four kinds of rows, and weights of 64 bits.\n");
    printf("\nDays of %u claims, microseconds: mean over %u days of the median of %u.\n", sizes[FULL], DAYS, REPEATS);
    printf("%-18s", "family");
    for (unsigned who = 0; who < contestant_count; who++) printf(" %9s", contestants[who].name);
    printf(" %9s %9s %9s\n", "to LEMON", "to best C", "worst day");
    for (unsigned f = 0; f < FAMILIES; f++) {
        if (f == IN_MEAN) print_line("mean of these", all, peer, worst_day(0, IN_MEAN, peer));
        print_line(families[f].name, means[f][FULL], peer, worst_day(f, f + 1, peer));
    }
}

/* Ours at each size, and how it grows with each doubling. Answers the greatest growth of a family whose answer is not far. */
static double print_growth(void) {
    double most = 0;
    printf("\nOurs as claims double, microseconds and growth.\n%-18s", "family");
    for (unsigned s = 0; s < SIZES; s++) printf(" %9u", sizes[s]);
    for (unsigned s = 1; s < SIZES; s++) printf("    to %3u", sizes[s]);
    printf("\n");
    for (unsigned f = 0; f < FAMILIES; f++) {
        printf("%-18s", families[f].name);
        for (unsigned s = 0; s < SIZES; s++) printf(" %9.1f", means[f][s][OURS]);
        for (unsigned s = 1; s < SIZES; s++) {
            double growth = means[f][s][OURS] / means[f][s - 1][OURS];
            printf(" %9.2f", growth);
            if (!families[f].is_far) most = greater(most, growth);
        }
        printf("%s\n", families[f].is_far ? "  many arcs to turn" : "");
    }
    return most;
}

/* The days of files: a line for each, with the ratio of ours to each other contestant. */
static void print_files(const char *what, unsigned count, char **paths) {
    static struct file files[MOST_FOUND];
    static double medians[MOST_FOUND][MOST_CONTESTANTS];
    struct day tables;
    for (unsigned k = 0; k < count; k++) read_file(paths[k], &files[k], &tables);
    measure_days(files, count, REPEATS, medians);
    printf("\nDays as files, microseconds: the median of %u, and ours to each other.\n%-18s", REPEATS, what);
    for (unsigned who = 0; who < contestant_count; who++) printf(" %9s", contestants[who].name);
    for (unsigned who = 1; who < contestant_count; who++)
        printf("%*s %s", 12 - (int)strlen(contestants[who].name), "to", contestants[who].name);
    printf("\n");
    for (unsigned k = 0; k < count; k++) {
        printf("%-18s", name_of(paths[k]));
        for (unsigned who = 0; who < contestant_count; who++) printf(" %9.1f", medians[k][who]);
        for (unsigned who = 1; who < contestant_count; who++) printf(" %12.2f", medians[k][OURS] / medians[k][who]);
        printf("\n");
    }
}

static void print_targets(unsigned peer, double growth) {
    printf("\n");
    if (lemon() != OURS) target("mean to LEMON's NetworkSimplex", mean_of(OURS) / mean_of(lemon()), 0.4);
    printf("best hand-written C: %s\n", contestants[peer].name);
    target("mean to the best hand-written C", mean_of(OURS) / mean_of(peer), 0.4);
    target("greatest family to the best hand-written C", worst_family(peer), 1);
    target("worst day to the best hand-written C", worst_day(0, FAMILIES, peer), 1.3);
    target("greatest growth as claims double", growth, 2.6);
    print_work_targets();
}

static void print_tables(unsigned count, char **paths) {
    for (unsigned s = 0; s < SIZES; s++) measure_size(s);
    measure_works();
    unsigned peer = best_peer();
    print_families(peer);
    double growth = print_growth();
    if (count > 0) print_files("found day", count, paths);
    print_works();
    print_targets(peer, growth);
}

static void one_day(unsigned family, unsigned rows, unsigned number) {
    double medians[1][MOST_CONTESTANTS];
    struct file day;
    struct outcome out;
    make_day(family, rows, number, &day);
    ours_settle(day.bytes, day.length, &out);
    measure_days(&day, 1, MOST_REPEATS, medians);
    printf("%s, %u claims, day %u: ", families[family].name, rows, number);
    if (KINDS == FIRST_KINDS) printf("earned %u, ", out.of_kind[1]);
    for (unsigned kind = KINDS; KINDS == SECOND_KINDS && kind-- > 0;) printf("%u of kind %u, ", out.of_kind[kind], kind);
    printf("kept %u\n", out.kept);
    for (unsigned who = 0; who < contestant_count; who++)
        printf("%-10s %9.1f us, ours to it %.2f\n", contestants[who].name, medians[0][who], medians[0][OURS] / medians[0][who]);
}

static void settle_once(unsigned who, unsigned family, unsigned rows) {
    struct file day;
    struct outcome out;
    for (unsigned k = 0; k < DAYS; k++) {
        make_day(family, rows, k, &day);
        contestants[who].settle(day.bytes, day.length, &out);
    }
}

static unsigned number_of(const char *text) { return (unsigned)strtoul(text, NULL, 10); }

static int is(const char *word, int argc, char **argv) { return argc > 1 && strcmp(argv[1], word) == 0; }

int main(int argc, char **argv) {
    unsigned files = (unsigned)argc - 2;
    if (is("table", argc, argv) && files <= MOST_FOUND) {
        print_tables(files, argv + 2);
    } else if (is("files", argc, argv) && files <= MOST_FOUND) {
        print_files("file", files, argv + 2);
    } else if (is("day", argc, argv) && argc == 5) {
        if (number_of(argv[2]) >= FAMILIES || number_of(argv[3]) > MOST_ROWS || number_of(argv[3]) < 2) return 2;
        one_day(number_of(argv[2]), number_of(argv[3]), number_of(argv[4]));
    } else if (is("list", argc, argv)) {
        for (unsigned f = 0; f < FAMILIES; f++) printf("%d %s\n", f < IN_MEAN, families[f].name);
    } else if (is("once", argc, argv) && argc == 5) {
        if (number_of(argv[2]) >= contestant_count || number_of(argv[3]) >= FAMILIES) return 2;
        settle_once(number_of(argv[2]), number_of(argv[3]), number_of(argv[4]));
    } else {
        return 2;
    }
    return 0;
}
