/*
 * A day of bread claims for the C tests and for bench/: the day as tables, the bytes of its claim file, days drawn at random, plain
 * answers to compare the library's answers with, and the count of passed and failed cases. c/day.c has the code.
 *
 * How to read this file. It lists what a program may use from c/day.c. `enum` gives names to numbers, and `struct` one name to several
 * values. `unsigned` is a whole number from 0 up; `uint8_t`, `uint16_t`, `uint32_t` and `uint64_t` are such numbers of 8, 16, 32 and 64
 * bits, and `size_t` is a length. `x[n]` is a list of n cells, numbered from 0. A line that ends in brackets is a function: before its
 * name stands what it answers (`void` is nothing, and `int` is 1 for yes and 0 for no here), in the brackets what it is given. A `*`
 * says that it is told where a thing stands in place of the thing itself; with `const` before it the thing is only read.
 */
#ifndef DAY_H
#define DAY_H

#include <stddef.h>
#include <stdint.h>

#ifdef __cplusplus
extern "C" {
#endif

/* The bounds of document 01. All other C files use these names. */
enum {
    MOST_GROUPS = 256,    /* in one section */
    MOST_ROWS = 512,
    WEEKDAYS = 7,         /* the days of a week, numbered from 0 */
    MOST_FILE = 10758,    /* bytes of the longest file, in which all three sections are full */
    MOST_OLD_FILE = 4614, /* the same in the old layout */
    TOP = 65535           /* the parent of a group at the top; also the largest limit */
};

/* What follows from them: how many marks the sheet of the largest day has. */
enum { MOST_MARKS = 2 * MOST_GROUPS + MOST_ROWS };

/* The two sides of a day, as numbers in the tables below. */
enum { CARD, SHOP };

/* ---- The day and its file ---- */

/*
 * A day as tables, with the limits of one weekday. groups[CARD] is the number of card groups and groups[SHOP] that of shop groups;
 * parent[SHOP][3] is the parent of shop group 3; group[CARD][7] is the card group that row 7 names; kind[7] is 1 where row 7 is earned,
 * and 0 where it is ordinary. The solver's tests also use kinds up to 3, and the group TOP for a row that names no group of that side and
 * counts in none.
 */
struct day {
    unsigned groups[2];
    unsigned rows;
    uint16_t parent[2][MOST_GROUPS], limit[2][MOST_GROUPS];
    uint16_t group[2][MOST_ROWS];
    uint8_t kind[MOST_ROWS];
};

/* A week: the day as it is on each weekday. Only the limits differ. */
struct week {
    struct day on[WEEKDAYS];
};

/* Numbers that no weekday has: the first ones, ones whose low bits are weekday 0's, and the largest. */
enum { NO_WEEKDAYS = 5 };
extern const unsigned no_weekdays[NO_WEEKDAYS];

/* The bytes of a claim file. One byte more than the longest file, so that a damaged one can be too long. */
struct file {
    size_t length;
    uint8_t bytes[MOST_FILE + 1];
};

/* The number of 16 bits that stands at a place, low byte first. */
static inline unsigned get16(const uint8_t *at) { return at[0] | (unsigned)at[1] << 8; }

/* Stores such a number at a place, and answers the place after it. */
uint8_t *put16(uint8_t *at, unsigned x);

/* The two layouts of a file. A group record of the old one has one limit, for all weekdays; one of the week layout has seven. */
enum { OLD, WEEK };

/*
 * A file is a new one or a stored one. In a new one no group's limit is above its parent's. In a stored one any limit may stand, and each
 * that is above its parent's counts as that one. Both hold for each weekday by itself.
 */
enum { NEW, STORED };

/* How many kinds of rows there are under each of the two terms. */
enum { FIRST_KINDS = 2, SECOND_KINDS = 4 };

/*
 * How a call takes a file: its layout, OLD or WEEK; whether it is NEW or STORED; the weekday whose limits count; and how many kinds of rows
 * there are.
 */
struct form {
    unsigned layout, stored, weekday, kinds;
};

/* Writes the claim file of a week. In the old layout the limits are those of weekday 0. */
void write_week(const struct week *w, unsigned layout, struct file *f);

/* Writes the claim file of a week that has the same limits on all weekdays. */
void write_day(const struct day *d, unsigned layout, struct file *f);

/*
 * Writes a claim file, as a form says, that holds the day on the form's weekday. On the other weekdays the groups have limits that are
 * drawn at random, except in the old layout.
 */
void write_among(const struct day *d, struct form form, struct file *f);

/* Reads a claim file: 0 and the day with the limits of the form's weekday, as they stand there, or the number of the first fault. */
unsigned read_day(const uint8_t *file, size_t length, struct form form, struct day *d);

/* Whether no group's limit is above its parent's, so that a new file may hold the day. */
int is_new(const struct day *d);

/* The day with its limits lowered: from the first group to the last, each that is above its parent's becomes that one. */
struct day lowered(const struct day *d);

/* The same for each weekday of a week. */
int is_new_week(const struct week *w);
struct week lowered_week(const struct week *w);

/* How many marks and how many cells of scratch a day needs. */
static inline size_t marks_of(const struct day *d) { return d->groups[CARD] + d->groups[SHOP] + d->rows; }
static inline size_t cells_of(const struct day *d) { return 6 * (d->groups[CARD] + d->groups[SHOP]) + 3 * d->rows; }

/* ---- Days, made and drawn ---- */

/* A day whose groups are all at the top, with one limit a side and no row yet. */
struct day flat_day(unsigned cards, unsigned card_limit, unsigned shops, unsigned shop_limit);

/* One row more, after the others. */
void add_row(struct day *d, unsigned card, unsigned shop, unsigned kind);

/* Day A of document 01. */
struct day day_a(void);

/* A day of the most groups a side in one chain, each with this limit, and of the most rows, all at its end; every other row is earned. */
struct day chain_day(unsigned limit);

/*
 * A stream of numbers that look drawn at random and are the same at every run: the seed decides them all. `below(n)` is the next of
 * them, at least 0 and less than n.
 */
void start_numbers(uint64_t seed);
unsigned below(unsigned n);

/* The groups of a side as chains of equal length, so many of them. Every group hangs under an earlier one, or is at the top. */
void hang_chains(struct day *d, unsigned side, unsigned chains);

/*
 * The groups of a side as a forest: of 8 groups `chained` hang under the group just before them; of the others one in `tops` is at the
 * top, and each other one hangs under any earlier group.
 */
void hang_forest(struct day *d, unsigned side, unsigned chained, unsigned tops);

/*
 * A side of `count` groups: a forest, one in three with long chains, and limits from 1 to `most`. Now and then a limit is the largest
 * there is, or 0. It may be above that of the group's parent.
 */
void draw_side(struct day *d, unsigned side, unsigned count, unsigned most);

/* The limits of a side alone, drawn as draw_side does it. */
void draw_limits(struct day *d, unsigned side, unsigned most);

/* `count` rows more, of so many kinds; each names any two groups. */
void draw_rows(struct day *d, unsigned count, unsigned kinds);

/* A day of at most so many groups a side, and at least one, and at most so many rows of the two kinds. Only some are new as drawn. */
struct day random_day(unsigned groups, unsigned rows);

/* A week with the same limits on all weekdays, and one whose limits are the day's on one weekday and drawn anew on the others. */
struct week every_day(const struct day *d);
struct week drawn_week(const struct day *d, unsigned weekday);

/* ---- Plain answers. A selection, or a choice, has one byte a row: 1 where the row is selected, else 0. ---- */

/* How many selected rows are of the kind `least` or a higher one: with 0 all selected rows, with 1 the earned ones. */
unsigned count_rows(const struct day *d, const uint8_t *selection, unsigned least);

/*
 * The group where a row begins to count on a side; it counts there and in every group above. It is the group that the row names, but on
 * the card side, for an earned row, whose kind is 1 or more, that group's parent. TOP where the row counts in no group of the side.
 */
static inline unsigned counts_from(const struct day *d, unsigned side, unsigned row) {
    unsigned named = d->group[side][row];
    return side == CARD && d->kind[row] > 0 && named != TOP ? d->parent[CARD][named] : named;
}

/* Whether the selected rows fit a side, or both sides: no group counts more of them than its limit. */
int fits_side(const struct day *d, unsigned side, const uint8_t *selection);
int fits_day(const struct day *d, const uint8_t *selection);

/*
 * Whether the selected rows fit a side, and how many of them do together at the most, which is their rank: found in three ways.
 *
 * `rank_side`      from the last group to the first, what comes to a group is passed on to its parent, but no more than its limit. What
 *                  comes to the top is the rank; the rows that count in no group are there from the beginning.
 * `rank_greedily`  the selected rows in order: a row is kept where every group that it counts in has a place left beside the rows kept
 *                  before it. The kept rows are the rank.
 * `rank_by_search` the largest of all subsets of the selected rows that fit the side, for a day of at most 16 rows or so.
 */
struct ranked {
    unsigned fits, rank;
};
struct ranked rank_side(const struct day *d, unsigned side, const uint8_t *selection);
struct ranked rank_greedily(const struct day *d, unsigned side, const uint8_t *selection);
struct ranked rank_by_search(const struct day *d, unsigned side, const uint8_t *selection);

/* The best choice of a day of at most 16 rows or so, by going through all selections, for rows of so many kinds. */
void search_all(const struct day *d, unsigned kinds, uint8_t *best);

/* What a row of a kind weighs: more than all rows of the lower kinds together. And what the rows of a choice weigh together. */
uint64_t weight_of(const struct day *d, unsigned kind);
uint64_t worth_of(const struct day *d, const uint8_t *choice);

/*
 * Whether a sheet of marks, of 64 bits, shows that no choice weighs more than this one: no mark is over the weight of the highest kind;
 * the marks of each row, and of every group that counts it, come to its weight at least; and the total, in which each group's mark counts
 * as many times as its limit says, is what the chosen rows weigh. The sheet has the marks of the cards, the shops and then the rows.
 */
int certified_wide(const struct day *d, unsigned kinds, const uint8_t *choice, const uint64_t *sheet);

/* The same of a sheet whose marks have 32 bits. */
int certified(const struct day *d, unsigned kinds, const uint8_t *choice, const uint32_t *sheet);

/* ---- Cases ---- */

/* Counts a case as passed or failed. What is said of one that failed has the form of printf: %s stands for a word, %u for a number. */
void expect(int ok, const char *what, ...) __attribute__((format(printf, 2, 3)));

/* Prints how many cases have passed and failed since the last such line. */
void part_done(const char *name);

/* Prints the closing line, 'N passed, M failed'. Answers the program's exit status: 0 where none failed. */
int all_done(void);

#ifdef __cplusplus
}
#endif

#endif
