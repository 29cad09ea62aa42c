/* A plain judge of files, plain ranks, and a plain judge of closings. */
#include "plain.h"

enum { WIDTH = 2 + 2 * WEEKDAYS }; /* bytes of a group record */

/* Whether a limit of a group record is above that of its parent's record. */
static inline int has_above(const uint8_t *own, const uint8_t *parent) {
    for (unsigned k = 1; k <= WEEKDAYS; k++)
        if (get16(own + 2 * k) > get16(parent + 2 * k)) return 1;
    return 0;
}

/* The first fault of a group section that starts at *at, where its count is left behind. */
static unsigned judge_groups(const uint8_t *file, size_t length, size_t *at, unsigned *count) {
    if (length - *at < 2) return 1;
    unsigned groups = *count = get16(file + *at);
    if (groups > MOST_GROUPS) return 2;
    size_t start = *at += 2;
    for (unsigned g = 0; g < groups; g++, *at += WIDTH) {
        if (length - *at < WIDTH) return 1;
        unsigned parent = get16(file + *at);
        if (parent == TOP) continue;
        if (parent >= g) return 3;
        if (has_above(file + *at, file + start + WIDTH * parent)) return 11;
    }
    return 0;
}

unsigned plain_judge(const uint8_t *file, size_t length) {
    size_t at = 0;
    unsigned cards, shops, fault;
    if ((fault = judge_groups(file, length, &at, &cards))) return fault;
    if ((fault = judge_groups(file, length, &at, &shops))) return fault;
    if (length - at < 2) return 1;
    unsigned rows = get16(file + at);
    if (rows > MOST_ROWS) return 4;
    at += 2;
    for (unsigned c = 0; c < rows; c++, at += 5) {
        if (length - at < 5) return 1;
        if (get16(file + at) >= cards || get16(file + at + 2) >= shops) return 5;
        if (file[at + 4] >= KINDS) return 6;
    }
    return at < length ? 7 : 0;
}

/* The number of a fault in the selection, the weekday or the side, or 0. */
static unsigned judge_selection(const struct day *d, const uint8_t *selection, size_t selected, unsigned side, unsigned weekday) {
    if (selected < d->rows) return 8;
    if (weekday >= WEEKDAYS) return 12;
    for (unsigned c = 0; c < d->rows; c++)
        if (selection[c] > 1) return 9;
    return side > 1 ? 9 : 0;
}

/* The rank by one of the ways of day.h, where nothing is to be refused. */
static struct plain_rank judged_rank(const uint8_t *file, size_t length, const uint8_t *selection, size_t selected, unsigned side,
                                     unsigned weekday, struct ranked (*way)(const struct day *, unsigned, const uint8_t *)) {
    struct day d;
    struct form form = {WEEK, NEW, weekday < WEEKDAYS ? weekday : 0, KINDS};
    unsigned fault = read_day(file, length, form, &d);
    if (!fault) fault = judge_selection(&d, selection, selected, side, weekday);
    if (fault) return (struct plain_rank){fault, 0, 0};
    struct ranked r = way(&d, side, selection);
    return (struct plain_rank){0, r.fits, r.rank};
}

struct plain_rank plain_fits_and_rank(const uint8_t *file, size_t length, const uint8_t *selection, size_t selected, unsigned side,
                                      unsigned weekday) {
    return judged_rank(file, length, selection, selected, side, weekday, rank_side);
}

struct plain_rank greedy_fits_and_rank(const uint8_t *file, size_t length, const uint8_t *selection, size_t selected, unsigned side,
                                       unsigned weekday) {
    return judged_rank(file, length, selection, selected, side, weekday, rank_greedily);
}

/* The price of each group of a side, when those of the groups before it are there. */
static void price_side(const struct day *d, unsigned side, const uint32_t *marks, uint64_t *prices) {
    for (unsigned g = 0; g < d->groups[side]; g++) {
        unsigned up = d->parent[side][g];
        prices[g] = marks[g] + (up == TOP ? 0 : prices[up]);
    }
}

static int covers_rows(const struct day *d, const uint32_t *sheet) {
    static uint64_t prices[2][MOST_GROUPS];
    const uint32_t *own = sheet + d->groups[CARD] + d->groups[SHOP];
    price_side(d, CARD, sheet, prices[CARD]);
    price_side(d, SHOP, sheet + d->groups[CARD], prices[SHOP]);
    for (unsigned c = 0; c < d->rows; c++) {
        unsigned card = counts_from(d, CARD, c);
        uint64_t price = prices[SHOP][d->group[SHOP][c]] + (card == TOP ? 0 : prices[CARD][card]);
        if (own[c] + price < weight_of(d, d->kind[c])) return 0;
    }
    return 1;
}

static uint64_t total_of(const struct day *d, const uint32_t *sheet) {
    uint64_t total = 0;
    for (unsigned side = 0; side < 2; side++)
        for (unsigned g = 0; g < d->groups[side]; g++) total += (uint64_t)d->limit[side][g] * *sheet++;
    for (unsigned c = 0; c < d->rows; c++) total += *sheet++;
    return total;
}

unsigned plain_accept(const uint8_t *file, size_t length, const uint8_t *choice, size_t choices, const uint32_t *sheet, size_t marks,
                      unsigned weekday) {
    static struct day d;
    struct form form = {WEEK, NEW, weekday < WEEKDAYS ? weekday : 0, KINDS};
    unsigned fault = read_day(file, length, form, &d);
    if (fault) return fault;
    if (marks < d.groups[CARD] + d.groups[SHOP] + d.rows) return 8;
    fault = judge_selection(&d, choice, choices, CARD, weekday);
    if (fault) return fault;
    if (!rank_side(&d, CARD, choice).fits || !rank_side(&d, SHOP, choice).fits) return 13;
    if (!covers_rows(&d, sheet)) return 14;
    return total_of(&d, sheet) == worth_of(&d, choice) ? 0 : 15;
}
