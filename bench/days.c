/* Families of days. Each day follows from its family, its size and its number alone. */
#include "slow.h"

/* The answer of deep swaps is far: on a day of 512 claims there are 144 to 170 paths to turn, each of more than 500 arcs. */
const struct family families[FAMILIES] = {
    {"flat matchings", 0},
    {"deep chains", 0},
    {"random forests", 0},
    {"binary trees", 0},
    {"alternating paths", 0},
    {"many ties", 0},
    {"all earned", 0},
    {"all ordinary", 0},
    {"nothing fits", 0},
    {"everything fits", 0},
    {"swaps few", 0},
    {"swaps few earned", 0},
    {"swaps wide", 0},
    {"swaps wide earned", 0},
    {"swaps deep", 1},
    {"swaps deep earned", 1},
    {"stairs", 0},
    {"stairs earned", 0},
};

/* ---- the shape of the groups ---- */

static void hang_binary(struct day *d, unsigned side) {
    for (unsigned g = 1; g < d->groups[side]; g++) d->parent[side][g] = (uint16_t)((g - 1) / 2);
}

/* A flat day has pairs of groups, one in the other. There is one chain on the even days, else there are four. */
static void hang_groups(struct day *d, unsigned side, unsigned family, unsigned number) {
    switch (family) {
    case FLAT:
    case PATHS: hang_chains(d, side, (d->groups[side] + 1) / 2); break;
    case CHAINS: hang_chains(d, side, number % 2 ? 4 : 1); break;
    case BINARY: hang_binary(d, side); break;
    default: hang_forest(d, side, 0, 8);
    }
}

/* ---- the rows ---- */

/* Of four rows, one, two or three are earned, by the day's number. Their kinds apart, the days are the same under both terms. */
static void draw_kinds(struct day *d, unsigned family, unsigned number) {
    for (unsigned c = 0; c < d->rows; c++) {
        unsigned earned = earned_kind(c);
        d->kind[c] = (uint8_t)(below(4) < 1 + number % 3 ? earned : 0);
        if (family == EARNED) d->kind[c] = (uint8_t)earned;
        if (family == ORDINARY) d->kind[c] = 0;
    }
}

/* A row names any two groups. */
static void name_groups(struct day *d, unsigned c) {
    for (int side = 0; side < 2; side++) d->group[side][c] = (uint16_t)below(d->groups[side]);
}

static void draw_any_rows(struct day *d) {
    for (unsigned c = 0; c < d->rows; c++) name_groups(d, c);
}

/* Each row names one of a few groups a side, so that many rows are equal. */
static void draw_equal_rows(struct day *d) {
    unsigned few = d->groups[CARD] / 16 + 1;
    uint16_t named[2][MOST_GROUPS];
    for (int side = 0; side < 2; side++)
        for (unsigned k = 0; k < few; k++) named[side][k] = (uint16_t)below(d->groups[side]);
    for (unsigned c = 0; c < d->rows; c++)
        for (int side = 0; side < 2; side++) d->group[side][c] = named[side][below(few)];
}

static void swap_rows(struct day *d, unsigned a, unsigned b) {
    for (int side = 0; side < 2; side++) {
        uint16_t was = d->group[side][a];
        d->group[side][a] = d->group[side][b];
        d->group[side][b] = was;
    }
}

/*
 * Paths card 0, shop 0, card 1, shop 1, ...: the links that lead on (shop g to card g + 1) come first in the file, so whoever takes
 * rows in order has to turn whole paths round. There are more paths on later days, and on odd days the rows are mixed. A path goes over
 * pairs of groups, and each link is there twice.
 */
static void draw_paths(struct day *d, unsigned number) {
    unsigned pairs = d->groups[CARD] > 1 ? d->groups[CARD] / 2 : 1, half = d->rows / 2, shift = number / 2 * 2;
    unsigned length = pairs >> shift ? pairs >> shift : 1;
    for (unsigned c = 0; c < d->rows; c++) {
        unsigned g = c % half % pairs;
        int leads_on = c < half && g % length != length - 1 && g + 1 < pairs;
        d->group[CARD][c] = (uint16_t)(leads_on ? g + 1 : g);
        d->group[SHOP][c] = (uint16_t)g;
    }
    for (unsigned c = d->rows - 1; number % 2 && c > 0; c--) swap_rows(d, c, below(c + 1));
}

/*
 * The rows of a flat day name the inner groups of the pairs, which come after the outer ones. All have limit 1. So an earned row, which
 * does not count in the inner card group, is held by the outer one as an ordinary row is, and the day is a matching of pairs. One group
 * alone is no pair.
 */
static void name_inner(struct day *d) {
    for (unsigned side = 0; side < 2; side++) {
        unsigned pairs = d->groups[side] / 2, outer = d->groups[side] - pairs;
        for (unsigned c = 0; pairs > 0 && c < d->rows; c++) d->group[side][c] = (uint16_t)(outer + d->group[side][c] % pairs);
    }
}

/* ---- the limits ---- */

static unsigned top_of(const struct day *d, unsigned side, unsigned g) {
    while (d->parent[side][g] != TOP) g = d->parent[side][g];
    return g;
}

/* Whether a row counts in a group at the top of a side that has limit 0. */
static int is_shut(const struct day *d, unsigned side, unsigned c) {
    unsigned g = counts_from(d, side, c);
    return g != TOP && d->limit[side][top_of(d, side, g)] == 0;
}

/* The limit of a group to which `come` rows come: less than that by a cut below `cuts`, or, with no cuts, a part from half to all. */
static unsigned draw_limit(unsigned come, unsigned cuts) {
    if (cuts == 0) return come * (4 + below(5)) / 8;
    unsigned cut = below(cuts);
    return come > cut ? come - cut : come > 0;
}

/*
 * From the last group up: how many rows come to a group when the groups below it are full, and a limit for them. Each row comes to the
 * group that it names. An earned row counts above its card group, so that there more rows come than the limit was drawn for.
 */
static void rising_limits(struct day *d, unsigned cuts) {
    for (int side = 0; side < 2; side++) {
        unsigned come[MOST_GROUPS] = {0};
        for (unsigned c = 0; c < d->rows; c++) come[d->group[side][c]]++;
        for (unsigned g = d->groups[side]; g-- > 0;) {
            unsigned limit = draw_limit(come[g], cuts);
            d->limit[side][g] = (uint16_t)limit;
            if (d->parent[side][g] != TOP) come[d->parent[side][g]] += limit;
        }
    }
}

/* Of the groups at the top some have limit 0, and each row is drawn again until it counts in one of them. */
static void shut_all(struct day *d) {
    for (int side = 0; side < 2; side++)
        for (unsigned g = 0; g < d->groups[side]; g++)
            if (d->parent[side][g] == TOP && (g == 0 || below(2))) d->limit[side][g] = 0;
    for (unsigned c = 0; c < d->rows; c++)
        while (!is_shut(d, CARD, c) && !is_shut(d, SHOP, c)) name_groups(d, c);
}

/* With cuts of 0 to 2 about half of the rows fit each side alone. The limits of a flat day are 1 already. */
static void set_limits(struct day *d, unsigned family) {
    switch (family) {
    case FLAT:
    case PATHS: break;
    case TIES: rising_limits(d, 0); break;
    case EVERYTHING: rising_limits(d, 1); break;
    default: rising_limits(d, 3);
    }
    if (family == NOTHING) shut_all(d);
}

/* The limits are lowered last, so that the file is a new one. */
struct day tables_of(unsigned family, unsigned rows, unsigned number) {
    struct day d = flat_day(rows / 2, 1, rows / 2, 1);
    d.rows = rows;
    start_numbers(20270301u + family * 1000003u + rows * 10007u + number);
    if (family >= IN_MEAN) return slow_tables_of(family, rows, number);
    for (unsigned side = 0; side < 2; side++) hang_groups(&d, side, family, number);
    if (family == PATHS)
        draw_paths(&d, number);
    else if (family == TIES)
        draw_equal_rows(&d);
    else
        draw_any_rows(&d);
    if (family == FLAT || family == PATHS) name_inner(&d);
    draw_kinds(&d, family, number);
    set_limits(&d, family);
    return lowered(&d);
}

void make_day(unsigned family, unsigned rows, unsigned number, struct file *file) {
    struct day d = tables_of(family, rows, number);
    write_day(&d, WEEK, file);
}
