/*
 * Families of slow days: swaps and stairs. On each of them a settler that begins a search anew for every path, or for every row, looks
 * along the same arcs again each time, so that its time grows with the square of the claims.
 */
#include "slow.h"

/* ---- swaps ---- */

/*
 * A side of swaps: two ends at the top, 0 and 1, and then levels of `width` groups. The first level hangs under the two ends in turn, and
 * each later one under the level before it, group by group. So the even groups of a level are below end 0, and the odd ones below end 1.
 */
struct ends {
    unsigned width, levels;
};

/* Few groups are the two ends alone, wide ones are one level, and deep ones many. Where rows are earned, the cards have a level more. */
static struct ends ends_of(unsigned family, unsigned groups, unsigned more) {
    switch (family) {
    case SWAPS_DEEP:
    case SWAPS_DEEP_EARNED: return (struct ends){2, (groups - 2) / 2};
    case SWAPS_WIDE:
    case SWAPS_WIDE_EARNED: return (struct ends){(groups - 2) / (1 + more) / 2 * 2, 1 + more};
    default: return (struct ends){2, more};
    }
}

static void hang_ends(struct day *d, unsigned side, const struct ends *e, unsigned limit) {
    d->groups[side] = 2 + e->levels * e->width;
    for (unsigned g = 0; g < d->groups[side]; g++) {
        d->parent[side][g] = (uint16_t)(g < 2 ? TOP : g < 2 + e->width ? g % 2 : g - e->width);
        d->limit[side][g] = (uint16_t)limit;
    }
}

/* An end, which is level 0, or any group of a level below it. */
static unsigned group_at(const struct ends *e, unsigned level, unsigned end) {
    return level == 0 ? end : 2 + (level - 1) * e->width + 2 * below(e->width / 2) + end;
}

/*
 * The ends have limits of about a third of the claims, and so have all groups. The first rows fill end 0 of both sides. Then come, in
 * turn, rows from the last level below card end 0 and shop end 1, and rows from that below card end 1 and shop end 0: two of them fit where
 * one of the first rows goes out. So there are as many paths as the limit says, each goes through the levels below all four ends, and each
 * keeps one row more. Where the rows are earned, each names a card group one level lower than the one that it counts in. The limits of
 * later days are lower, and rows are left over.
 */
static struct day swaps(unsigned family, unsigned rows, unsigned number) {
    enum { LEAST_GROUPS = 6 }; /* two ends, and two levels of two */
    unsigned earned = family == SWAPS_FEW_EARNED || family == SWAPS_WIDE_EARNED || family == SWAPS_DEEP_EARNED;
    unsigned groups = rows / 2 < LEAST_GROUPS ? LEAST_GROUPS : rows / 2, limit = rows / 3 - number * rows / 96;
    struct ends cards = ends_of(family, groups, earned), shops = ends_of(family, groups, 0);
    struct day d = {0};
    hang_ends(&d, CARD, &cards, limit);
    hang_ends(&d, SHOP, &shops, limit);
    while (d.rows < rows) {
        unsigned first = d.rows < limit, turn = d.rows % 2;
        unsigned card = group_at(&cards, first ? earned : cards.levels, !first && turn);
        unsigned shop = group_at(&shops, first ? 0 : shops.levels, !first && !turn);
        add_row(&d, card, shop, earned ? earned_kind(d.rows) : 0);
    }
    return d;
}

/* ---- stairs ---- */

/*
 * The cards are a chain, and a step is a card group, from the last one up: it holds as many rows as there are steps below it. Each step has
 * two rows, with one shop: one counts in its card group and the other in the group above. The other one comes in and leaves no place in the
 * group of the next step. So the second rows are kept, and in the row order each first row is searched for: the search comes to every
 * card group above it and to every later shop, and does not come back. Two steps share a shop. On odd days the shops hang under one that
 * is full, and the first card group has a place left. Where the rows are earned, each names the card group below the one that it counts
 * in. Later days have fewer steps and more groups above them. The rows that are left over are equal to the first row.
 */
static struct day stairs(unsigned rows, unsigned number, unsigned earned) {
    unsigned groups = rows / 2 < 2 ? 2 : rows / 2, last = groups - 1 - earned, full = number % 2;
    unsigned most = rows / 2 < last + 1 ? rows / 2 : last + 1, steps = most - number * most / 32;
    struct day d = flat_day(groups, steps - 1, groups, 2);
    hang_chains(&d, CARD, 1);
    for (unsigned step = 0; step < steps; step++) d.limit[CARD][last - step] = (uint16_t)step;
    if (full) {
        for (unsigned g = 1; g < groups; g++) d.parent[SHOP][g] = 0;
        d.limit[SHOP][0] = (uint16_t)(steps - 1);
        d.limit[CARD][0] = (uint16_t)steps;
    }
    while (d.rows < rows) {
        unsigned step = d.rows / 2 < steps ? d.rows / 2 : 0, second = d.rows / 2 < steps && d.rows % 2;
        unsigned counts = last - step - (second && step < last);
        add_row(&d, counts + earned, full + step / 2, earned ? earned_kind(d.rows) : 0);
    }
    return d;
}

/*
 * There are no other days than the first ones: each later one is equal to one of them, but for the groups that are drawn. Some limits of a
 * small day are lowered, so that the file is a new one.
 */
struct day slow_tables_of(unsigned family, unsigned rows, unsigned number) {
    int has_steps = family == STAIRS || family == STAIRS_EARNED;
    struct day d = has_steps ? stairs(rows, number % DAYS, family == STAIRS_EARNED) : swaps(family, rows, number % DAYS);
    return lowered(&d);
}
