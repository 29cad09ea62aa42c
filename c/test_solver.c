/* archive: solver_probe */
/* Tests of the solver through tables: against a search through all selections, and by the sheet's certificate. */
#include <string.h>
#include "lent.h"

/* A slice is passed as a pointer and a length. 0 where the tables were solved, 1 where they are no network. */
uint32_t probe_solve(uint32_t cards, uint32_t top, const uint32_t *groups, size_t groups_length, const uint32_t *rows,
                     size_t rows_length, uint8_t *choice, size_t choice_length, uint32_t *sheet, size_t sheet_length,
                     uint32_t *scratch, size_t scratch_length);

/* The most places that a group has in the tables: one more than there can be rows, which is as good as any more. */
enum { SMALL_ROWS = 10, HIGHEST = 1000000000, MOST_SPARE = MOST_ROWS + 1 };

/*
 * The tables of a day as the solver has them: the parents of all groups and then their limits; the card nodes of all rows, their shop
 * nodes and then their weights. Card groups come first, then shop groups, then the node over the cards and the node over the shops. The
 * node of a row on a side is the group where it begins to count, or the node over the side where it counts in no group.
 */
static struct {
    uint32_t groups[4 * MOST_GROUPS + PAST], rows[3 * MOST_ROWS + PAST];
} tables;

static size_t groups_of(const struct day *d) { return d->groups[CARD] + d->groups[SHOP]; }

/* The node of a group. TOP stands for the node over its side. */
static uint32_t node_of(const struct day *d, unsigned side, unsigned g) {
    return (uint32_t)(g == TOP ? groups_of(d) + side : side == CARD ? g : d->groups[CARD] + g);
}

static void fill_tables(const struct day *d) {
    for (unsigned side = 0; side < 2; side++) {
        for (unsigned g = 0; g < d->groups[side]; g++) {
            tables.groups[node_of(d, side, g)] = node_of(d, side, d->parent[side][g]);
            tables.groups[groups_of(d) + node_of(d, side, g)] = d->limit[side][g] < MOST_SPARE ? d->limit[side][g] : MOST_SPARE;
        }
        for (unsigned c = 0; c < d->rows; c++) tables.rows[side * d->rows + c] = node_of(d, side, counts_from(d, side, c));
    }
    for (unsigned c = 0; c < d->rows; c++) tables.rows[2 * d->rows + c] = (uint32_t)weight_of(d, d->kind[c]);
    fill_lent();
}

/* How many cells of scratch the solver needs. */
static size_t cells(const struct day *d) { return 4 * groups_of(d) + 3 * d->rows + 4; }

/* Solves the tables, with scratch longer than needed by `more` cells. */
static uint32_t solve(const struct day *d, unsigned kinds, size_t more) {
    return probe_solve(d->groups[CARD], (uint32_t)weight_of(d, kinds - 1), tables.groups, 2 * groups_of(d), tables.rows, 3 * d->rows,
                       lent.choice, d->rows, lent.sheet, groups_of(d) + d->rows, lent.scratch, cells(d) + more);
}

/* Everything that the solver leaves besides which rows are kept. */
static int left_well(const struct day *d, unsigned kinds, size_t more) {
    for (unsigned c = 0; c < d->rows; c++)
        if (lent.choice[c] > 1) return 0;
    return fits_day(d, lent.choice) && certified(d, kinds, lent.choice, lent.sheet) &&
           untouched(d->rows, groups_of(d) + d->rows, cells(d) + more);
}

/* ---- Small days ---- */

/* A group of a side, or TOP where it has none and, where `rarely` is not 0, one time in so many. */
static unsigned any_group(const struct day *d, unsigned side, unsigned rarely) {
    return d->groups[side] == 0 || (rarely && below(rarely) == 0) ? TOP : below(d->groups[side]);
}

/* A row of any two groups, or now and then of none on a side. */
static void draw_row(struct day *d, unsigned card_rarely, unsigned shop_rarely, unsigned kinds) {
    unsigned card = any_group(d, CARD, card_rarely), shop = any_group(d, SHOP, shop_rarely);
    add_row(d, card, shop, below(kinds));
}

/* Up to ten rows. One day of three has rows in no group, and a row may be the one before it once more. */
static struct day small(unsigned kinds) {
    struct day d = {0};
    unsigned rarely = below(3) ? 0 : 3;
    for (unsigned side = 0; side < 2; side++) draw_side(&d, side, side == CARD ? 1 + below(5) : below(6), 1 + below(5));
    for (unsigned n = below(SMALL_ROWS + 1); n > 0; n--) {
        unsigned last = d.rows - 1;
        if (d.rows && below(4) == 0)
            add_row(&d, d.group[CARD][last], d.group[SHOP][last], d.kind[last]);
        else
            draw_row(&d, rarely, below(8) ? 0 : rarely, kinds);
    }
    return d;
}

static void against_search(const struct day *d, unsigned kinds, const char *what) {
    uint8_t best[SMALL_ROWS];
    size_t more = below(2) ? PAST : 0;
    fill_tables(d);
    search_all(d, kinds, best);
    expect(solve(d, kinds, more) == 0 && left_well(d, kinds, more) && memcmp(lent.choice, best, d->rows) == 0, "%s", what);
}

static void small_days(void) {
    for (int n = 0; n < 300; n++) {
        struct day two = small(2), four = small(4);
        against_search(&two, 2, "a random day of two kinds");
        against_search(&four, 4, "a random day of four kinds");
    }
    struct day none = flat_day(3, 1, 2, 1), top = flat_day(1, 0, 1, 0);
    struct day shut = flat_day(2, 0, 2, 0), same = flat_day(2, 4, 1, 4), wide = flat_day(2, TOP, 2, TOP);
    hang_chains(&same, CARD, 1);
    for (unsigned c = 0; c < SMALL_ROWS; c++) {
        add_row(&top, TOP, TOP, c % 2);
        add_row(&shut, c % 2, c % 2, c % 2);
        add_row(&same, 1, 0, 3);
        add_row(&wide, c % 2, c % 2, c % 2);
    }
    against_search(&none, 4, "groups and no rows");
    against_search(&top, 2, "every row in no group");
    against_search(&shut, 2, "every limit 0");
    against_search(&same, 4, "the same row ten times");
    against_search(&wide, 2, "every limit large");
}

/* ---- Large days ---- */

static void large_day(const struct day *d, unsigned kinds, const char *what) {
    fill_tables(d);
    expect(groups_of(d) == 2 * MOST_GROUPS && d->rows == MOST_ROWS, "a largest day");
    expect(solve(d, kinds, PAST) == 0 && left_well(d, kinds, PAST), "%s", what);
}

/*
 * Each row counts in one card group, of limit 2, and in one shop group, of limit 1. The card groups stand in pairs, one in the other: an
 * ordinary row names the outer one, and an earned row the inner one, so that it counts in the outer one too.
 */
static void flat_matching(unsigned kinds) {
    enum { PAIRS = MOST_GROUPS / 2 };
    struct day d = flat_day(MOST_GROUPS, 2, MOST_GROUPS, 1);
    hang_chains(&d, CARD, PAIRS);
    while (d.rows < MOST_ROWS) {
        unsigned kind = below(kinds), outer = below(PAIRS);
        add_row(&d, kind > 0 ? PAIRS + outer : outer, below(MOST_GROUPS), kind);
    }
    large_day(&d, kinds, "a flat matching");
}

/* Every group is at the top with limit 1, so that the ordinary rows are held by both sides and the earned ones by their shops alone. */
static void free_cards(unsigned kinds) {
    struct day d = flat_day(MOST_GROUPS, 1, MOST_GROUPS, 1);
    draw_rows(&d, MOST_ROWS, kinds);
    large_day(&d, kinds, "earned rows in no card group");
}

/* Each side is one chain, with the limits loosest at its top. */
static void deep_chains(unsigned kinds) {
    struct day d = flat_day(MOST_GROUPS, 0, MOST_GROUPS, 0);
    for (unsigned side = 0; side < 2; side++) {
        hang_chains(&d, side, 1);
        for (unsigned g = 0; g < MOST_GROUPS; g++) d.limit[side][g] = (uint16_t)(MOST_GROUPS - g + below(8));
    }
    draw_rows(&d, MOST_ROWS, kinds);
    large_day(&d, kinds, "deep chains");
}

static void random_forests(unsigned kinds) {
    struct day d = flat_day(MOST_GROUPS, 0, MOST_GROUPS, 0);
    for (unsigned side = 0; side < 2; side++) {
        hang_forest(&d, side, 0, 3);
        for (unsigned g = 0; g < MOST_GROUPS; g++) d.limit[side][g] = (uint16_t)(1 + below(below(5) ? 8 : 300));
    }
    while (d.rows < MOST_ROWS) draw_row(&d, 16, 16, kinds);
    large_day(&d, kinds, "random forests");
}

/* Card i goes to shop i or to shop i + 1, the last card to the last shop only. The rows to the next shop come first, so that they
   are kept first, and the only matching of all cards turns every one of them round. */
static void alternating_paths(unsigned kinds) {
    struct day d = flat_day(MOST_GROUPS, 1, MOST_GROUPS, 1);
    for (unsigned i = 0; i + 1 < MOST_GROUPS; i++) add_row(&d, i, i + 1, 0);
    for (unsigned i = 0; i < MOST_GROUPS; i++) add_row(&d, i, i, 0);
    add_row(&d, MOST_GROUPS - 1, MOST_GROUPS - 1, 0);
    large_day(&d, kinds, "long alternating paths");
    expect(count_rows(&d, lent.choice, 0) == MOST_GROUPS && lent.choice[MOST_GROUPS - 1] == 1 && lent.choice[MOST_ROWS - 1] == 0,
           "every card is matched");
}

static void large_days(void) {
    for (unsigned kinds = 2; kinds <= 4; kinds += 2) {
        flat_matching(kinds);
        free_cards(kinds);
        deep_chains(kinds);
        random_forests(kinds);
        alternating_paths(kinds);
    }
}

/* ---- Tables that are no network ---- */

/* Three card groups, nodes 0 to 2, and three shop groups, nodes 3 to 5; the node over the cards is 6, and that over the shops 7. */
static struct day sound(void) {
    struct day d = flat_day(3, 1, 3, 1);
    hang_chains(&d, CARD, 1);
    d.parent[SHOP][1] = d.parent[SHOP][2] = 0;
    for (unsigned c = 0; c < 4; c++) add_row(&d, c % 3, c % 2, c % 2);
    return d;
}

/* The tables of that day, with one number changed. */
static void changed(uint32_t *cell, uint32_t x, const char *what) {
    struct day d = sound();
    fill_tables(&d);
    *cell = x;
    expect(solve(&d, 2, 0) == 1 && untouched(0, 0, 0), "%s", what);
}

static void ill_formed(void) {
    struct day d = sound();
    uint32_t *parent = tables.groups, *limit = parent + 6, *card = tables.rows, *shop = card + 4, *weight = card + 8;
    fill_tables(&d);
    expect(solve(&d, 2, 0) == 0 && left_well(&d, 2, 0), "the network unchanged");
    changed(parent + 1, 1, "a group that is its own parent");
    changed(parent + 1, 2, "a parent after its group");
    changed(parent + 0, 7, "a card group at the sink");
    changed(parent + 3, 6, "a shop group at the source");
    changed(parent + 4, 2, "a shop group under a card group");
    changed(parent + 2, 8, "a parent past the roots");
    changed(limit + 5, MOST_SPARE + 1, "a limit past the largest");
    changed(card + 0, 3, "a row whose card is a shop group");
    changed(card + 3, 7, "a row whose card is the sink");
    changed(shop + 0, 2, "a row whose shop is a card group");
    changed(shop + 3, 6, "a row whose shop is the source");
    changed(shop + 3, 8, "a row past the roots");
    changed(weight + 3, 6, "a weight past the top");
}

/* The five buffers of that day's tables, in the order in which they are passed, with so many cells each. */
enum { GROUPS, ROWS, CHOICE, SHEET, SCRATCH, BUFFERS };

static uint32_t solve_in(uint32_t cards, uint32_t top, const size_t *have) {
    return probe_solve(cards, top, tables.groups, have[GROUPS], tables.rows, have[ROWS], lent.choice, have[CHOICE], lent.sheet,
                       have[SHEET], lent.scratch, have[SCRATCH]);
}

/* Other lengths and sizes than the tables have, each by itself. */
static void lengths(void) {
    struct day d = sound();
    size_t have[BUFFERS] = {12, 12, 4, 10, cells(&d)};
    uint32_t cards = d.groups[CARD], top = (uint32_t)weight_of(&d, 1);
    for (int one = 0; one < BUFFERS; one++)
        for (int by = -1; by <= 1; by += 2) {
            if (one == SCRATCH && by > 0) continue;
            fill_tables(&d);
            have[one] += (size_t)by;
            expect(solve_in(cards, top, have) == 1 && untouched(0, 0, 0), "a buffer of another length");
            have[one] -= (size_t)by;
        }
    fill_tables(&d);
    expect(solve_in(0, top, (size_t[BUFFERS]){0, 12, 4, 4, cells(&d)}) == 1 && untouched(0, 0, 0), "no group");
    fill_tables(&d);
    expect(solve_in(7, top, have) == 1 && untouched(0, 0, 0), "more card groups than groups");
    fill_tables(&d);
    expect(solve_in(cards, HIGHEST + 1, have) == 1 && untouched(0, 0, 0), "a top past the highest");
    expect(solve_in(cards, HIGHEST, have) == 0, "the highest top");
}

int main(void) {
    start_numbers(20270301);
    small_days();
    large_days();
    ill_formed();
    lengths();
    return all_done();
}
