/*
 * Tests of fits and rank and of spare places, for each sort of file: the refusals, worked days on each weekday, and random days against
 * the plain answers of day.h. On the weekdays that are not named a file has other limits, and they must not matter. In day.h the rank is
 * found in three ways: from the last group to the first, as the library does; greedily; and, on small days, by going through all subsets
 * of the selected rows. The spare places are found in two ways: by counting the rows of each group, and by adding rows to the day until
 * one does not fit. The answers for a stored day must be those by its limits as they stand and by the lowered ones.
 */
#include <stdio.h>
#include <string.h>
#include "sorts.h"

/* The sort whose turn it is, and the weekday that the calls name. */
static const struct sort *by;
static unsigned weekday;

/* A claim file or a selection that is lent to a call: where it stands and how many bytes it has. */
struct bytes {
    const uint8_t *at;
    size_t length;
};

/* The bytes of a text, of which the last, which C adds by itself, does not belong to it. */
#define BYTES(text) ((struct bytes){(const uint8_t *)(text), sizeof(text) - 1})

/* ---- The calls, with a look at what is lent to them ---- */

static uint8_t file_before[MOST_FILE + 1], selection_before[MOST_ROWS + 8];

static void remember(struct bytes file, struct bytes selection) {
    memcpy(file_before, file.at, file.length);
    memcpy(selection_before, selection.at, selection.length);
}

static void unchanged(struct bytes file, struct bytes selection) {
    if (memcmp(file_before, file.at, file.length) != 0 || memcmp(selection_before, selection.at, selection.length) != 0)
        expect(0, "lent memory was changed");
}

static void equal(const char *what, unsigned is, unsigned must) { expect(is == must, "%s: %u, but must be %u", what, is, must); }

static struct claims_fits_and_rank_answer fits_and_rank(struct bytes file, struct bytes selection, uint32_t side) {
    remember(file, selection);
    struct claims_fits_and_rank_answer told = by->fits_and_rank(file.at, file.length, selection.at, selection.length, side, weekday);
    unchanged(file, selection);
    return told;
}

/* What fits and rank must answer: the refusal, or 0 and whether the selection fits and its rank. */
static void ranked(const char *what, struct bytes file, struct bytes selection, uint32_t side, unsigned refusal, unsigned fits,
                   unsigned rank) {
    struct claims_fits_and_rank_answer told = fits_and_rank(file, selection, side);
    equal(what, told.refusal, refusal);
    equal(what, told.fits, fits);
    equal(what, told.rank, rank);
}

static void spare(const char *what, struct bytes file, struct bytes selection, uint32_t row, unsigned refusal, unsigned places) {
    remember(file, selection);
    struct claims_spare_places_answer told = by->spare_places(file.at, file.length, selection.at, selection.length, row, weekday);
    unchanged(file, selection);
    equal(what, told.refusal, refusal);
    equal(what, told.places, places);
}

/* ---- Worked days ---- */

/* A file that holds a day on the weekday. */
static struct bytes file_of(const struct day *d) {
    static struct file f;
    write_among(d, form_of(by, weekday), &f);
    return (struct bytes){f.bytes, f.length};
}

static struct bytes file_of_day_a(void) {
    struct day a = day_a();
    return file_of(&a);
}

/* One ordinary row in a card group of the greatest limit, and in a shop group of this limit. */
static struct bytes file_of_one_row(unsigned limit) {
    struct day d = flat_day(1, TOP, 1, limit);
    add_row(&d, 0, 0, 0);
    return file_of(&d);
}

#define DAY_A file_of_day_a()
#define DAY_E BYTES("\0\0\0\0\0\0")
#define NOTHING BYTES("")

/* What is judged after the file, in its order. */
static void refusals(void) {
    ranked("short, byte over 1, side over 1", DAY_A, BYTES("\1\2"), 2, CLAIMS_SHORT, 0, 0);
    ranked("byte over 1", DAY_A, BYTES("\1\2\0"), CLAIMS_CARD, CLAIMS_VALUE, 0, 0);
    ranked("side over 1", DAY_A, BYTES("\1\1\1"), 2, CLAIMS_VALUE, 0, 0);
    ranked("side far over 1", DAY_A, BYTES("\1\1\1"), 0xffffffff, CLAIMS_VALUE, 0, 0);
    spare("short, row too high", DAY_A, BYTES("\1\2"), 3, CLAIMS_SHORT, 0);
    spare("byte over 1, row selected", DAY_A, BYTES("\1\2\0"), 0, CLAIMS_VALUE, 0);
    spare("row too high", DAY_A, BYTES("\1\1\1"), 3, CLAIMS_VALUE, 0);
    spare("row too high, the byte past the last row is 1", DAY_A, BYTES("\0\0\0\1"), 3, CLAIMS_VALUE, 0);
    spare("row far too high", DAY_A, BYTES("\1\1\1"), 0xffffffff, CLAIMS_VALUE, 0);
    spare("no row", DAY_E, NOTHING, 0, CLAIMS_VALUE, 0);
    spare("row selected", DAY_A, BYTES("\0\1\0"), 1, CLAIMS_SELECTED, 0);
    spare("row selected, the selection does not fit", DAY_A, BYTES("\1\0\1"), 2, CLAIMS_SELECTED, 0);
}

/* A day that the week does not have: judged after the lengths, and before the selection's bytes, the side and the row. */
static void no_such_day(void) {
    for (unsigned k = 0; k < NO_WEEKDAYS; k++) {
        struct bytes cut = DAY_A;
        weekday = no_weekdays[k];
        ranked("day over 6", DAY_A, BYTES("\1\1\0"), CLAIMS_SHOP, CLAIMS_DAY, 0, 0);
        ranked("day over 6, a longer selection", DAY_A, BYTES("\1\1\0\0"), CLAIMS_CARD, CLAIMS_DAY, 0, 0);
        ranked("day over 6, byte over 1", DAY_A, BYTES("\1\2\0"), CLAIMS_CARD, CLAIMS_DAY, 0, 0);
        ranked("day over 6, side over 1", DAY_A, BYTES("\1\1\0"), 2, CLAIMS_DAY, 0, 0);
        ranked("day over 6, no row", DAY_E, NOTHING, CLAIMS_CARD, CLAIMS_DAY, 0, 0);
        ranked("short, day over 6", DAY_A, BYTES("\1\1"), CLAIMS_CARD, CLAIMS_SHORT, 0, 0);
        spare("day over 6", DAY_A, BYTES("\0\1\0"), 0, CLAIMS_DAY, 0);
        spare("day over 6, byte over 1", DAY_A, BYTES("\0\2\0"), 0, CLAIMS_DAY, 0);
        spare("day over 6, row too high", DAY_A, BYTES("\0\1\0"), 3, CLAIMS_DAY, 0);
        spare("day over 6, row selected", DAY_A, BYTES("\0\1\0"), 1, CLAIMS_DAY, 0);
        spare("short, day over 6", DAY_A, BYTES("\0\1"), 0, CLAIMS_SHORT, 0);
        cut.length--;
        ranked("cut off, day over 6", cut, BYTES("\1\1\0"), CLAIMS_CARD, CLAIMS_CUT_OFF, 0, 0);
        spare("cut off, day over 6", cut, BYTES("\0\1\0"), 0, CLAIMS_CUT_OFF, 0);
    }
    part_done("days over 6");
}

/*
 * A week in which every limit tells the weekday: eight ordinary rows in a card group of limit 8 - k and a shop group of limit k + 1 on
 * weekday k. And a week of limits that differ in their high bytes alone.
 */
static void each_weekday(void) {
    static struct file f;
    struct day d = flat_day(1, 0, 1, 0);
    while (d.rows < 8) add_row(&d, 0, 0, 0);
    struct week w = every_day(&d), high = every_day(&d);
    for (unsigned k = 0; k < WEEKDAYS; k++) {
        w.on[k].limit[CARD][0] = (uint16_t)(8 - k), w.on[k].limit[SHOP][0] = (uint16_t)(k + 1);
        high.on[k].limit[CARD][0] = TOP, high.on[k].limit[SHOP][0] = (uint16_t)(256 * (WEEKDAYS - k));
    }
    for (weekday = 0; weekday < WEEKDAYS; weekday++) {
        write_week(&w, WEEK, &f);
        struct bytes file = {f.bytes, f.length};
        ranked("all rows, card", file, BYTES("\1\1\1\1\1\1\1\1"), CLAIMS_CARD, 0, weekday == 0, 8 - weekday);
        ranked("all rows, shop", file, BYTES("\1\1\1\1\1\1\1\1"), CLAIMS_SHOP, 0, 0, weekday + 1);
        ranked("three rows, shop", file, BYTES("\1\1\1\0\0\0\0\0"), CLAIMS_SHOP, 0, weekday > 1, weekday > 1 ? 3 : weekday + 1);
        spare("a row alone", file, BYTES("\0\0\0\0\0\0\0\0"), 7, 0, weekday < 4 ? weekday + 1 : 8 - weekday);
        write_week(&high, WEEK, &f);
        spare("high limits", file, BYTES("\1\0\0\0\0\0\0\0"), 7, 0, 256 * (WEEKDAYS - weekday) - 1);
    }
    part_done("limits that tell the weekday");
}

/*
 * Days G and H of document 01, and the rest of the small selections of day A. Row 0 is earned and its card group is at the top: it counts
 * in no card group, and its shop group alone holds it. Rows 0 and 1 fit both sides; rows 0 and 2 fit card and not shop.
 */
static void worked_days(void) {
    ranked("day G: rows 0 and 1", DAY_A, BYTES("\1\1\0"), CLAIMS_CARD, 0, 1, 2);
    ranked("day G: all rows", DAY_A, BYTES("\1\1\1"), CLAIMS_CARD, 0, 1, 3);
    ranked("day G: no row", DAY_A, BYTES("\0\0\0"), CLAIMS_CARD, 0, 1, 0);
    ranked("day H: card", DAY_A, BYTES("\1\0\1"), CLAIMS_CARD, 0, 1, 2);
    ranked("day H: shop", DAY_A, BYTES("\1\0\1"), CLAIMS_SHOP, 0, 0, 1);
    ranked("day A: rows 0 and 1, shop", DAY_A, BYTES("\1\1\0"), CLAIMS_SHOP, 0, 1, 2);
    ranked("day A: rows 1 and 2, card", DAY_A, BYTES("\0\1\1"), CLAIMS_CARD, 0, 1, 2);
    ranked("day A: rows 1 and 2, shop", DAY_A, BYTES("\0\1\1"), CLAIMS_SHOP, 0, 1, 2);
    ranked("day A: all rows, shop", DAY_A, BYTES("\1\1\1"), CLAIMS_SHOP, 0, 0, 2);
    ranked("day E: card", DAY_E, NOTHING, CLAIMS_CARD, 0, 1, 0);
    ranked("day E: shop", DAY_E, NOTHING, CLAIMS_SHOP, 0, 1, 0);
    spare("day A: row 0 alone", DAY_A, BYTES("\0\0\0"), 0, 0, 1);
    spare("day A: row 2 beside row 1", DAY_A, BYTES("\0\1\0"), 2, 0, 1);
    spare("day A: row 0 beside row 1", DAY_A, BYTES("\0\1\0"), 0, 0, 1);
    spare("day A: row 1 beside row 0", DAY_A, BYTES("\1\0\0"), 1, 0, 1);
    spare("day A: row 0 beside row 2", DAY_A, BYTES("\0\0\1"), 0, 0, 0);
    spare("day A: row 2 beside rows 0 and 1", DAY_A, BYTES("\1\1\0"), 2, 0, 0);
    spare("day A: row 1 beside rows 0 and 2, which do not fit", DAY_A, BYTES("\1\0\1"), 1, 0, 0);
    spare("the greatest limit", file_of_one_row(TOP), BYTES("\0"), 0, 0, TOP);
    spare("a limit of 0", file_of_one_row(0), BYTES("\0"), 0, 0, 0);
}

/* A card group at the top: an earned row that names it is held by neither its limit nor the rows in it, but by its shop group alone. */
static void earned_at_the_top(void) {
    struct day d = flat_day(1, 0, 1, TOP);
    add_row(&d, 0, 0, 1), add_row(&d, 0, 0, 0), add_row(&d, 0, 0, 1);
    ranked("limit 0: the earned rows", file_of(&d), BYTES("\1\0\1"), CLAIMS_CARD, 0, 1, 2);
    ranked("limit 0: all rows", file_of(&d), BYTES("\1\1\1"), CLAIMS_CARD, 0, 0, 2);
    spare("limit 0: an earned row alone", file_of(&d), BYTES("\0\0\0"), 0, 0, TOP);
    spare("limit 0: an earned row beside another", file_of(&d), BYTES("\0\0\1"), 0, 0, TOP - 1);
    spare("limit 0: an ordinary row", file_of(&d), BYTES("\0\0\0"), 1, 0, 0);
    spare("limit 0: an earned row beside an ordinary one, which does not fit", file_of(&d), BYTES("\0\1\0"), 0, 0, 0);
    d.limit[CARD][0] = 1, d.limit[SHOP][0] = 9;
    ranked("limit 1: all rows", file_of(&d), BYTES("\1\1\1"), CLAIMS_CARD, 0, 1, 3);
    spare("limit 1: an earned row beside the ordinary one", file_of(&d), BYTES("\0\1\0"), 0, 0, 8);
    spare("limit 1: the ordinary row beside the earned ones", file_of(&d), BYTES("\1\0\1"), 1, 0, 1);
}

/*
 * Card group 1 in group 0, and four rows that name group 1: ordinary, earned, ordinary, earned. The ordinary ones count in both groups, the
 * earned ones in group 0. The last limit is above its parent's, which a stored file may have; lowered it is 3.
 */
static void earned_in_a_group(void) {
    struct day d = flat_day(2, 3, 1, 9);
    d.parent[CARD][1] = 0, d.limit[CARD][1] = 1;
    for (unsigned c = 0; c < 4; c++) add_row(&d, 1, 0, c % 2);
    ranked("limits 3 and 1: one ordinary row, two earned", file_of(&d), BYTES("\1\1\0\1"), CLAIMS_CARD, 0, 1, 3);
    ranked("limits 3 and 1: two ordinary rows", file_of(&d), BYTES("\1\0\1\0"), CLAIMS_CARD, 0, 0, 1);
    ranked("limits 3 and 1: all rows", file_of(&d), BYTES("\1\1\1\1"), CLAIMS_CARD, 0, 0, 3);
    spare("limits 3 and 1: an earned row beside an ordinary one", file_of(&d), BYTES("\1\0\0\0"), 3, 0, 2);
    spare("limits 3 and 1: an ordinary row beside an ordinary one", file_of(&d), BYTES("\1\0\0\0"), 2, 0, 0);
    spare("limits 3 and 1: an ordinary row beside two earned ones", file_of(&d), BYTES("\0\1\0\1"), 0, 0, 1);
    d.limit[CARD][0] = d.limit[CARD][1] = 0;
    ranked("limits 0 and 0: an earned row", file_of(&d), BYTES("\0\1\0\0"), CLAIMS_CARD, 0, 0, 0);
    spare("limits 0 and 0: an earned row", file_of(&d), BYTES("\0\0\0\0"), 1, 0, 0);
    d.limit[CARD][0] = 3, d.limit[CARD][1] = 5;
    d = day_for(by, d);
    ranked("limits 3 and 5: all rows", file_of(&d), BYTES("\1\1\1\1"), CLAIMS_CARD, 0, 0, 3);
    spare("limits 3 and 5: an earned row beside an ordinary one", file_of(&d), BYTES("\1\0\0\0"), 3, 0, 2);
    spare("limits 3 and 5: an ordinary row beside two earned ones", file_of(&d), BYTES("\0\1\0\1"), 0, 0, 1);
}

/* A selection may be longer than needed, and what lies past the last row is not read. */
static void lengths(void) {
    struct bytes selection = BYTES("\0\1\1\2\xff\1");
    size_t all = selection.length;
    for (selection.length = 0; selection.length < 3; selection.length++)
        ranked("shorter than needed", DAY_A, selection, CLAIMS_CARD, CLAIMS_SHORT, 0, 0);
    for (; selection.length <= all; selection.length++) {
        ranked("as long as needed or longer", DAY_A, selection, CLAIMS_CARD, 0, 1, 2);
        spare("as long as needed or longer", DAY_A, selection, 0, 0, 0);
    }
}

/* ---- Random days ---- */

/* A selection, longer than any file needs. */
static uint8_t selected[MOST_ROWS + 8];

/* Of 8 rows so many are selected; the bytes past the last row are any. */
static void draw_selection(unsigned rows, unsigned some) {
    for (unsigned c = 0; c < sizeof selected; c++) selected[c] = (uint8_t)(c < rows ? below(8) < some : below(UINT8_MAX + 1));
}

/* The rows of a day on which the rank is searched for among all subsets of the selected rows, at most. */
enum { SMALL_ROWS = 12 };

/* What fits and rank told must be what one of the plain ways found. */
static void told_as(const char *way, struct claims_fits_and_rank_answer told, struct ranked found) {
    expect(told.refusal == 0 && told.fits == found.fits && told.rank == found.rank,
           "refusal %u, fits %u, rank %u, but %s: fits %u, rank %u", told.refusal, told.fits, told.rank, way, found.fits, found.rank);
}

/* The places left beside a selection that fits, over all groups that a row counts in: by counting the rows of each group. */
static unsigned places_by_counting(const struct day *d, unsigned row) {
    unsigned least = UINT16_MAX;
    for (unsigned side = 0; side < 2; side++) {
        unsigned count[MOST_GROUPS] = {0};
        for (unsigned c = 0; c < d->rows; c++)
            for (unsigned g = counts_from(d, side, c); g != TOP; g = d->parent[side][g]) count[g] += selected[c];
        for (unsigned g = counts_from(d, side, row); g != TOP; g = d->parent[side][g])
            if (d->limit[side][g] - count[g] < least) least = d->limit[side][g] - count[g];
    }
    return least;
}

/* How many rows like one of a day can be added to it and to a selection that fits, up to so many: by adding them one by one. */
static unsigned places_by_adding(const struct day *d, unsigned row, unsigned most) {
    struct day more = *d;
    uint8_t with[MOST_ROWS];
    memcpy(with, selected, d->rows);
    while (more.rows < d->rows + most) {
        for (unsigned side = 0; side < 2; side++) more.group[side][more.rows] = d->group[side][row];
        more.kind[more.rows] = d->kind[row];
        with[more.rows++] = 1;
        if (!fits_day(&more, with)) return more.rows - 1 - d->rows;
    }
    return most;
}

/* The spare places of a row: 10 for one that is selected, else 0 where the selection does not fit, else what the plain ways find. */
static void spare_against_plain(const struct day *d, struct bytes file, struct bytes selection, unsigned row) {
    if (selected[row]) {
        spare("a selected row", file, selection, row, CLAIMS_SELECTED, 0);
        return;
    }
    if (!fits_day(d, selected)) {
        spare("beside a selection that does not fit", file, selection, row, 0, 0);
        return;
    }
    unsigned places = places_by_counting(d, row), room = MOST_ROWS - d->rows;
    if (room > 40) room = 40;
    spare("spare places", file, selection, row, 0, places);
    equal("spare places, by adding", places_by_adding(d, row, room), places < room ? places : room);
}

/* The answers for a file and the selection must be the plain ones for a day. */
static void answers_of(const struct day *d, struct bytes file, struct bytes selection, unsigned row) {
    for (unsigned side = 0; side < 2; side++) {
        struct claims_fits_and_rank_answer told = fits_and_rank(file, selection, side);
        equal("fits, by counting", told.fits, (unsigned)fits_side(d, side, selected));
        told_as("from the last group to the first", told, rank_side(d, side, selected));
        told_as("greedily", told, rank_greedily(d, side, selected));
        if (d->rows <= SMALL_ROWS) told_as("by search", told, rank_by_search(d, side, selected));
    }
    if (row < d->rows) spare_against_plain(d, file, selection, row);
}

/*
 * The answers for the selection and a file that holds a day, on any weekday, must be the plain ones: by the limits as they stand and, where
 * the file is a stored one, by the lowered ones as well. The selection is lent with `extra` bytes more than rows.
 */
static void against_plain(const struct day *d, unsigned extra) {
    struct day low = lowered(d);
    unsigned row = d->rows > 0 ? below(d->rows) : 0;
    weekday = below(WEEKDAYS);
    struct bytes file = file_of(d), selection = {selected, d->rows + extra};
    answers_of(d, file, selection, row);
    if (by->stored) answers_of(&low, file, selection, row);
    spare("a row past the last", file, selection, d->rows, CLAIMS_VALUE, 0);
}

/* Some selections of a day: among them few rows, or many, or all. */
static void some_selections(const struct day *d, unsigned selections) {
    for (; selections > 0; selections--) {
        draw_selection(d->rows, below(9));
        against_plain(d, below(3));
    }
}

static void random_days(const char *name, unsigned days, unsigned groups, unsigned rows) {
    for (unsigned i = 0; i < days; i++) {
        struct day d = day_for(by, random_day(groups, rows));
        some_selections(&d, 4);
    }
    part_done(name);
}

/* The most groups and the most rows. */
static void full_days(const char *name, unsigned days) {
    for (unsigned i = 0; i < days; i++) {
        struct day d = {0};
        for (unsigned side = 0; side < 2; side++) draw_side(&d, side, MOST_GROUPS, 1 + below(1u << below(8)));
        draw_rows(&d, MOST_ROWS, 2);
        d = day_for(by, d);
        some_selections(&d, 4);
    }
    part_done(name);
}

/* Every selection of a day of few rows. */
static void all_selections(const char *name, unsigned days) {
    for (unsigned i = 0; i < days; i++) {
        struct day d = day_for(by, random_day(6, 6));
        for (unsigned bits = 0; bits < 1u << d.rows; bits++) {
            for (unsigned c = 0; c < d.rows; c++) selected[c] = bits >> c & 1;
            against_plain(&d, 0);
        }
    }
    part_done(name);
}

/* Selections that fit or nearly fit: rows are added one by one, and seldom one that does not fit. */
static void grown_selections(const char *name, unsigned days) {
    for (unsigned i = 0; i < days; i++) {
        struct day d = day_for(by, random_day(12, 24));
        draw_selection(d.rows, 0);
        for (unsigned c = 0; c < d.rows; c++) {
            selected[c] = (uint8_t)below(2);
            if (!fits_day(&d, selected)) selected[c] = below(8) == 0;
        }
        against_plain(&d, below(3));
    }
    part_done(name);
}

/*
 * One chain of the most groups, all rows at its end, and one group after another the only one with a limit; lowered, all groups behind it
 * have that limit too. The first rows are selected, up to the limit and past it. In the last card group only the ordinary rows count, every
 * other one, and twice as many rows reach its limit.
 */
static void deep_chains(void) {
    static const unsigned counts[] = {0, 199, 200, 201, 202, 399, 400, 401, MOST_ROWS};
    for (unsigned g = 0; g < MOST_GROUPS; g += 51) {
        struct day d = chain_day(TOP);
        for (unsigned side = 0; side < 2; side++) d.limit[side][g] = (uint16_t)(200 + side);
        d = day_for(by, d);
        for (unsigned k = 0; k < sizeof counts / sizeof *counts; k++) {
            for (unsigned c = 0; c < MOST_ROWS; c++) selected[c] = c < counts[k];
            against_plain(&d, 0);
        }
    }
    part_done("deep chains");
}

/* The limit of the last card group of such a chain holds the ordinary rows alone; that of the one above it holds the earned rows too. */
static void chain_ends(void) {
    struct day d = chain_day(TOP);
    struct bytes selection = {selected, MOST_ROWS};
    d.limit[CARD][MOST_GROUPS - 1] = 1;
    memset(selected, 0, sizeof selected);
    selected[0] = 1;
    spare("an ordinary row at the end of a chain", file_of(&d), selection, 2, 0, 0);
    spare("an earned row at the end of a chain", file_of(&d), selection, 1, 0, TOP - 1);
    for (unsigned c = 0; c < MOST_ROWS; c++) selected[c] = d.kind[c];
    ranked("all earned rows at the end of a chain", file_of(&d), selection, CLAIMS_CARD, 0, 1, MOST_ROWS / 2);
    spare("an ordinary row beside all earned ones", file_of(&d), selection, 0, 0, 1);
    d.limit[CARD][MOST_GROUPS - 2] = 2;
    ranked("all earned rows, two places above the end", file_of(&d), selection, CLAIMS_CARD, 0, 0, 2);
    memset(selected, 0, sizeof selected);
    selected[0] = 1;
    spare("an earned row, two places above the end", file_of(&d), selection, 1, 0, 1);
    part_done("ends of chains");
}

/* On each weekday. */
static void worked(void) {
    for (weekday = 0; weekday < WEEKDAYS; weekday++) {
        refusals();
        worked_days();
        earned_at_the_top();
        earned_in_a_group();
        lengths();
    }
    part_done("worked days and lengths");
}

int main(void) {
    for (by = sorts; by < sorts + SORTS; by++) {
        printf("%s\n", by->name);
        start_numbers(20270301);
        worked();
        no_such_day();
        if (by->layout == WEEK) each_weekday();
        all_selections("all selections of tiny days", 100);
        random_days("random small days", 1000, 8, SMALL_ROWS);
        random_days("random days", 180, 40, 120);
        random_days("random large days", 25, MOST_GROUPS, MOST_ROWS);
        full_days("full days", 50);
        grown_selections("grown selections", 150);
        deep_chains();
        chain_ends();
    }
    return all_done();
}
