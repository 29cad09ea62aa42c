/*
 * Tests of one claim more at the end of a file, for each sort of file: the earned count stays or rises by one; the kept count falls by one,
 * stays, or rises by one; and it falls only where the earned count rises. Small days are settled and searched through all selections,
 * larger ones are settled. A stored day is searched with its limits as they stand in the file.
 */
#include <stdio.h>
#include <string.h>
#include "lent.h"
#include "sorts.h"

enum { SMALL_ROWS = 12, CLAIM_BYTES = 5 };

/* The sort whose turn it is, and the weekday that the calls name. */
static const struct sort *by;
static unsigned weekday;

static struct file file;

/* The counts of a day's best choice. */
struct counts {
    unsigned earned, kept;
};

/* How often the earned count moved by 0 or 1 while the kept count moved by -1, 0 or 1, for an added claim of each kind. */
static unsigned moves[2][2][3];

/* ---- Counts, found in two ways ---- */

static struct counts counts_of(const struct day *d, const uint8_t *choice) {
    struct counts n = {count_rows(d, choice, 1), count_rows(d, choice, 0)};
    return n;
}

/* Of the file, by settling it; d is the day that it holds. */
static struct counts settled(const struct day *d, const char *what) {
    fill_lent();
    struct claims_settle_answer r =
        by->settle(file.bytes, file.length, weekday, lent.choice, CHOICE_CELLS, lent.sheet, SHEET_CELLS, lent.scratch, SCRATCH_CELLS);
    struct counts n = counts_of(d, lent.choice), answered = {r.earned, r.kept};
    expect(r.refusal == 0 && n.earned == r.earned && n.kept == r.kept, "%s: refused with %u, or other counts than the choice's", what, r.refusal);
    return answered;
}

/* The same by a search through all selections of a small day. */
static struct counts searched(const struct day *d) {
    uint8_t best[SMALL_ROWS + 1];
    search_all(d, 2, best);
    return counts_of(d, best);
}

/* ---- One claim more ---- */

/* The bytes of the file with one claim more: the claim count, which stands before the claims, is raised by one, and five bytes follow. */
static void add_claim(unsigned card, unsigned shop, unsigned kind, unsigned rows) {
    uint8_t *count = file.bytes + file.length - CLAIM_BYTES * rows - 2;
    expect(get16(count) == rows, "the claim count does not stand before the claims");
    put16(count, rows + 1);
    uint8_t *end = put16(put16(file.bytes + file.length, card), shop);
    *end = (uint8_t)kind;
    file.length += CLAIM_BYTES;
}

/* The three sentences, and which of the moves it is. */
static void at_most_one(struct counts old, struct counts new, unsigned kind, const char *what) {
    int earned = (int)new.earned - (int)old.earned, kept = (int)new.kept - (int)old.kept;
    int fine = (earned == 0 || earned == 1) && kept >= -1 && kept <= 1;
    expect(earned == 0 || earned == 1, "%s: the earned count moves by %d", what, earned);
    expect(kept >= -1 && kept <= 1, "%s: the kept count moves by %d", what, kept);
    expect(kept >= 0 || earned == 1, "%s: the kept count falls, and the earned count does not rise", what);
    if (fine) moves[kind][earned][kept + 1]++;
}

/* A day with one claim more. Its bytes are those of the day with that row, and the counts move by one at most, by each way to find them. */
static void late_claim(const struct day *d, unsigned card, unsigned shop, unsigned kind, int small, const char *what) {
    struct day more = *d;
    struct file whole;
    weekday = below(WEEKDAYS);
    write_day(d, by->layout, &file);
    struct counts old = settled(d, what);
    add_claim(card, shop, kind, d->rows);
    add_row(&more, card, shop, kind);
    write_day(&more, by->layout, &whole);
    expect(file.length == whole.length && memcmp(file.bytes, whole.bytes, whole.length) == 0, "%s: not the file with that row", what);
    struct counts new = settled(&more, what);
    at_most_one(old, new, kind, what);
    if (!small) return;
    struct counts best = searched(d), best_more = searched(&more);
    expect(best.earned == old.earned && best.kept == old.kept, "%s: the search finds other counts", what);
    expect(best_more.earned == new.earned && best_more.kept == new.kept, "%s: the search finds other counts with the claim", what);
}

/* ---- Worked days ---- */

/* The groups of late/specs/Examples.antt: four card groups, c1 in c0, and three shop groups, each with limit 1. */
static struct day groups_of_four(void) {
    struct day d = flat_day(4, 1, 3, 1);
    d.parent[CARD][1] = 0;
    if (by->stored) d.limit[CARD][1] = 5;
    return d;
}

static void worked(const struct day *d, unsigned card, unsigned shop, unsigned kind, struct counts old, struct counts new) {
    struct day more = *d;
    struct counts n = searched(d);
    add_row(&more, card, shop, kind);
    struct counts m = searched(&more);
    expect(n.earned == old.earned && n.kept == old.kept, "a worked day: earned %u kept %u without the claim", n.earned, n.kept);
    expect(m.earned == new.earned && m.kept == new.kept, "a worked day: earned %u kept %u with the claim", m.earned, m.kept);
    late_claim(d, card, shop, kind, 1, "a worked day");
}

static void worked_days(void) {
    struct counts two = {0, 2}, one = {1, 1};
    struct day crossed = groups_of_four(), handed = groups_of_four();
    add_row(&crossed, 1, 1, 0), add_row(&crossed, 2, 0, 0);
    add_row(&handed, 1, 0, 1), add_row(&handed, 0, 1, 0);
    worked(&crossed, 1, 0, 1, two, (struct counts){1, 1});
    worked(&crossed, 1, 1, 1, two, (struct counts){1, 2});
    worked(&crossed, 0, 2, 1, two, (struct counts){1, 3});
    worked(&crossed, 1, 0, 0, two, (struct counts){0, 2});
    worked(&crossed, 3, 2, 0, two, (struct counts){0, 3});
    worked(&handed, 2, 0, 1, one, (struct counts){1, 2});
}

/* ---- Random days ---- */

/* A day for which any claim may be added. On every other one few card groups are at the top, so that most earned rows count in some. */
static struct day drawn(unsigned n, unsigned groups, unsigned rows) {
    struct day d = random_day(groups, rows);
    if (n % 2) hang_forest(&d, CARD, below(5), 100);
    return day_for(by, d);
}

static void several_claims(const struct day *d, unsigned count, int small, const char *what) {
    for (unsigned n = 0; n < count; n++) {
        unsigned card = below(d->groups[CARD]), shop = below(d->groups[SHOP]);
        for (unsigned kind = 0; kind < 2; kind++) late_claim(d, card, shop, kind, small, what);
    }
}

/*
 * Of the six moves that the first two sentences allow, "earned the same, kept one less" does not occur, and each of the others does. An
 * ordinary claim leaves the earned count as it is, and no kept row is lost.
 */
static void all_moves_seen(const char *what) {
    for (unsigned earned = 0; earned < 2; earned++)
        for (unsigned kept = 0; kept < 3; kept++) {
            unsigned seen = moves[0][earned][kept] + moves[1][earned][kept];
            expect((seen > 0) == (earned == 1 || kept > 0), "%s: %u times earned + %u, kept + %d", what, seen, earned, (int)kept - 1);
        }
    for (unsigned kept = 0; kept < 3; kept++) expect(moves[0][1][kept] == 0, "%s: an ordinary claim changes the earned count", what);
    expect(moves[1][0][2] > 0, "%s: no earned claim that only the kept count rises for", what);
    memset(moves, 0, sizeof moves);
}

static void small_days(void) {
    for (unsigned n = 0; n < 2000; n++) {
        struct day d = drawn(n, 8, SMALL_ROWS);
        several_claims(&d, 2, 1, "a small day");
    }
    all_moves_seen("small days");
}

static void larger_days(void) {
    for (unsigned n = 0; n < 1500; n++) {
        struct day d = drawn(n, 40, 120);
        several_claims(&d, 4, 0, "a day of middle size");
    }
    for (unsigned n = 0; n < 60; n++) {
        struct day d = drawn(n, MOST_GROUPS, MOST_ROWS - 1);
        several_claims(&d, 4, 0, "a large day");
    }
    all_moves_seen("larger days");
}

/* ---- Claims that may not be added ---- */

static void refused(const struct day *d, unsigned card, unsigned shop, unsigned kind, unsigned number, const char *what) {
    write_day(d, by->layout, &file);
    add_claim(card, shop, kind, d->rows);
    fill_lent();
    struct claims_settle_answer r =
        by->settle(file.bytes, file.length, weekday, lent.choice, CHOICE_CELLS, lent.sheet, SHEET_CELLS, lent.scratch, SCRATCH_CELLS);
    expect(r.refusal == number && untouched(0, 0, 0), "%s: %u", what, r.refusal);
}

static void not_allowed(void) {
    struct day d = groups_of_four(), almost = flat_day(2, TOP, 2, TOP);
    refused(&d, 4, 0, 0, CLAIMS_NO_SUCH_GROUP, "no such card group");
    refused(&d, 0, 3, 1, CLAIMS_NO_SUCH_GROUP, "no such shop group");
    refused(&d, 0, 0, 2, CLAIMS_KIND, "a kind over 1");
    draw_rows(&almost, MOST_ROWS - 1, 2);
    late_claim(&almost, 1, 1, 1, 0, "the last claim that a file can have");
    add_row(&almost, 0, 0, 0);
    refused(&almost, 0, 0, 0, CLAIMS_CLAIM_COUNT, "one claim more than a file can have");
}

int main(void) {
    for (by = sorts; by < sorts + SORTS; by++) {
        printf("%s\n", by->name);
        start_numbers(20270308);
        worked_days();
        not_allowed();
        part_done("worked days, and claims that may not be added");
        memset(moves, 0, sizeof moves);
        small_days();
        part_done("small days");
        larger_days();
        part_done("larger days");
    }
    return all_done();
}
