/*
 * Tests of settling, for each sort of file, against document 01's days and against a search through all selections. On the weekdays that
 * are not named a file has other limits, and they must not matter. A stored day is searched with its limits as they stand in the file; its
 * marks must show the choice by the lowered limits.
 */
#include <stdio.h>
#include <string.h>
#include "lent.h"
#include "sorts.h"

enum { SMALL_ROWS = 12 };

/* The sort whose turn it is, and the weekday that the calls name. */
static const struct sort *by;
static unsigned weekday;

static struct file file;

/* Settles the file, with buffers of so many cells. */
static struct claims_settle_answer settle_in(size_t choice, size_t sheet, size_t scratch) {
    fill_lent();
    return by->settle(file.bytes, file.length, weekday, lent.choice, choice, lent.sheet, sheet, lent.scratch, scratch);
}

/* Settles the file of a day, with buffers longer than needed by `more` cells. */
static struct claims_settle_answer settle_file(const struct day *d, size_t more) {
    return settle_in(d->rows + more, marks_of(d) + more, cells_of(d) + more);
}

/* Settles a file that holds a day on the weekday. */
static struct claims_settle_answer settle(const struct day *d, size_t more) {
    write_among(d, form_of(by, weekday), &file);
    return settle_file(d, more);
}

/* Everything that settle leaves besides which rows are kept. The marks are those of the lowered limits. */
static int left_well(const struct day *d, struct claims_settle_answer r) {
    struct day low = lowered(d);
    for (unsigned c = 0; c < d->rows; c++)
        if (lent.choice[c] > 1) return 0;
    for (size_t i = 0; i < cells_of(d); i++)
        if (lent.scratch[i] != 0) return 0;
    return r.refusal == 0 && r.earned == count_rows(d, lent.choice, 1) && r.kept == count_rows(d, lent.choice, 0) &&
           r.total == worth_of(d, lent.choice) && certified(&low, 2, lent.choice, lent.sheet) && fits_day(d, lent.choice) &&
           untouched(d->rows, marks_of(d), cells_of(d));
}

/* The number is told, and zeros beside it, and no buffer is changed. */
static int turned_away(struct claims_settle_answer r, unsigned number) {
    return r.refusal == number && r.earned == 0 && r.kept == 0 && r.total == 0 && untouched(0, 0, 0);
}

/*
 * A day whose choice, numbers and marks were worked by hand. The search finds the same choice. The marks are one good sheet of several:
 * both these and the ones that settle leaves show the choice.
 */
static void worked(const char *name, const struct day *d, const char *choice, unsigned earned, unsigned kept, unsigned total,
                   const uint32_t *marks) {
    uint8_t best[SMALL_ROWS];
    struct day low = lowered(d);
    struct claims_settle_answer r = settle(d, 0);
    search_all(d, 2, best);
    expect(left_well(d, r) && memcmp(lent.choice, choice, d->rows) == 0, "%s: the choice", name);
    expect(memcmp(best, choice, d->rows) == 0, "%s: the search finds another choice", name);
    expect(r.earned == earned && r.kept == kept && r.total == total, "%s: the numbers", name);
    expect(certified(&low, 2, lent.choice, marks), "%s: the marks", name);
}

/* The marks of the card groups, the shop groups and the rows, in this order. */
#define MARKS(...) ((const uint32_t[]){__VA_ARGS__})

/* Days A to F of document 01, and day A with all rows ordinary, where whoever keeps rows as they come keeps row 0. */
static void worked_days(void) {
    struct day a = day_a(), b = flat_day(3, 1, 3, 1), c = flat_day(1, 1, 1, 9), d = flat_day(1, 0, 1, 1), f = a, plain = a;
    struct day e = flat_day(0, 0, 0, 0), none = flat_day(3, 2, 2, 2);
    worked("day A", &a, "\1\1\0", 1, 2, 5, MARKS(0, 0, 4, 1, 0, 0, 0));
    b.limit[SHOP][0] = 2, b.limit[SHOP][1] = 5, b.parent[SHOP][1] = 0, b.parent[SHOP][2] = 0;
    add_row(&b, 0, 2, 0), add_row(&b, 1, 2, 1), add_row(&b, 2, 1, 0);
    b = day_for(by, b);
    worked("day B", &b, "\0\1\1", 1, 2, 5, MARKS(0, 0, 0, 1, 0, 3, 0, 0, 0));
    add_row(&c, 0, 0, 1), add_row(&c, 0, 0, 1);
    worked("day C", &c, "\1\1", 2, 2, 6, MARKS(0, 0, 3, 3));
    add_row(&d, 0, 0, 1);
    worked("day D", &d, "\1", 1, 1, 2, MARKS(0, 2, 0));
    worked("day E", &e, "", 0, 0, 0, MARKS(0));
    f.kind[1] = f.kind[2] = 1;
    worked("day F", &f, "\1\1\0", 2, 2, 8, MARKS(0, 0, 4, 4, 0, 0, 0));
    plain.kind[0] = 0;
    worked("day A, all rows ordinary", &plain, "\0\1\1", 0, 2, 2, MARKS(1, 0, 1, 0, 0, 0, 0));
    worked("groups and no claims", &none, "", 0, 0, 0, MARKS(0, 0, 0, 0, 0));
}

/* Two card groups, of which the second is in the first, with these limits; one shop group of limit 9; and no row yet. */
static struct day nested(unsigned outer, unsigned inner) {
    struct day d = flat_day(2, outer, 1, 9);
    d.parent[CARD][1] = 0, d.limit[CARD][1] = (uint16_t)inner;
    return d;
}

/* Where earned rows count: not in the card group that they name, but in all above it. */
static void earned_rows(void) {
    struct day shut = nested(0, 0), full = flat_day(1, 1, 1, 9), inner = nested(2, 1), outer = nested(1, 1), deeper = flat_day(3, 1, 2, 1);
    add_row(&shut, 1, 0, 1), add_row(&shut, 0, 0, 1), add_row(&shut, 0, 0, 0);
    worked("under a group of limit 0, and in that group itself", &shut, "\0\1\0", 1, 1, 4, MARKS(4, 0, 0, 0, 4, 0));
    add_row(&full, 0, 0, 0), add_row(&full, 0, 0, 0), add_row(&full, 0, 0, 1), add_row(&full, 0, 0, 1);
    worked("in a group that an ordinary row fills", &full, "\1\0\1\1", 2, 3, 11, MARKS(1, 0, 0, 0, 5, 5));
    add_row(&inner, 1, 0, 0), add_row(&inner, 1, 0, 0), add_row(&inner, 1, 0, 1);
    worked("in an inner group that an ordinary row fills", &inner, "\1\0\1", 1, 2, 5, MARKS(0, 1, 0, 0, 0, 4));
    add_row(&outer, 1, 0, 0), add_row(&outer, 1, 0, 1), add_row(&outer, 1, 0, 1), add_row(&outer, 0, 0, 1);
    worked("in an inner group, and the outer one holds one row", &outer, "\0\1\0\1", 2, 2, 10, MARKS(5, 0, 0, 0, 0, 0, 5));
    /* day A with c0 in a group of limit 1: rows 1 and 2 are more rows than row 0, but row 0 is earned */
    deeper.parent[CARD][2] = 0;
    add_row(&deeper, 2, 0, 1), add_row(&deeper, 2, 1, 0), add_row(&deeper, 1, 0, 0);
    worked("day A one level down", &deeper, "\1\0\0", 1, 1, 4, MARKS(3, 0, 0, 1, 0, 0, 0, 0));
}

/*
 * 256 card groups in one chain, with limits for the last two, and 512 rows at its end, every other one earned: so many of the first earned
 * rows and of the first ordinary ones are kept. The shop groups hold them all.
 */
static void chain_keeps(unsigned next_to_last, unsigned last, unsigned earned, unsigned ordinary) {
    struct day d = chain_day(TOP);
    uint8_t kept[MOST_ROWS];
    d.limit[CARD][MOST_GROUPS - 2] = (uint16_t)next_to_last, d.limit[CARD][MOST_GROUPS - 1] = (uint16_t)last;
    d = day_for(by, d);
    for (unsigned c = 0; c < d.rows; c++) kept[c] = c / 2 < (d.kind[c] ? earned : ordinary);
    struct claims_settle_answer r = settle(&d, 0);
    expect(left_well(&d, r) && memcmp(lent.choice, kept, d.rows) == 0, "a chain with limits %u and %u at its end", next_to_last, last);
}

/* The earned rows count from the next to last group up, so that the last one's limit holds the ordinary rows alone. */
static void chains(void) {
    chain_keeps(TOP, TOP, MOST_ROWS / 2, MOST_ROWS / 2);
    chain_keeps(TOP, 1, MOST_ROWS / 2, 1);
    chain_keeps(TOP, 0, MOST_ROWS / 2, 0);
    chain_keeps(MOST_ROWS / 2 + 2, 3, MOST_ROWS / 2, 2);
    chain_keeps(100, 3, 100, 0);
    chain_keeps(MOST_ROWS / 2 + 1, TOP, MOST_ROWS / 2, 1);
    chain_keeps(0, 0, 0, 0);
}

/* Buffers exact and one short, each by itself. */
static void short_buffers(void) {
    struct day a = day_a();
    write_day(&a, by->layout, &file);
    for (int one = 0; one < 3; one++) {
        size_t have[3] = {3, 7, 33};
        have[one]--;
        expect(turned_away(settle_in(have[0], have[1], have[2]), CLAIMS_SHORT), "a buffer one short");
    }
    file.length--;
    expect(turned_away(settle_in(0, 0, 0), CLAIMS_CUT_OFF), "the file's own fault before short buffers");
}

/* A day that the week does not have, judged after the file and the lengths. */
static void no_such_day(void) {
    struct day a = day_a(), none = flat_day(0, 0, 0, 0);
    for (unsigned k = 0; k < NO_WEEKDAYS; k++) {
        weekday = no_weekdays[k];
        expect(turned_away(settle(&none, 0), CLAIMS_DAY), "day %u, no group and no claim", weekday);
        expect(turned_away(settle(&a, 0), CLAIMS_DAY), "day %u", weekday);
        expect(turned_away(settle(&a, PAST), CLAIMS_DAY), "day %u, longer buffers", weekday);
        for (int one = 0; one < 3; one++) {
            size_t have[3] = {3, 7, 33};
            have[one]--;
            expect(turned_away(settle_in(have[0], have[1], have[2]), CLAIMS_SHORT), "day %u, a buffer one short", weekday);
        }
        file.bytes[file.length++] = 0;
        expect(turned_away(settle_in(3, 7, 33), CLAIMS_TRAILING), "day %u, one byte too many", weekday);
    }
}

/*
 * A week whose choice tells the weekday: on weekday k the card group has limit k, and there are seven ordinary rows and an earned one. The
 * shop group holds them all.
 */
static void each_weekday(void) {
    struct day d = flat_day(1, 0, 1, 9);
    while (d.rows < 8) add_row(&d, 0, 0, d.rows == 3);
    struct week w = every_day(&d);
    for (unsigned k = 0; k < WEEKDAYS; k++) w.on[k].limit[CARD][0] = (uint16_t)k;
    write_week(&w, WEEK, &file);
    for (weekday = 0; weekday < WEEKDAYS; weekday++) {
        struct claims_settle_answer r = settle_file(&d, 0);
        expect(left_well(&w.on[weekday], r) && r.earned == 1 && r.kept == weekday + 1, "weekday %u: the numbers", weekday);
        for (unsigned c = 0; c < d.rows; c++)
            expect(lent.choice[c] == (c == 3 || c < weekday + (weekday > 3)), "weekday %u: row %u", weekday, c);
    }
}

/* The sample whose limits differ by weekday: three rows are kept on day 0, two on days 1 to 4, four on day 5 and none on day 6. */
static void sample(void) {
    static const char *const kept[WEEKDAYS] = {"\0\1\1\0\0\1", "\0\1\0\0\0\1", "\0\1\0\0\0\1", "\0\1\0\0\0\1",
                                               "\0\1\0\0\0\1", "\0\1\1\1\0\1", "\0\0\0\0\0\0"};
    struct day d = {0};
    FILE *in = fopen("samples/week.claims", "rb");
    file.length = in == NULL ? 0 : fread(file.bytes, 1, sizeof file.bytes, in);
    if (in != NULL) fclose(in);
    for (weekday = 0; weekday < WEEKDAYS; weekday++) {
        unsigned fault = read_day(file.bytes, file.length, form_of(by, weekday), &d);
        expect(fault == 0 && d.rows == 6 && left_well(&d, settle_file(&d, 0)), "the sample on weekday %u", weekday);
        expect(memcmp(lent.choice, kept[weekday], 6) == 0, "the sample on weekday %u: the choice", weekday);
    }
}

/* Each weekday of a random week, from one file, against the search. */
static void random_weeks(void) {
    unsigned differ = 0;
    for (int n = 0; n < 40; n++) {
        struct day d = random_day(8, SMALL_ROWS - 2);
        struct week w = drawn_week(&d, 0), low = lowered_week(&w);
        uint8_t best[WEEKDAYS][SMALL_ROWS];
        if (by->stored == NEW) w = low;
        write_week(&w, WEEK, &file);
        for (weekday = 0; weekday < WEEKDAYS; weekday++) {
            struct claims_settle_answer r = settle_file(&d, 0);
            search_all(&w.on[weekday], 2, best[weekday]);
            expect(left_well(&w.on[weekday], r) && memcmp(lent.choice, best[weekday], d.rows) == 0, "a random week on weekday %u", weekday);
            differ += memcmp(best[weekday], best[0], d.rows) != 0;
        }
    }
    expect(differ > 40, "on %u weekdays only other rows are kept than on weekday 0", differ);
}

static void random_days(void) {
    unsigned too_great = 0;
    for (int n = 0; n < 300; n++) {
        weekday = below(WEEKDAYS);
        struct day d = day_for(by, random_day(8, SMALL_ROWS));
        uint8_t best[SMALL_ROWS];
        struct claims_settle_answer r = settle(&d, below(2) ? PAST : 0);
        search_all(&d, 2, best);
        expect(left_well(&d, r) && memcmp(lent.choice, best, d.rows) == 0, "a random day against the search");
        too_great += !certified(&d, 2, lent.choice, lent.sheet);
    }
    /* added up with the limits as they stand in a stored file, some sheets come to too much; so the days tell which limits are meant */
    expect(by->stored ? too_great > 0 : too_great == 0, "%u sheets are too great by the limits as they stand", too_great);
}

/* Full size: the choice fits, the certificate holds, and no cell past the needed ones changed. */
static void large_days(void) {
    for (int n = 0; n < 10; n++) {
        weekday = below(WEEKDAYS);
        struct day d = flat_day(MOST_GROUPS, 1, MOST_GROUPS, 1);
        for (unsigned side = 0; side < 2; side++) {
            if (n % 4 == 1) hang_chains(&d, side, 1);
            if (n % 4 == 3) hang_forest(&d, side, 0, MOST_GROUPS);
            for (unsigned g = 0; g < MOST_GROUPS; g++) d.limit[side][g] = (uint16_t)(1 + below(n % 5 ? 8 : 300));
        }
        d = day_for(by, d);
        draw_rows(&d, MOST_ROWS, 2);
        struct claims_settle_answer r = settle(&d, 0);
        expect(file.length == (by->layout == WEEK ? MOST_FILE : MOST_OLD_FILE), "the longest file");
        expect(left_well(&d, r), "a day of the largest size");
        file.bytes[file.length++] = 0;
        expect(turned_away(settle_in(MOST_ROWS, MOST_MARKS, CLAIMS_LONGEST_SCRATCH), CLAIMS_TRAILING), "one byte too many");
    }
}

/* Both sides of each bound. */
static void bounds(void) {
    struct day d = flat_day(MOST_GROUPS, 1, MOST_GROUPS, 1), m = flat_day(1, MOST_ROWS, 1, MOST_ROWS), p = flat_day(3, 1, 1, 1);
    struct claims_settle_answer r = settle(&d, 0);
    expect(left_well(&d, r), "the most groups");
    put16(file.bytes, MOST_GROUPS + 1);
    file.length = 2;
    expect(turned_away(settle_in(0, 0, 0), CLAIMS_GROUP_COUNT), "one group more than the most");
    while (m.rows < MOST_ROWS) add_row(&m, 0, 0, m.rows % 2);
    r = settle(&m, 0);
    expect(left_well(&m, r) && r.kept == MOST_ROWS && r.earned == MOST_ROWS / 2, "the most claims, all kept");
    put16(file.bytes + (by->layout == WEEK ? 36 : 12), MOST_ROWS + 1);
    expect(turned_away(settle_in(CHOICE_CELLS, SHEET_CELLS, SCRATCH_CELLS), CLAIMS_CLAIM_COUNT), "one claim more than the most");
    p.parent[CARD][2] = 1;
    r = settle(&p, 0);
    expect(left_well(&p, r), "a parent one below its own number");
    p.parent[CARD][2] = 2;
    expect(turned_away(settle(&p, 0), CLAIMS_PARENT), "a parent equal to its own number");
}

int main(void) {
    for (by = sorts; by < sorts + SORTS; by++) {
        start_numbers(20270301);
        for (weekday = 0; weekday < WEEKDAYS; weekday++) {
            worked_days();
            earned_rows();
            short_buffers();
            bounds();
        }
        no_such_day();
        weekday = WEEKDAYS - 1;
        chains();
        if (by->layout == WEEK) {
            each_weekday();
            sample();
            random_weeks();
        }
        random_days();
        large_days();
        part_done(by->name);
    }
    return all_done();
}
