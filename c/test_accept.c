/*
 * Tests of the accept call, for each sort of file. What settle leaves is accepted, and so are other choices and sheets that are as good. A
 * closing that is changed at one place, and one that is drawn at random, is judged as by a plain check, which walks up the groups of each
 * row and adds in 128 bits. Marks of 2^32 - 1, lengths, and the order in which faults are told. Nothing is changed.
 */
#include <string.h>
#include "lent.h"
#include "sorts.h"

typedef unsigned __int128 sum_of_marks;

enum { LARGEST = UINT32_MAX };

/* The sort whose turn it is, the file, and the weekday that the call names. Choice and sheet are the lent ones. */
static const struct sort *by;
static struct file file;
static unsigned weekday;

/* How often each number was told; and how often another choice, and another sheet, than settle's was accepted. */
enum { NUMBERS = CLAIMS_UNEQUAL + 1 };
static unsigned told_times[NUMBERS], other_choices, other_sheets;

/* ---- A plain check ---- */

static unsigned groups_of(const struct day *d) { return d->groups[CARD] + d->groups[SHOP]; }

/* The marks of the groups that a row counts in on a side. */
static sum_of_marks marks_above(const struct day *d, unsigned side, unsigned row, const uint32_t *sheet) {
    sum_of_marks sum = 0;
    const uint32_t *marks = side == CARD ? sheet : sheet + d->groups[CARD];
    for (unsigned g = counts_from(d, side, row); g != TOP; g = d->parent[side][g]) sum += marks[g];
    return sum;
}

static int is_covered(const struct day *d, unsigned row, const uint32_t *sheet) {
    sum_of_marks own = sheet[groups_of(d) + row];
    return own + marks_above(d, CARD, row, sheet) + marks_above(d, SHOP, row, sheet) >= weight_of(d, d->kind[row]);
}

static sum_of_marks total_of(const struct day *d, const uint32_t *sheet) {
    sum_of_marks total = 0;
    unsigned v = 0;
    for (unsigned side = 0; side < 2; side++)
        for (unsigned g = 0; g < d->groups[side]; g++) total += (sum_of_marks)d->limit[side][g] * sheet[v++];
    for (unsigned c = 0; c < d->rows; c++) total += sheet[v++];
    return total;
}

/* What must be told of a choice of 0s and 1s and a sheet that are long enough, by the lowered limits. */
static unsigned plain(const struct day *d, const uint8_t *choice, const uint32_t *sheet) {
    struct day low = lowered(d);
    if (!fits_day(&low, choice)) return CLAIMS_UNFIT;
    for (unsigned c = 0; c < d->rows; c++)
        if (!is_covered(&low, c, sheet)) return CLAIMS_UNCOVERED;
    return total_of(&low, sheet) == worth_of(&low, choice) ? 0 : CLAIMS_UNEQUAL;
}

/* ---- The call ---- */

/* With so many cells of the lent choice and sheet. */
static uint32_t accepted_with(size_t choices, size_t marks, unsigned day) {
    static struct file file_before;
    static uint8_t choice_before[CHOICE_CELLS];
    static uint32_t sheet_before[SHEET_CELLS];
    memcpy(file_before.bytes, file.bytes, file.length);
    memcpy(choice_before, lent.choice, sizeof choice_before);
    memcpy(sheet_before, lent.sheet, sizeof sheet_before);
    uint32_t told = by->accept(file.bytes, file.length, lent.choice, choices, lent.sheet, marks, day);
    expect(memcmp(file_before.bytes, file.bytes, file.length) == 0 && memcmp(choice_before, lent.choice, sizeof choice_before) == 0 &&
               memcmp(sheet_before, lent.sheet, sizeof sheet_before) == 0,
           "%s: something was changed", by->name);
    return told;
}

/* With just the needed lengths. */
static uint32_t accepted(const struct day *d) {
    return accepted_with(CLAIMS_CHOICE_LENGTH(d->rows), CLAIMS_SHEET_LENGTH(groups_of(d), d->rows), weekday);
}

/* The closing of the day is judged as by the plain check. Answers the number. */
static unsigned judged(const struct day *d, const char *what) {
    unsigned must = plain(d, lent.choice, lent.sheet), told = accepted(d);
    expect(told == must, "%s: %s: %u is told, and not %u", by->name, what, told, must);
    if (told < NUMBERS) told_times[told]++;
    return told;
}

/* Writes the file of a day, and leaves what settle leaves for it. */
static void settle(const struct day *d) {
    write_among(d, form_of(by, weekday), &file);
    fill_lent();
    unsigned refusal = by->settle(file.bytes, file.length, weekday, lent.choice, CHOICE_CELLS, lent.sheet, SHEET_CELLS, lent.scratch,
                                  SCRATCH_CELLS)
                           .refusal;
    expect(refusal == 0, "%s: settle refuses a day with %u", by->name, refusal);
}

/* Days without claims: nothing is needed where there is no group either; and the mark of a group with places counts in the total. */
static void no_claims(void) {
    struct day none = flat_day(0, 0, 0, 0), groups = flat_day(3, 2, 2, 2);
    write_day(&none, by->layout, &file);
    expect(accepted(&none) == 0, "%s: no group and no claim", by->name);
    settle(&groups);
    expect(accepted(&groups) == 0, "%s: groups and no claim", by->name);
    lent.sheet[4] = 1;
    expect(accepted(&groups) == CLAIMS_UNEQUAL, "%s: a mark too many", by->name);
}

/* ---- The order in which faults are told ---- */

static void set_choice(unsigned a, unsigned b, unsigned c) {
    const uint8_t choice[] = {(uint8_t)a, (uint8_t)b, (uint8_t)c};
    memcpy(lent.choice, choice, sizeof choice);
}

/* The marks of day A's two shop groups; the other marks are 0. */
static void set_shop_marks(uint32_t s0, uint32_t s1) {
    memset(lent.sheet, 0, sizeof lent.sheet);
    lent.sheet[2] = s0;
    lent.sheet[3] = s1;
}

static void told_is(size_t choices, size_t marks, unsigned day, unsigned must) {
    unsigned told = accepted_with(choices, marks, day);
    expect(told == must, "%s: the order on day A: %u is told, and not %u", by->name, told, must);
}

/* Day A with every fault there can be. One after the other is mended, in the order in which they are told. */
static void faults_in_order(void) {
    struct day d = day_a();
    write_day(&d, by->layout, &file);
    set_choice(2, 0, 1);
    set_shop_marks(0, 0);
    size_t whole = file.length;
    file.length--;
    told_is(2, 6, 7, CLAIMS_CUT_OFF);
    file.length = whole;
    told_is(2, 6, 7, CLAIMS_SHORT);
    told_is(3, 6, 7, CLAIMS_SHORT);
    told_is(2, 7, 7, CLAIMS_SHORT);
    told_is(0, 0, 7, CLAIMS_SHORT);
    for (unsigned k = 0; k < NO_WEEKDAYS; k++) told_is(3, 7, no_weekdays[k], CLAIMS_DAY);
    for (unsigned day = 0; day < WEEKDAYS; day++) {
        set_choice(2, 0, 1);
        set_shop_marks(0, 0);
        told_is(3, 7, day, CLAIMS_VALUE);
        set_choice(1, 0, 255);
        told_is(3, 7, day, CLAIMS_VALUE);
        set_choice(1, 0, 1);
        told_is(3, 7, day, CLAIMS_UNFIT);
        set_choice(1, 1, 0);
        set_shop_marks(4, 0);
        told_is(3, 7, day, CLAIMS_UNCOVERED);
        set_shop_marks(4, 2);
        told_is(3, 7, day, CLAIMS_UNEQUAL);
        set_shop_marks(4, 1);
        told_is(3, 7, day, 0);
        told_is(CHOICE_CELLS, SHEET_CELLS, day, 0);
    }
}

/* ---- Changed closings, from what settle left ---- */

static void lengths(const struct day *d) {
    unsigned groups = groups_of(d);
    expect(accepted_with(d->rows + 1, groups + d->rows + 1, weekday) == 0, "%s: longer by one", by->name);
    expect(accepted_with(CHOICE_CELLS, SHEET_CELLS, weekday) == 0, "%s: longest", by->name);
    expect(accepted_with(d->rows, groups + d->rows - 1, weekday) == CLAIMS_SHORT, "%s: sheet one short", by->name);
    if (d->rows > 0) expect(accepted_with(d->rows - 1, groups + d->rows, weekday) == CLAIMS_SHORT, "%s: choice one short", by->name);
}

/* One row is changed, and put back. */
static void change_row(const struct day *d) {
    unsigned c = below(d->rows);
    uint8_t was = lent.choice[c];
    lent.choice[c] ^= 1;
    judged(d, "a row changed");
    lent.choice[c] = (uint8_t)(2 + below(254));
    expect(accepted(d) == CLAIMS_VALUE, "%s: a choice byte over 1", by->name);
    lent.choice[c] = was;
}

/* One mark is changed, and put back. */
static void change_mark(const struct day *d) {
    static const uint32_t marks[] = {0, 1, 512, 513, 514, 65535, 65536, 65537, LARGEST};
    unsigned v = below(groups_of(d) + d->rows);
    uint32_t was = lent.sheet[v];
    lent.sheet[v] = was + 1;
    judged(d, "a mark raised");
    lent.sheet[v] = was - 1;
    judged(d, "a mark lowered, or 2^32 - 1");
    for (unsigned k = 0; k < sizeof marks / sizeof *marks; k++) {
        lent.sheet[v] = marks[k];
        judged(d, "another mark");
    }
    lent.sheet[v] = was;
}

/* A group with limit 0 may have any mark. */
static void marks_at_limit_0(const struct day *d) {
    static uint32_t was[MOST_MARKS];
    struct day low = lowered(d);
    unsigned v = 0, changed = 0;
    memcpy(was, lent.sheet, sizeof was);
    for (unsigned side = 0; side < 2; side++)
        for (unsigned g = 0; g < d->groups[side]; g++, v++)
            if (low.limit[side][g] == 0) {
                lent.sheet[v] = below(2) ? LARGEST : was[v] + below(70000);
                changed++;
            }
    other_sheets += changed > 0;
    expect(judged(d, "any marks where the limit is 0") == 0, "%s: any marks where the limit is 0 are refused", by->name);
    memcpy(lent.sheet, was, sizeof was);
}

/*
 * The rows from the last to the first are another file of the same claims. What settle leaves for it, put back in the order of the rows, is
 * a closing of the day that another program could have made: with a choice that is as good, and a sheet for it.
 */
static void from_the_last_row(const struct day *d) {
    static struct file forward;
    static uint8_t choice[MOST_ROWS];
    static uint32_t sheet[MOST_MARKS];
    struct day back = *d;
    unsigned groups = groups_of(d);
    forward = file;
    memcpy(choice, lent.choice, d->rows);
    memcpy(sheet, lent.sheet, sizeof *sheet * (groups + d->rows));
    for (unsigned c = 0; c < d->rows; c++) {
        for (unsigned side = 0; side < 2; side++) back.group[side][c] = d->group[side][d->rows - 1 - c];
        back.kind[c] = d->kind[d->rows - 1 - c];
    }
    settle(&back);
    for (unsigned c = 0; c < d->rows / 2; c++) {
        unsigned last = d->rows - 1 - c, mark = lent.sheet[groups + c], row = lent.choice[c];
        lent.choice[c] = lent.choice[last];
        lent.choice[last] = (uint8_t)row;
        lent.sheet[groups + c] = lent.sheet[groups + last];
        lent.sheet[groups + last] = mark;
    }
    file = forward;
    other_choices += memcmp(choice, lent.choice, d->rows) != 0;
    other_sheets += memcmp(sheet, lent.sheet, sizeof *sheet * (groups + d->rows)) != 0;
    expect(judged(d, "settled from the last row") == 0, "%s: what settle leaves for the other order is refused", by->name);
}

/* Closings that have nothing to do with settle's. */
static void drawn(const struct day *d) {
    unsigned marks = groups_of(d) + d->rows;
    for (unsigned v = 0; v < marks; v++) lent.sheet[v] = below(4) ? below(3) : LARGEST;
    for (unsigned c = 0; c < d->rows; c++) lent.choice[c] = below(6) == 0;
    judged(d, "drawn at random");
    for (unsigned v = 0; v < marks; v++) lent.sheet[v] = LARGEST;
    judged(d, "all marks the largest");
    memset(lent.choice, 0, d->rows);
    judged(d, "all marks the largest, nothing kept");
    memset(lent.sheet, 0, sizeof lent.sheet);
    judged(d, "no mark, nothing kept");
}

static void closings(const struct day *d) {
    weekday = below(WEEKDAYS);
    settle(d);
    expect(judged(d, "settled") == 0, "%s: what settle leaves is refused", by->name);
    lengths(d);
    if (d->rows > 0) change_row(d);
    change_mark(d);
    marks_at_limit_0(d);
    from_the_last_row(d);
    drawn(d);
}

/* With settle's sheet every choice is accepted that fits and weighs as much as settle's, whichever rows it has, and no other. */
static void each_choice(const struct day *d) {
    unsigned good = 0;
    weekday = below(WEEKDAYS);
    settle(d);
    for (unsigned k = 0; k < 1u << d->rows; k++) {
        for (unsigned c = 0; c < d->rows; c++) lent.choice[c] = k >> c & 1;
        good += judged(d, "any choice") == 0;
    }
    expect(good > 0, "%s: no choice is accepted", by->name);
    other_choices += good > 1;
}

static void random_days(unsigned days, unsigned groups, unsigned rows, void (*on)(const struct day *)) {
    for (unsigned n = 0; n < days; n++) {
        struct day d = day_for(by, random_day(groups, rows));
        on(&d);
    }
}

static void chains(void) {
    static const unsigned limits[] = {TOP, MOST_ROWS / 2, 0};
    for (unsigned k = 0; k < sizeof limits / sizeof *limits; k++) {
        struct day d = chain_day(limits[k]);
        closings(&d);
    }
}

int main(void) {
    start_numbers(20270310);
    for (by = sorts; by < sorts + SORTS; by++) {
        other_choices = other_sheets = 0;
        no_claims();
        faults_in_order();
        random_days(500, 6, 12, closings);
        random_days(90, 60, 120, closings);
        random_days(10, MOST_GROUPS, MOST_ROWS, closings);
        random_days(100, 5, 8, each_choice);
        chains();
        expect(other_choices > 100 && other_sheets > 100, "%s: other choices %u, other sheets %u", by->name, other_choices, other_sheets);
        part_done(by->name);
    }
    static const unsigned numbers[] = {0, CLAIMS_UNFIT, CLAIMS_UNCOVERED, CLAIMS_UNEQUAL};
    for (unsigned k = 0; k < sizeof numbers / sizeof *numbers; k++)
        expect(told_times[numbers[k]] > 1000, "%u is told %u times", numbers[k], told_times[numbers[k]]);
    return all_done();
}
