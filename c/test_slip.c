/*
 * Tests of the slip, for each sort of file: the refusals and their order, day A, and random days and selections against a slip that
 * snprintf makes from the day's tables. The text is the same whichever weekday is named. Buffers are exact, one short and longer, and hold
 * other bytes before each call.
 */
#include <stdio.h>
#include <string.h>
#include "sorts.h"

enum { WIDTH = 33, PAST = 64, SLIP_CELLS = CLAIMS_LONGEST_SLIP + PAST };

/* The sort whose turn it is, and the weekday that the calls name. */
static const struct sort *by;
static unsigned weekday;

static struct file file;
static uint8_t selection[MOST_ROWS + PAST], slip[SLIP_CELLS];
static char must[SLIP_CELLS + 1];

/* What a cell holds before a call, as far as they are filled: some cells more than are lent. It differs from call to call. */
static unsigned turn;
static size_t filled;
static uint8_t filler(size_t i) { return (uint8_t)((i + turn) * 2654435761u >> 13); }

static struct claims_write_slip_answer write_in(size_t selected, size_t cells) {
    turn++;
    filled = cells < CLAIMS_LONGEST_SLIP ? cells + PAST : SLIP_CELLS;
    for (size_t i = 0; i < filled; i++) slip[i] = filler(i);
    return by->write_slip(file.bytes, file.length, selection, selected, weekday, slip, cells);
}

/* Whether the cells from a place on hold what they held before. */
static int untouched(size_t from) {
    for (size_t i = from; i < filled; i++)
        if (slip[i] != filler(i)) return 0;
    return 1;
}

static void turned_away(const char *what, size_t selected, size_t cells, unsigned number) {
    struct claims_write_slip_answer r = write_in(selected, cells);
    expect(r.refusal == number && r.length == 0 && untouched(0), "%s: %u, but must be %u", what, (unsigned)r.refusal, number);
}

/* The slip of a day, and its length. Each line is first made by itself. */
static size_t made(const struct day *d) {
    char line[64];
    size_t length = 0;
    unsigned kept = 0, earned = 0;
    for (unsigned c = 0; c < d->rows; c++)
        if (selection[c] == 1) kept++, earned += d->kind[c] == 1;
    snprintf(line, sizeof line, "CLAIMS%5uEARNED%5uKEPT%6u\n", d->rows, earned, kept);
    for (unsigned c = 0;; c++) {
        length += (size_t)snprintf(must + length, sizeof must - length, "%s", line);
        while (c < d->rows && selection[c] != 1) c++;
        if (c >= d->rows) return length;
        snprintf(line, sizeof line, "%8u%8u%8u%8s\n", c, (unsigned)d->group[CARD][c], (unsigned)d->group[SHOP][c],
                 d->kind[c] ? "EARNED" : "PLAIN");
    }
}

/* The slip in a buffer of so many cells. */
static void written(const struct day *d, size_t cells, const char *what) {
    size_t length = made(d);
    struct claims_write_slip_answer r = write_in(d->rows, cells);
    expect(r.refusal == 0 && r.length == length, "%s: the answer", what);
    expect(memcmp(slip, must, length) == 0, "%s: the text", what);
    expect(untouched(length), "%s: the cells behind it", what);
}

static unsigned ones(const struct day *d) {
    unsigned n = 0;
    for (unsigned c = 0; c < d->rows; c++) n += selection[c] == 1;
    return n;
}

/* A day that the week does not have, in place of the weekday: judged after 8, and before the selection's bytes. */
static void no_such_day(const struct day *d, size_t need) {
    weekday = no_weekdays[below(NO_WEEKDAYS)];
    turned_away("day over 6", d->rows, need, CLAIMS_DAY);
    turned_away("day over 6, longer", d->rows + PAST, need + PAST, CLAIMS_DAY);
    turned_away("day over 6, one short", d->rows, need - 1, CLAIMS_SHORT);
    if (d->rows > 0) turned_away("day over 6, a selection one short", d->rows - 1, need, CLAIMS_SHORT);
}

/*
 * A day with the selection that stands there: exact, longer, one short; and then with one byte over 1, which 8 and the day are judged
 * before.
 */
static void tried(const struct day *d) {
    size_t need = WIDTH * (ones(d) + 1u);
    weekday = below(WEEKDAYS);
    write_among(d, form_of(by, weekday), &file);
    written(d, need, "exact");
    no_such_day(d, need);
    weekday = below(WEEKDAYS);
    written(d, need + 1 + below(PAST), "longer, and any weekday");
    turned_away("one short", d->rows, need - 1, CLAIMS_SHORT);
    turned_away("no buffer", d->rows, 0, CLAIMS_SHORT);
    if (d->rows == 0) return;
    turned_away("a selection one short", d->rows - 1, SLIP_CELLS, CLAIMS_SHORT);
    selection[below(d->rows)] = (uint8_t)(2 + below(254));
    need = WIDTH * (ones(d) + 1u);
    turned_away("a byte over 1", d->rows, need, CLAIMS_VALUE);
    turned_away("a byte over 1, longer", d->rows + PAST, need + PAST, CLAIMS_VALUE);
    turned_away("a byte over 1, one short", d->rows, need - 1, CLAIMS_SHORT);
    turned_away("a byte over 1, a selection one short", d->rows - 1, need, CLAIMS_SHORT);
    no_such_day(d, need);
}

/* Each byte is 1 as often as `of` says, in 8. Past the last row stand bytes that are not read. */
static void draw_selection(const struct day *d, unsigned of) {
    for (size_t c = 0; c < sizeof selection; c++) selection[c] = c < d->rows ? below(8) < of : (uint8_t)(2 + below(254));
}

/* The slip of day A with some rows kept, byte for byte. */
static void slip_of_a(const char *kept, const char *text) {
    struct day a = day_a();
    size_t length = strlen(text);
    write_day(&a, by->layout, &file);
    memcpy(selection, kept, 3);
    for (weekday = 0; weekday < WEEKDAYS; weekday++) {
        struct claims_write_slip_answer r = write_in(3, length);
        expect(r.refusal == 0 && r.length == length && memcmp(slip, text, length) == 0 && untouched(length), "day A");
    }
}

/* With row 0 kept; and with rows 0 and 1, as settle keeps them. Row 0 is earned and does not count in card group 0, but names it. */
static void worked_day(void) {
    slip_of_a("\1\0\0", "CLAIMS    3EARNED    1KEPT     1\n       0       0       0  EARNED\n");
    slip_of_a("\1\1\0", "CLAIMS    3EARNED    1KEPT     2\n       0       0       0  EARNED\n       1       0       1   PLAIN\n");
    part_done("worked day");
}

static void random_days(void) {
    for (unsigned n = 0; n < 800; n++) {
        unsigned groups = 1 + below(40), rows = below(60);
        struct day d = day_for(by, random_day(groups, rows));
        draw_selection(&d, below(9));
        tried(&d);
    }
    part_done("random days");
}

/* All numbers of three digits: the largest days, with all, some or no rows kept. */
static void large_days(void) {
    for (unsigned n = 0; n < 18; n++) {
        struct day d = flat_day(MOST_GROUPS, 1, MOST_GROUPS, 1);
        draw_rows(&d, MOST_ROWS, 2);
        draw_selection(&d, n % 9);
        tried(&d);
    }
    struct day none = flat_day(0, 0, 0, 0);
    tried(&none);
    part_done("large days");
}

int main(void) {
    for (by = sorts; by < sorts + SORTS; by++) {
        printf("%s\n", by->name);
        start_numbers(20270303);
        worked_day();
        random_days();
        large_days();
    }
    return all_done();
}
