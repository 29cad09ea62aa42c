/*
 * Questions to fits and rank and to spare places, a row a case, with their answers by hand: for each sort of file and on each weekday. On
 * the weekdays that are not named a file has other limits, and they must not matter. A day with a limit above its parent's is refused in a
 * new file, and lowered it has the same answer as in a stored one.
 */
#include <stdio.h>
#include "sorts.h"

#define BYTES(text) (const uint8_t *)(text), sizeof(text) - 1

/*
 * A question: a day, as a stored file of the old layout has it, a selection, and the side or the row that is asked of. And the answer: the
 * refusal, or 0 and whether the selection fits the side and its rank, or the places of the row.
 */
enum call { RANK, SPARE };
struct question {
    const char *what;
    const uint8_t *day;
    size_t day_length;
    const uint8_t *selection;
    size_t selected;
    enum call call;
    unsigned of, refusal, fits, count;
};

/* Days A, B and E of document 01. In day B shop group 1 has limit 5 in a group of limit 2. */
#define DAY_A "\2\0\xff\xff\1\0\xff\xff\1\0\2\0\xff\xff\1\0\xff\xff\1\0\3\0\0\0\0\0\1\0\0\1\0\0\1\0\0\0\0"
#define DAY_B                                                                                                                              \
    "\3\0\xff\xff\1\0\xff\xff\1\0\xff\xff\1\0\3\0\xff\xff\2\0\0\0\5\0\0\0\1\0\3\0\0\0\2\0\0\1\0\2\0\1\2\0\1\0\0"
#define DAY_E "\0\0\0\0\0\0"

/* One card group, at the top, with limit 0; the shop group has limit 65535. Row 0 is earned, row 1 is ordinary. */
#define SHUT "\1\0\xff\xff\0\0\1\0\xff\xff\xff\xff\2\0\0\0\0\0\1\0\0\0\0\0"

/*
 * Card group 0 with limit 2, and in it group 1 with limit 1; the shop group has limit 9. Rows 0 and 1 name card group 1, rows 2 and 3 name
 * group 0. Rows 1 and 3 are earned: row 1 counts in card group 0, and row 3 in none.
 */
#define INNER "\2\0\xff\xff\2\0\0\0\1\0\1\0\xff\xff\11\0\4\0\1\0\0\0\0\1\0\0\0\1\0\0\0\0\0\0\0\0\0\1"

/*
 * Three card groups, each in the one before, with limits 1, 5 and 5; the shop group has limit 9. Three earned rows name the last: they
 * count in the second, whose limit is lowered to 1.
 */
#define CHAIN_155 "\3\0\xff\xff\1\0\0\0\5\0\1\0\5\0\1\0\xff\xff\11\0\3\0\2\0\0\0\1\2\0\0\0\1\2\0\0\0\1"

static const struct question questions[] = {
    {"day A: byte 255 in the last row", BYTES(DAY_A), BYTES("\1\0\xff"), RANK, CARD, CLAIMS_VALUE, 0, 0},
    {"day A: byte 2 in the last row", BYTES(DAY_A), BYTES("\0\0\2"), SPARE, 0, CLAIMS_VALUE, 0, 0},
    {"day A: byte 2 past the last row", BYTES(DAY_A), BYTES("\0\0\0\2"), SPARE, 0, 0, 0, 1},
    {"day A: the last row alone", BYTES(DAY_A), BYTES("\0\0\0"), SPARE, 2, 0, 0, 1},
    {"day A: the row past the last", BYTES(DAY_A), BYTES("\0\0\0"), SPARE, 3, CLAIMS_VALUE, 0, 0},
    {"day A: side 1", BYTES(DAY_A), BYTES("\0\0\0"), RANK, 1, 0, 1, 0},
    {"day A: side 2", BYTES(DAY_A), BYTES("\0\0\0"), RANK, 2, CLAIMS_VALUE, 0, 0},
    {"day A: byte over 1, side over 1", BYTES(DAY_A), BYTES("\0\3\0"), RANK, 2, CLAIMS_VALUE, 0, 0},
    {"day A: the row selected", BYTES(DAY_A), BYTES("\0\1\0"), SPARE, 1, CLAIMS_SELECTED, 0, 0},
    {"day A: the row selected, byte over 1", BYTES(DAY_A), BYTES("\2\1\0"), SPARE, 1, CLAIMS_VALUE, 0, 0},
    {"day E: a byte past the rows", BYTES(DAY_E), BYTES("\5"), RANK, SHOP, 0, 1, 0},
    {"day B: all rows, card", BYTES(DAY_B), BYTES("\1\1\1"), RANK, CARD, 0, 1, 3},
    {"day B: all rows, shop", BYTES(DAY_B), BYTES("\1\1\1"), RANK, SHOP, 0, 0, 2},
    {"day B: rows 0 and 1, shop", BYTES(DAY_B), BYTES("\1\1\0"), RANK, SHOP, 0, 0, 1},
    {"day B: rows 1 and 2, shop", BYTES(DAY_B), BYTES("\0\1\1"), RANK, SHOP, 0, 1, 2},
    {"day B: row 2 beside none", BYTES(DAY_B), BYTES("\0\0\0"), SPARE, 2, 0, 0, 1},
    {"day B: row 2 beside row 1", BYTES(DAY_B), BYTES("\0\1\0"), SPARE, 2, 0, 0, 1},
    {"day B: row 0 beside row 1", BYTES(DAY_B), BYTES("\0\1\0"), SPARE, 0, 0, 0, 0},
    {"day B: row 1 beside row 2", BYTES(DAY_B), BYTES("\0\0\1"), SPARE, 1, 0, 0, 1},
    {"day B: row 2 beside rows 0 and 1", BYTES(DAY_B), BYTES("\1\1\0"), SPARE, 2, 0, 0, 0},
    {"limit 0: the earned row", BYTES(SHUT), BYTES("\1\0"), RANK, CARD, 0, 1, 1},
    {"limit 0: both rows", BYTES(SHUT), BYTES("\1\1"), RANK, CARD, 0, 0, 1},
    {"limit 0: the ordinary row beside the earned one", BYTES(SHUT), BYTES("\1\0"), SPARE, 1, 0, 0, 0},
    {"inner: rows 0 and 1", BYTES(INNER), BYTES("\1\1\0\0"), RANK, CARD, 0, 1, 2},
    {"inner: rows 0 to 2", BYTES(INNER), BYTES("\1\1\1\0"), RANK, CARD, 0, 0, 2},
    {"inner: all rows", BYTES(INNER), BYTES("\1\1\1\1"), RANK, CARD, 0, 0, 3},
    {"inner: row 1 beside row 0", BYTES(INNER), BYTES("\1\0\0\0"), SPARE, 1, 0, 0, 1},
    {"inner: row 0 beside row 1", BYTES(INNER), BYTES("\0\1\0\0"), SPARE, 0, 0, 0, 1},
    {"inner: row 1 beside rows 0 and 2", BYTES(INNER), BYTES("\1\0\1\0"), SPARE, 1, 0, 0, 0},
    {"inner: row 2 beside rows 0 and 1", BYTES(INNER), BYTES("\1\1\0\0"), SPARE, 2, 0, 0, 0},
    {"inner: row 3 beside rows 0 and 1", BYTES(INNER), BYTES("\1\1\0\0"), SPARE, 3, 0, 0, 7},
    {"limits 1, 5 and 5: all rows", BYTES(CHAIN_155), BYTES("\1\1\1"), RANK, CARD, 0, 0, 1},
    {"limits 1, 5 and 5: row 0 beside none", BYTES(CHAIN_155), BYTES("\0\0\0"), SPARE, 0, 0, 0, 1},
    {"limits 1, 5 and 5: row 0 beside row 1", BYTES(CHAIN_155), BYTES("\0\1\0"), SPARE, 0, 0, 0, 0},
};

/* The answer for a file that holds the day on a weekday, or this refusal, with zeros beside it. */
static void answer_is(const struct question *q, const struct sort *by, unsigned weekday, const struct day *d, unsigned refusal) {
    static struct file f;
    unsigned told, fits = 0, count, must_fit = refusal ? 0 : q->fits, must = refusal ? 0 : q->count;
    write_among(d, form_of(by, weekday), &f);
    if (q->call == RANK) {
        struct claims_fits_and_rank_answer r = by->fits_and_rank(f.bytes, f.length, q->selection, q->selected, q->of, weekday);
        told = r.refusal, fits = r.fits, count = r.rank;
    } else {
        struct claims_spare_places_answer r = by->spare_places(f.bytes, f.length, q->selection, q->selected, q->of, weekday);
        told = r.refusal, count = r.places;
    }
    expect(told == refusal && fits == must_fit && count == must, "%s, %s: refusal %u, fits %u, %u, but must be %u, %u, %u", by->name,
           q->what, told, fits, count, refusal, must_fit, must);
}

/* The answer for the day and for the day lowered is the same; but a new file cannot hold a day with a limit above its parent's. */
static void asked_of(const struct question *q, const struct sort *by, const struct day *d) {
    struct day low = lowered(d);
    for (unsigned weekday = 0; weekday < WEEKDAYS; weekday++) {
        answer_is(q, by, weekday, d, by->stored || is_new(d) ? q->refusal : CLAIMS_LIMIT_ABOVE);
        answer_is(q, by, weekday, &low, q->refusal);
    }
}

static void ask_questions(const struct sort *by) {
    struct day d;
    for (const struct question *q = questions; q < questions + sizeof questions / sizeof *questions; q++) {
        d = (struct day){0};
        expect(read_day(q->day, q->day_length, form_of(&sorts[STORED_OLD], 0), &d) == 0, "%s: the day is not read", q->what);
        asked_of(q, by, &d);
    }
    part_done("questions");
}

/* ---- Chains ---- */

/*
 * So many card groups in one chain, one of them the only one with a limit; a shop group of limit 4; and six rows that name the last card
 * group. Whether all six fit the card side, their rank there, and the places of the last row beside the first two.
 */
static const struct chain {
    unsigned groups, tight, limit, fits, rank, places;
} chains[] = {
    {1, 0, 3, 0, 3, 1},
    {2, 0, 3, 0, 3, 1},
    {256, 0, 2, 0, 2, 0},
    {256, 0, 3, 0, 3, 1},
    {256, 128, 0, 0, 0, 0},
    {256, 255, 5, 0, 5, 2},
    {256, 0, 6, 1, 6, 2},
    {256, 0, TOP, 1, 6, 2},
};

static void ask_of_chains(const struct sort *by) {
    for (const struct chain *c = chains; c < chains + sizeof chains / sizeof *chains; c++) {
        const struct question all = {"a chain, all rows", NULL, 0, BYTES("\1\1\1\1\1\1"), RANK, CARD, 0, c->fits, c->rank},
                              five = {"a chain, five rows in the shop", NULL, 0, BYTES("\1\1\1\0\1\1"), RANK, SHOP, 0, 0, 4},
                              last = {"a chain, the last row beside two", NULL, 0, BYTES("\1\1\0\0\0\0"), SPARE, 5, 0, 0, c->places};
        struct day d = flat_day(c->groups, TOP, 1, 4);
        hang_chains(&d, CARD, 1);
        d.limit[CARD][c->tight] = (uint16_t)c->limit;
        while (d.rows < 6) add_row(&d, c->groups - 1, 0, 0);
        asked_of(&all, by, &d);
        asked_of(&five, by, &d);
        asked_of(&last, by, &d);
    }
    part_done("chains");
}

int main(void) {
    start_numbers(20270312);
    for (const struct sort *by = sorts; by < sorts + SORTS; by++) {
        printf("%s\n", by->name);
        ask_questions(by);
        ask_of_chains(by);
    }
    return all_done();
}
