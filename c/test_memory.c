/*
 * Tests of settling and of the codes in memory of just the needed length, for each sort of file, and of settling one counter under an oven:
 * small days of all shapes, two groups and one claim among them, and days of the largest size, with limits on both sides of the number of
 * rows. The memory is dirty before each call and lies between guards, which the call must leave alone; in one cell less of scratch it must
 * tell 8 and change nothing.
 */
#include <string.h>
#include "guarded.h"
#include "sorts.h"

enum { SMALL_ROWS = 8 };

/* The sort whose turn it is, and the weekday that the calls name. */
static const struct sort *by;
static unsigned weekday;

static struct file file;

/* Document 02's numbers: a byte a row, a mark for each group and row, and 6 cells for each group and 3 for each row. */
static void lend(const struct day *d) {
    salt = below(4) ? 1 + below(1000) : 0;
    fill(&choice, d->rows);
    fill(&sheet, sizeof(uint32_t) * marks_of(d));
    fill(&scratch, sizeof(uint32_t) * cells_of(d));
}

static struct claims_settle_answer settle(size_t less) {
    return by->settle(file.bytes, file.length, weekday, bytes_in(&choice), choice.length, cells_in(&sheet),
                      sheet.length / sizeof(uint32_t), cells_in(&scratch), scratch.length / sizeof(uint32_t) - less);
}

static struct claims_write_codes_answer write_codes(size_t less) {
    return by->write_codes(file.bytes, file.length, weekday, bytes_in(&choice), choice.length, cells_in(&scratch),
                           scratch.length / sizeof(uint32_t) - less);
}

/*
 * The call for several counters on the file alone, in the needed memory, which has a group more for the oven, and in one cell less. With an
 * oven for every row it keeps what settle kept.
 */
static void joined_in_exact_memory(const struct day *d, const uint8_t *kept) {
    struct day one_more = *d;
    uint32_t length = (uint32_t)file.length;
    one_more.groups[SHOP]++;
    for (size_t less = 0; less < 2; less++) {
        lend(&one_more);
        struct claims_settle_joined_answer r = claims_settle_joined(
            file.bytes, file.length, &length, 1, MOST_ROWS, weekday, bytes_in(&choice), choice.length, cells_in(&sheet),
            sheet.length / sizeof(uint32_t), cells_in(&scratch), scratch.length / sizeof(uint32_t) - less);
        if (less) {
            expect(r.refusal == CLAIMS_SHORT && all_left_alone(0, 0, 0), "one counter, scratch one cell short");
            continue;
        }
        expect(all_left_alone(choice.length, sheet.length, scratch.length), "one counter: a guard is changed");
        expect(r.refusal == 0 && r.file == 0 && r.earned == count_rows(d, kept, 1) && r.kept == count_rows(d, kept, 0) &&
                   r.total == worth_of(d, kept) && memcmp(bytes_in(&choice), kept, d->rows) == 0 && all_zero(&scratch, scratch.length),
               "what is answered and left for one counter");
    }
}

/* Both calls on a day, in the needed memory and in one cell less. The code buffer is the choice's. */
static void in_exact_memory(const struct day *d, uint8_t *kept, uint8_t *codes) {
    struct day low = lowered(d);
    weekday = below(WEEKDAYS);
    write_among(d, form_of(by, weekday), &file);
    lend(d);
    struct claims_settle_answer r = settle(0);
    memcpy(kept, bytes_in(&choice), d->rows);
    expect(all_left_alone(choice.length, sheet.length, scratch.length), "settle changed a guard");
    expect(r.refusal == 0 && r.earned == count_rows(d, kept, 1) && r.kept == count_rows(d, kept, 0) && r.total == worth_of(d, kept) &&
               fits_day(d, kept) && certified(&low, 2, kept, cells_in(&sheet)) && all_zero(&scratch, scratch.length),
           "what settle answers and leaves");
    if (by == &sorts[NEW_WEEK] && d->groups[SHOP] < MOST_GROUPS) joined_in_exact_memory(d, kept);
    lend(d);
    struct claims_write_codes_answer w = write_codes(0);
    memcpy(codes, bytes_in(&choice), d->rows);
    expect(all_left_alone(choice.length, 0, scratch.length), "the codes changed a guard");
    expect(w.refusal == 0 && w.length == d->rows && all_zero(&scratch, scratch.length), "what the codes answer and leave");
    if (scratch.length == 0) return;
    lend(d);
    r = settle(1), w = write_codes(1);
    expect(r.refusal == CLAIMS_SHORT && w.refusal == CLAIMS_SHORT && all_left_alone(0, 0, 0), "scratch one cell short");
}

/* The search keeps the same rows; and of the earned rows with code 1, or 2, as many are kept as fit the shop side, or the card side. */
static void small_day(const struct day *d) {
    uint8_t kept[SMALL_ROWS], codes[SMALL_ROWS], best[SMALL_ROWS], held[SMALL_ROWS];
    in_exact_memory(d, kept, codes);
    search_all(d, 2, best);
    expect(memcmp(kept, best, d->rows) == 0, "other rows are kept than the search keeps");
    for (unsigned code = 1; code < 3; code++) {
        unsigned count = 0;
        for (unsigned c = 0; c < d->rows; c++) held[c] = codes[c] == code, count += held[c] && kept[c];
        expect(rank_by_search(d, code == CLAIMS_CODE_SHOP ? SHOP : CARD, held).rank == count, "the rank of the rows with code %u", code);
    }
}

/* The lowest digit of a number in the given base, which leaves the number. */
static unsigned digit(unsigned *number, unsigned base) {
    unsigned x = *number % base;
    *number /= base;
    return x;
}

/* Day `number` of all days of so many groups and rows, whose limits are one of four; what is left of the number is 0 for these days. */
static struct day numbered_day(unsigned cards, unsigned shops, unsigned rows, unsigned *number) {
    static const uint16_t limits[4] = {0, 1, 2, TOP};
    struct day d = flat_day(cards, 0, shops, 0);
    for (unsigned side = 0; side < 2; side++)
        for (unsigned g = 0; g < d.groups[side]; g++) {
            unsigned above = digit(number, g + 1);
            d.parent[side][g] = (uint16_t)(above ? above - 1 : TOP);
            d.limit[side][g] = limits[digit(number, 4)];
        }
    while (d.rows < rows) {
        unsigned card = digit(number, cards), shop = digit(number, shops);
        add_row(&d, card, shop, digit(number, 2));
    }
    return d;
}

/* Every day of so many groups and rows. A new file cannot hold some of them. */
static void all_days_of(unsigned cards, unsigned shops, unsigned rows) {
    for (unsigned n = 0;; n++) {
        unsigned rest = n;
        struct day d = numbered_day(cards, shops, rows, &rest);
        if (rest > 0) return;
        if (by->stored || is_new(&d)) small_day(&d);
    }
}

/* Up to two groups a side and two rows: all days. The one of two groups and one claim takes all of its 15 cells. */
static void all_days(void) {
    for (unsigned cards = 1; cards <= 2; cards++)
        for (unsigned shops = 1; shops <= 2; shops++)
            for (unsigned rows = 0; rows <= 2; rows++) all_days_of(cards, shops, rows);
    all_days_of(0, 0, 0);
    all_days_of(2, 0, 0);
}

static void random_days(void) {
    for (int n = 0; n < 10000; n++) {
        struct day d = day_for(by, random_day(1 + below(8), SMALL_ROWS));
        small_day(&d);
    }
}

/* A card group of this limit over another, a shop group, and rows that all name the inner card group. */
static struct day crowd(unsigned card_limit, unsigned shop_limit, unsigned kind) {
    struct day d = flat_day(2, card_limit, 1, shop_limit);
    d.parent[CARD][1] = 0;
    while (d.rows < MOST_ROWS) add_row(&d, 1, 0, kind);
    return day_for(by, d);
}

/*
 * Limits on both sides of the number of rows. Ordinary and earned rows both count in the outer card group: the first ones are kept, as many
 * as the lesser limit lets in. Where that is not all of them, the side with the lesser limit holds the earned rows, or both sides.
 */
static void round_the_rows(void) {
    static const unsigned limits[] = {0, 1, 511, 512, 513, 514, 1023, TOP};
    enum { LIMITS = sizeof limits / sizeof *limits };
    for (unsigned n = 0; n < 2 * LIMITS * LIMITS; n++) {
        unsigned kind = n % 2, card = limits[n / 2 % LIMITS], shop = limits[n / 2 / LIMITS], most = card < shop ? card : shop;
        unsigned code = most >= MOST_ROWS || card == shop ? CLAIMS_CODE_REST : card < shop ? CLAIMS_CODE_CARD : CLAIMS_CODE_SHOP;
        struct day d = crowd(card, shop, kind);
        uint8_t kept[MOST_ROWS], codes[MOST_ROWS];
        in_exact_memory(&d, kept, codes);
        for (unsigned c = 0; c < d.rows; c++)
            expect(kept[c] == (c < most) && codes[c] == (kind ? code : CLAIMS_CODE_ORDINARY), "limits %u and %u: row %u", card, shop, c);
    }
}

/* The largest size, with limits that are small, or about the number of rows, or the largest. */
static void large_days(void) {
    static const uint16_t limits[] = {1, 2, 5, 511, 512, 513, 514, 1023, TOP - 1, TOP};
    for (int n = 0; n < 20; n++) {
        struct day d = flat_day(MOST_GROUPS, 0, MOST_GROUPS, 0);
        uint8_t kept[MOST_ROWS], codes[MOST_ROWS];
        for (unsigned side = 0; side < 2; side++) {
            if (n % 3) hang_forest(&d, side, below(8), 1 + below(40));
            for (unsigned g = 0; g < MOST_GROUPS; g++) d.limit[side][g] = limits[below(sizeof limits / sizeof *limits)];
        }
        d = day_for(by, d);
        draw_rows(&d, MOST_ROWS, 2);
        in_exact_memory(&d, kept, codes);
        expect(scratch.length == sizeof(uint32_t[CLAIMS_LONGEST_SCRATCH]), "the longest scratch");
    }
}

int main(void) {
    for (by = sorts; by < sorts + SORTS; by++) {
        start_numbers(20270302);
        all_days();
        random_days();
        round_the_rows();
        large_days();
        part_done(by->name);
    }
    return all_done();
}
