/* archive: till till_kinds */
/*
 * Tests of the calls under the second terms, with four kinds of rows, against a search through all selections and against the calls under
 * the first terms, which are in an archive of their own: this program is linked with both. On the weekdays that are not named a file has
 * other limits, and they must not matter. All lent memory lies between guards, and before each settling under the second terms every bit
 * of it is set.
 */
#include <string.h>
#include "guarded.h"
#include "sorts.h"

enum { KINDS = SECOND_KINDS, SMALL_ROWS = 12 };

static const struct sort *by = &sorts[NEW_WEEK];
static unsigned weekday;
static struct file file;

/* Settles the file, with buffers of so many cells. */
static struct claims_settle_kinds_answer settle_in(size_t choices, size_t marks, size_t cells) {
    fill(&choice, choices);
    fill(&sheet, sizeof(uint64_t) * marks);
    fill(&scratch, sizeof(uint64_t) * cells);
    return claims_settle_kinds(
        file.bytes, file.length, weekday, bytes_in(&choice), choices, wide_in(&sheet), marks, wide_in(&scratch), cells);
}

/* Settles a file that holds a day on the weekday, with buffers longer than needed by `more` cells. */
static struct claims_settle_kinds_answer settle(const struct day *d, size_t more) {
    write_among(d, form_of(by, weekday), &file);
    return settle_in(d->rows + more, marks_of(d) + more, cells_of(d) + more);
}

/* The same file settled under the first terms, with buffers of just the needed lengths. */
static struct claims_settle_answer settle_first(const struct day *d) {
    fill(&choice, d->rows);
    fill(&sheet, sizeof(uint32_t) * marks_of(d));
    fill(&scratch, sizeof(uint32_t) * cells_of(d));
    return claims_settle(file.bytes, file.length, weekday, bytes_in(&choice), d->rows, cells_in(&sheet), marks_of(d),
                         cells_in(&scratch), cells_of(d));
}

/* How many kept rows are of a kind. */
static unsigned of_kind(const struct day *d, unsigned kind) {
    return count_rows(d, bytes_in(&choice), kind) - count_rows(d, bytes_in(&choice), kind + 1);
}

/* Everything that settle leaves besides which rows are kept: the marks by their whole cells, zeros in the scratch, and nothing else. */
static int left_well(const struct day *d, struct claims_settle_kinds_answer r) {
    const uint8_t *kept = bytes_in(&choice);
    for (unsigned c = 0; c < d->rows; c++)
        if (kept[c] > 1) return 0;
    return r.refusal == 0 && r.kind0 == of_kind(d, 0) && r.kind1 == of_kind(d, 1) && r.kind2 == of_kind(d, 2) &&
           r.kind3 == of_kind(d, 3) && r.kept == count_rows(d, kept, 0) && r.total == worth_of(d, kept) &&
           certified_wide(d, KINDS, kept, wide_in(&sheet)) && fits_day(d, kept) && all_zero(&scratch, sizeof(uint64_t) * cells_of(d)) &&
           all_left_alone(d->rows, sizeof(uint64_t) * marks_of(d), sizeof(uint64_t) * cells_of(d));
}

/* The number is told, and zeros beside it, and no buffer is changed. */
static int turned_away(struct claims_settle_kinds_answer r, unsigned number) {
    return r.refusal == number && r.kind0 == 0 && r.kind1 == 0 && r.kind2 == 0 && r.kind3 == 0 && r.kept == 0 && r.total == 0 &&
           all_left_alone(0, 0, 0);
}

/* With each buffer one cell short, and with all three, the file is turned away. */
static int short_turned_away(const struct day *d) {
    size_t marks = marks_of(d), cells = cells_of(d);
    if (marks == 0) return 1;
    return turned_away(settle_in(d->rows, marks - 1, cells), CLAIMS_SHORT) &&
           turned_away(settle_in(d->rows, marks, cells - 1), CLAIMS_SHORT) &&
           (d->rows == 0 || (turned_away(settle_in(d->rows - 1, marks, cells), CLAIMS_SHORT) &&
                             turned_away(settle_in(d->rows - 1, marks - 1, cells - 1), CLAIMS_SHORT)));
}

/* A new day of at most so many groups a side and rows, which have so many kinds. */
static struct day drawn(unsigned groups, unsigned rows, unsigned kinds) {
    struct day d = random_day(groups, rows);
    for (unsigned c = 0; c < d.rows; c++) d.kind[c] = (uint8_t)below(kinds);
    return lowered(&d);
}

/* The choice of small days is the first of the best ones of all selections. */
static void small_days(void) {
    for (unsigned i = 0; i < 6000; i++) {
        uint8_t best[SMALL_ROWS];
        struct day d = drawn(1 + below(5), SMALL_ROWS, KINDS);
        weekday = below(WEEKDAYS);
        struct claims_settle_kinds_answer r = settle(&d, below(PAST + 1));
        search_all(&d, KINDS, best);
        expect(left_well(&d, r) && memcmp(bytes_in(&choice), best, d.rows) == 0, "small day %u", i);
        expect(short_turned_away(&d), "small day %u in short memory", i);
    }
    part_done("small days");
}

/*
 * A day of the largest size: its groups are chains, so many a side, whose limits fall from the top of each chain to its end, or a forest
 * where that number is 0. The rows name any groups, or, with `deep`, the last ones alone.
 */
static struct day full_day(unsigned chains, int deep) {
    struct day d = flat_day(MOST_GROUPS, 1, MOST_GROUPS, 1);
    for (unsigned side = 0; side < 2; side++) {
        unsigned most = 1 + below(MOST_ROWS);
        if (chains == 0) draw_side(&d, side, MOST_GROUPS, 1 + most / 8);
        if (chains > 0) hang_chains(&d, side, chains);
        for (unsigned g = 0; chains > 0 && g < MOST_GROUPS; g++) d.limit[side][g] = (uint16_t)(1 + most * (MOST_GROUPS - g) / MOST_GROUPS);
    }
    draw_rows(&d, MOST_ROWS, KINDS);
    for (unsigned c = 0; deep && c < MOST_ROWS; c++)
        for (unsigned side = 0; side < 2; side++) d.group[side][c] = (uint16_t)(MOST_GROUPS - 1 - below(16));
    return lowered(&d);
}

/* A day on any weekday, in memory of just the needed lengths, longer, and one short. */
static void large_day(const struct day *d, const char *what, unsigned i) {
    weekday = below(WEEKDAYS);
    expect(left_well(d, settle(d, i % 2 ? PAST : 0)), "%s %u", what, i);
    expect(short_turned_away(d), "%s %u in short memory", what, i);
}

/* Large days: the marks show that the choice is a heaviest one. */
static void large_days(void) {
    static const unsigned chains[] = {0, 1, 2, 4, 16, 128};
    for (unsigned i = 0; i < 200; i++) {
        struct day any = drawn(MOST_GROUPS, MOST_ROWS, KINDS), full = full_day(chains[i % 6], i % 5 == 0), chain = chain_day(i * 3);
        for (unsigned c = 0; c < MOST_ROWS; c++) chain.kind[c] = (uint8_t)below(KINDS);
        large_day(&any, "large day", i);
        large_day(&full, "full day", i);
        large_day(&chain, "chain", i);
    }
    struct day all = flat_day(1, TOP, 1, TOP);
    for (unsigned c = 0; c < MOST_ROWS; c++) add_row(&all, 0, 0, 3);
    struct claims_settle_kinds_answer r = settle(&all, 0);
    expect(left_well(&all, r) && r.kind3 == 512 && r.total == 69122916864u, "the largest total");
    struct day none = flat_day(2, 1, 2, 1), nothing = {0};
    expect(left_well(&none, settle(&none, 0)), "no row");
    expect(left_well(&nothing, settle(&nothing, PAST)), "no group and no row");
    part_done("large days");
}

/* A file with kinds 0 and 1 alone: the same rows, counts and total under either terms. */
static void either_terms(void) {
    static uint8_t kept[MOST_ROWS];
    for (unsigned i = 0; i < 3000; i++) {
        struct day d = drawn(1 + below(20), i % 10 ? 20 : 300, 2);
        weekday = below(WEEKDAYS);
        struct claims_settle_kinds_answer r = settle(&d, 0);
        int well = left_well(&d, r);
        memcpy(kept, bytes_in(&choice), d.rows);
        struct claims_settle_answer s = settle_first(&d);
        expect(well && s.refusal == 0 && memcmp(kept, bytes_in(&choice), d.rows) == 0 && s.earned == r.kind1 && s.kept == r.kept &&
                   s.total == r.total && r.kind2 == 0 && r.kind3 == 0,
               "either terms %u", i);
    }
    part_done("either terms");
}

/* Whether both calls tell the same number of the file under either terms; where they refuse, the second ones leave memory as it was. */
static int same_numbers(const struct day *d) {
    static const uint8_t no_row[MOST_ROWS];
    struct claims_settle_kinds_answer r = settle_in(d->rows, marks_of(d), cells_of(d));
    int well = r.refusal == 0 || turned_away(r, r.refusal);
    struct claims_fits_and_rank_answer p =
        claims_fits_and_rank_kinds(file.bytes, file.length, no_row, d->rows, below(2), weekday);
    struct claims_fits_and_rank_answer q = claims_fits_and_rank(file.bytes, file.length, no_row, d->rows, CLAIMS_CARD, weekday);
    return well && r.refusal == settle_first(d).refusal && p.refusal == q.refusal && p.refusal == r.refusal;
}

/* Damages the file, but none of its kinds: it is cut off or longer, a count is too large, or a parent, a limit or a group is another. */
static void damage(const struct day *d) {
    unsigned groups = d->groups[CARD] + d->groups[SHOP];
    size_t shops = 2 + 16 * d->groups[CARD], claims = 4 + 16 * groups;
    unsigned group = below(groups), row = d->rows == 0 ? 0 : below(d->rows);
    size_t record = group < d->groups[CARD] ? 2 + 16 * group : 4 + 16 * group;
    switch (below(7)) {
    case 0: file.length = below((unsigned)file.length + 1); break;
    case 1: file.bytes[file.length++] = (uint8_t)below(256); break;
    case 2: put16(file.bytes, MOST_GROUPS + 1 + below(1000)); break;
    case 3: put16(file.bytes + shops, MOST_GROUPS + 1 + below(1000)); break;
    case 4: put16(file.bytes + claims, MOST_ROWS + 1 + below(1000)); break;
    case 5: put16(file.bytes + record + 2 * below(8), below(2) ? below(20) : below(TOP + 1)); break;
    case 6:
        if (d->rows > 0) put16(file.bytes + claims + 2 + 5 * row + 2 * below(2), below(40));
        break;
    }
}

/* A damaged file with kinds 0 and 1 alone is refused with the same number under either terms. */
static void either_refused(void) {
    unsigned told[16] = {0};
    for (unsigned i = 0; i < 20000; i++) {
        struct day d = drawn(1 + below(6), 8, 2);
        weekday = below(WEEKDAYS + 1);
        write_among(&d, form_of(by, weekday % WEEKDAYS), &file);
        damage(&d);
        expect(same_numbers(&d), "damaged file %u", i);
        told[settle_first(&d).refusal]++;
    }
    for (unsigned number = 0; number <= 12; number++)
        if (number != 6 && (number < 8 || number > 10)) expect(told[number] > 0, "a file with the number %u", number);
    part_done("either refused");
}

/* Fits and rank: rows of kinds 1 to 3 count from the parent of the card group that they name. */
static void ranks(void) {
    for (unsigned i = 0; i < 4000; i++) {
        uint8_t selection[MOST_ROWS];
        struct day d = drawn(1 + below(8), 10, KINDS);
        weekday = below(WEEKDAYS);
        write_among(&d, form_of(by, weekday), &file);
        for (unsigned c = 0; c < d.rows; c++) selection[c] = (uint8_t)below(2);
        for (unsigned side = 0; side < 2; side++) {
            struct claims_fits_and_rank_answer r =
                claims_fits_and_rank_kinds(file.bytes, file.length, selection, d.rows, side, weekday);
            struct ranked must = rank_by_search(&d, side, selection);
            expect(r.refusal == 0 && r.fits == must.fits && r.rank == must.rank, "rank %u", i);
        }
    }
    part_done("ranks");
}

/* The numbers that the eight calls of a sort tell of a file whose claim has a kind; where they refuse it, memory but the tally is left as it was. */
static void first_terms(const struct sort *sort, unsigned kind) {
    static uint8_t row[1], out[MOST_FILE];
    static struct claims_tally tally;
    struct day d = flat_day(1, 1, 1, 1);
    add_row(&d, 0, 0, kind);
    write_among(&d, form_of(sort, 0), &file);
    unsigned number = kind < 2 ? 0 : 6;
    fill(&choice, 1);
    fill(&sheet, 3 * sizeof(uint32_t));
    fill(&scratch, 15 * sizeof(uint32_t));
    expect(sort->fits_and_rank(file.bytes, file.length, row, 1, CLAIMS_CARD, 0).refusal == number, "rank of kind %u", kind);
    expect(sort->spare_places(file.bytes, file.length, row, 1, 0, 0).refusal == number, "spare places of kind %u", kind);
    expect(sort->write_slip(file.bytes, file.length, row, 1, 0, out, sizeof out).refusal == number, "slip of kind %u", kind);
    expect(sort->write_canonical(file.bytes, file.length, out, sizeof out).refusal == number, "canonical form of kind %u", kind);
    expect(sort->write_codes(file.bytes, file.length, 0, out, 1, cells_in(&scratch), 15).refusal == number, "codes of kind %u", kind);
    expect(sort->settle(file.bytes, file.length, 0, bytes_in(&choice), 1, cells_in(&sheet), 3, cells_in(&scratch), 15).refusal == number,
           "settling kind %u", kind);
    expect(sort->accept(file.bytes, file.length, bytes_in(&choice), 1, cells_in(&sheet), 3, 0) == number, "accepting kind %u", kind);
    expect(sort->tally_begin(file.bytes, file.length, 0, &tally) == number, "a tally of kind %u", kind);
    expect(number == 0 || all_left_alone(0, 0, 0), "memory beside kind %u", kind);
}

/* Each number that a kind can have, in both calls, and in all calls of the first terms. */
static void kinds(void) {
    static uint8_t row[1];
    struct day d = flat_day(1, 1, 1, 1);
    add_row(&d, 0, 0, 0);
    weekday = 0;
    for (unsigned kind = 0; kind < 256; kind++) {
        d.kind[0] = (uint8_t)kind;
        struct claims_settle_kinds_answer r = settle(&d, 0);
        expect(kind < KINDS ? left_well(&d, r) : turned_away(r, CLAIMS_KIND), "settling kind %u under the second terms", kind);
        expect(claims_fits_and_rank_kinds(file.bytes, file.length, row, 1, CLAIMS_CARD, 0).refusal == (kind < KINDS ? 0 : CLAIMS_KIND),
               "rank of kind %u under the second terms", kind);
    }
    for (unsigned sort = 0; sort < SORTS; sort++)
        for (unsigned kind = 0; kind <= KINDS; kind++) first_terms(&sorts[sort], kind);
    part_done("kinds");
}

/* The refusal of a rank, which answers zeros beside it. */
static unsigned rank_refusal(const uint8_t *selection, size_t length, unsigned side) {
    struct claims_fits_and_rank_answer r = claims_fits_and_rank_kinds(file.bytes, file.length, selection, length, side, weekday);
    return r.refusal != 0 && (r.fits != 0 || r.rank != 0) ? UINT32_MAX : r.refusal;
}

/* The other refusals in their order: the file, then short memory, then the day, then values. */
static void refusals(void) {
    static const uint8_t row[1] = {1}, bad[1] = {2};
    struct day d = flat_day(1, 1, 1, 1);
    add_row(&d, 0, 0, 2);
    weekday = 0;
    expect(left_well(&d, settle(&d, 0)) && short_turned_away(&d), "one row");
    expect(rank_refusal(row, 1, CLAIMS_SHOP) == 0 && rank_refusal(row, 0, CLAIMS_SHOP) == CLAIMS_SHORT, "a short selection");
    expect(rank_refusal(bad, 1, CLAIMS_SHOP) == CLAIMS_VALUE && rank_refusal(row, 1, 2) == CLAIMS_VALUE, "a bad selection or side");
    for (unsigned i = 0; i < NO_WEEKDAYS; i++) {
        weekday = no_weekdays[i];
        expect(turned_away(settle_in(1, 3, 15), CLAIMS_DAY), "day %u", weekday);
        expect(turned_away(settle_in(0, 3, 15), CLAIMS_SHORT), "a short choice on day %u", weekday);
        expect(rank_refusal(bad, 1, CLAIMS_SHOP) == CLAIMS_DAY && rank_refusal(bad, 0, 2) == CLAIMS_SHORT, "rank on day %u", weekday);
    }
    file.length--;
    expect(turned_away(settle_in(0, 3, 15), CLAIMS_CUT_OFF) && rank_refusal(bad, 0, 2) == CLAIMS_CUT_OFF, "a cut file");
    part_done("refusals");
}

int main(void) {
    start_numbers(20261116);
    small_days();
    large_days();
    either_terms();
    either_refused();
    ranks();
    kinds();
    refusals();
    return all_done();
}
