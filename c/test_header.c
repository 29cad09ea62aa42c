/*
 * Tests of claims.h itself: the version, the layout of a tally, and that the needed lengths are those that its macros give, by the calls
 * for each sort of file.
 */
#include <string.h>
#include "sorts.h"

/* Where the library has the fields of a tally, in bytes from its front. */
_Static_assert(offsetof(struct claims_tally, parents) == 0, "parents");
_Static_assert(offsetof(struct claims_tally, limits) == 1024, "limits");
_Static_assert(offsetof(struct claims_tally, card_nodes) == 2048, "card nodes");
_Static_assert(offsetof(struct claims_tally, shop_nodes) == 3072, "shop nodes");
_Static_assert(offsetof(struct claims_tally, cards) == 4096, "cards");
_Static_assert(offsetof(struct claims_tally, shops) == 4104, "shops");
_Static_assert(offsetof(struct claims_tally, rows) == 4112, "rows");
_Static_assert(offsetof(struct claims_tally, counts) == 4120, "counts");
_Static_assert(offsetof(struct claims_tally, selection) == 5144, "selection");
_Static_assert(sizeof(struct claims_tally) == 5656, "the tally");
_Static_assert(CLAIMS_TALLY_TOP == 2 * CLAIMS_MOST_GROUPS, "no node is the top");
_Static_assert(sizeof(struct claims_tally_count_answer) == 8, "what a count answers");

/* The sort whose turn it is. */
static const struct sort *by;

static struct file file;
static unsigned weekday; /* that the calls name */
static uint8_t choice[CLAIMS_LONGEST_CHOICE];
static uint32_t sheet[CLAIMS_LONGEST_SHEET], scratch[CLAIMS_LONGEST_SCRATCH];
static uint8_t slip[CLAIMS_LONGEST_SLIP], canonical[CLAIMS_LONGEST_CANONICAL], codes[CLAIMS_LONGEST_CODES];
static const uint8_t no_row[CLAIMS_LONGEST_SELECTION];

/* The refusal of a call on the file, which is that of the day. Settle has buffers so many cells shorter than the macros say. */
static unsigned settled_with(const struct day *d, size_t choice_less, size_t sheet_less, size_t scratch_less) {
    unsigned groups = d->groups[CARD] + d->groups[SHOP];
    struct claims_settle_answer r = by->settle(
        file.bytes, file.length, weekday,
        choice, CLAIMS_CHOICE_LENGTH(d->rows) - choice_less,
        sheet, CLAIMS_SHEET_LENGTH(groups, d->rows) - sheet_less,
        scratch, CLAIMS_SCRATCH_LENGTH(groups, d->rows) - scratch_less);
    return r.refusal;
}

/* The file twice, as those of two counters: the groups of both, and one more for the oven, and the rows of both. */
static unsigned joined_with(const struct day *d, size_t choice_less, size_t sheet_less, size_t scratch_less) {
    static uint8_t files[2 * CLAIMS_LONGEST_FILE];
    const uint32_t both[2] = {(uint32_t)file.length, (uint32_t)file.length};
    unsigned groups = 2 * (d->groups[CARD] + d->groups[SHOP]) + 1, claims = 2 * d->rows;
    memcpy(files, file.bytes, file.length);
    memcpy(files + file.length, file.bytes, file.length);
    struct claims_settle_joined_answer r = claims_settle_joined(
        files, 2 * file.length, both, 2, 9, weekday,
        choice, CLAIMS_CHOICE_LENGTH(claims) - choice_less,
        sheet, CLAIMS_SHEET_LENGTH(groups, claims) - sheet_less,
        scratch, CLAIMS_SCRATCH_LENGTH(groups, claims) - scratch_less);
    return r.refusal;
}

/* The codes have buffers so many cells shorter than the macros say. */
static unsigned coded_with(const struct day *d, size_t codes_less, size_t scratch_less) {
    unsigned groups = d->groups[CARD] + d->groups[SHOP];
    struct claims_write_codes_answer r = by->write_codes(
        file.bytes, file.length, weekday,
        codes, CLAIMS_CODES_LENGTH(d->rows) - codes_less,
        scratch, CLAIMS_SCRATCH_LENGTH(groups, d->rows) - scratch_less);
    return r.refusal;
}

/* Accept is given what settle left, so many cells shorter than the macros say. */
static unsigned accepted_with(const struct day *d, size_t choice_less, size_t sheet_less) {
    unsigned groups = d->groups[CARD] + d->groups[SHOP];
    return by->accept(
        file.bytes, file.length,
        choice, CLAIMS_CHOICE_LENGTH(d->rows) - choice_less,
        sheet, CLAIMS_SHEET_LENGTH(groups, d->rows) - sheet_less,
        weekday);
}

/* The other calls, with a selection of that length in which no row is selected. */
static unsigned ranked_with(size_t length) {
    return by->fits_and_rank(file.bytes, file.length, no_row, length, CLAIMS_CARD, weekday).refusal;
}

static unsigned spare_with(size_t length) { return by->spare_places(file.bytes, file.length, no_row, length, 0, weekday).refusal; }

static unsigned slip_with(size_t length, size_t slip_length) {
    return by->write_slip(file.bytes, file.length, no_row, length, weekday, slip, slip_length).refusal;
}

static unsigned canonical_with(size_t length) {
    return by->write_canonical(file.bytes, file.length, canonical, length).refusal;
}

static size_t file_length(unsigned groups, unsigned claims) {
    return by->layout == WEEK ? CLAIMS_FILE_LENGTH(groups, claims) : CLAIMS_FILE_LENGTH_OLD(groups, claims);
}

/* The lengths suffice, and no call takes a shorter one. They are the same in both layouts, that of the canonical form too. */
static void lengths(const struct day *d) {
    unsigned groups = d->groups[CARD] + d->groups[SHOP];
    size_t selection = CLAIMS_SELECTION_LENGTH(d->rows), form = CLAIMS_CANONICAL_LENGTH(groups, d->rows);
    weekday = below(CLAIMS_DAYS);
    write_among(d, form_of(by, weekday), &file);
    expect(file.length == file_length(groups, d->rows), "the length of the file");
    expect(settled_with(d, 0, 0, 0) == 0, "settle with the needed lengths");
    expect(accepted_with(d, 0, 0) == 0, "accept with the needed lengths");
    expect(accepted_with(d, 0, 1) == CLAIMS_SHORT, "accept with a sheet one short");
    expect(ranked_with(selection) == 0, "fits and rank with the needed length");
    expect(slip_with(selection, CLAIMS_SLIP_LENGTH(0)) == 0, "the slip with the needed lengths");
    expect(slip_with(selection, CLAIMS_SLIP_LENGTH(0) - 1) == CLAIMS_SHORT, "a slip one short");
    expect(canonical_with(form) == 0, "the canonical form with the needed length");
    expect(canonical_with(form - 1) == CLAIMS_SHORT, "a canonical form one short");
    expect(settled_with(d, 0, 1, 0) == CLAIMS_SHORT, "a sheet one short");
    expect(settled_with(d, 0, 0, 1) == CLAIMS_SHORT, "a scratch one short");
    expect(coded_with(d, 0, 0) == 0, "the codes with the needed lengths");
    expect(coded_with(d, 0, 1) == CLAIMS_SHORT, "the codes with a scratch one short");
    if (d->rows == 0) return;
    expect(spare_with(selection) == 0, "spare places with the needed length");
    expect(settled_with(d, 1, 0, 0) == CLAIMS_SHORT, "a choice one short");
    expect(accepted_with(d, 1, 0) == CLAIMS_SHORT, "accept with a choice one short");
    expect(coded_with(d, 1, 0) == CLAIMS_SHORT, "codes one short");
    expect(ranked_with(selection - 1) == CLAIMS_SHORT, "fits and rank with a selection one short");
    expect(slip_with(selection - 1, CLAIMS_LONGEST_SLIP) == CLAIMS_SHORT, "the slip with a selection one short");
    expect(spare_with(selection - 1) == CLAIMS_SHORT, "spare places with a selection one short");
}

/* The same of the call for several counters. */
static void joined_lengths(const struct day *d) {
    expect(joined_with(d, 0, 0, 0) == 0, "two counters with the needed lengths");
    expect(joined_with(d, 0, 1, 0) == CLAIMS_SHORT, "two counters with a sheet one short");
    expect(joined_with(d, 0, 0, 1) == CLAIMS_SHORT, "two counters with a scratch one short");
    if (d->rows > 0) expect(joined_with(d, 1, 0, 0) == CLAIMS_SHORT, "two counters with a choice one short");
}

static struct day largest_day(void) {
    struct day d = flat_day(CLAIMS_MOST_GROUPS, 1, CLAIMS_MOST_GROUPS, 1);
    draw_rows(&d, CLAIMS_MOST_CLAIMS, 2);
    return d;
}

/* The largest day, and random ones. */
static void days(void) {
    start_numbers(20270302);
    struct day d = largest_day();
    lengths(&d);
    expect(file.length == (by->layout == WEEK ? CLAIMS_LONGEST_FILE : CLAIMS_LONGEST_FILE_OLD), "the longest file");
    for (int n = 0; n < 50; n++) {
        d = day_for(by, random_day(20, 40));
        lengths(&d);
        if (by == &sorts[NEW_WEEK]) joined_lengths(&d);
    }
}

/* The library writes each field of a tally where the header has it: the fields of one row, which is in and names the last of its groups. */
static void tally_fields(void) {
    static struct claims_tally tally;
    struct day d = flat_day(2, 7, 3, 9);
    d.parent[CARD][1] = 0;
    d.parent[SHOP][2] = 1;
    add_row(&d, 1, 2, 0);
    write_day(&d, WEEK, &file);
    expect(claims_tally_begin(file.bytes, file.length, 0, &tally) == 0 && claims_tally_put_in(&tally, 0) == 0, "a tally of one row");
    expect(tally.cards == 2 && tally.shops == 3 && tally.rows == 1, "the tally's three numbers");
    expect(tally.parents[0] == 512 && tally.parents[1] == 0 && tally.parents[4] == 3 && tally.limits[1] == 7 && tally.limits[4] == 9,
           "the tally's parents and limits");
    expect(tally.card_nodes[0] == 1 && tally.shop_nodes[0] == 4, "the nodes of the tally's row");
    expect(tally.counts[0] == 1 && tally.counts[2] == 0 && tally.counts[3] == 1 && tally.selection[0] == 1, "the tally's row is in");
    expect(claims_tally_count(&tally, CLAIMS_SHOP, 1).count == 1 && claims_tally_count(&tally, CLAIMS_SHOP, 3).refusal == CLAIMS_VALUE,
           "the tally's counts");
    expect(claims_tally_take_out(&tally, 0) == 0 && tally.counts[3] == 0 && tally.selection[0] == 0, "the tally's row is out");
}

int main(void) {
    expect(claims_version() == CLAIMS_VERSION, "the library's version is the header's");

    expect(CLAIMS_MOST_GROUPS == MOST_GROUPS && CLAIMS_MOST_CLAIMS == MOST_ROWS, "the most groups and claims");
    expect(CLAIMS_MOST_FILES == 8, "the most files");
    expect(CLAIMS_DAYS == WEEKDAYS, "the days of a week");
    expect(CLAIMS_LONGEST_FILE == 10758, "the longest file");
    expect(CLAIMS_LONGEST_FILE == CLAIMS_FILE_LENGTH(2 * CLAIMS_MOST_GROUPS, CLAIMS_MOST_CLAIMS), "the longest file by its records");
    expect(CLAIMS_LONGEST_FILE_OLD == 4614, "the longest file of the old layout");
    expect(CLAIMS_LONGEST_FILE_OLD == CLAIMS_FILE_LENGTH_OLD(2 * CLAIMS_MOST_GROUPS, CLAIMS_MOST_CLAIMS), "the same by its records");
    expect(CLAIMS_LONGEST_SELECTION == CLAIMS_SELECTION_LENGTH(CLAIMS_MOST_CLAIMS), "the longest selection");
    expect(CLAIMS_LONGEST_CHOICE == CLAIMS_CHOICE_LENGTH(CLAIMS_MOST_CLAIMS), "the longest choice");
    expect(CLAIMS_LONGEST_SHEET == CLAIMS_SHEET_LENGTH(2 * CLAIMS_MOST_GROUPS, CLAIMS_MOST_CLAIMS), "the longest sheet");
    expect(CLAIMS_LONGEST_SCRATCH == CLAIMS_SCRATCH_LENGTH(2 * CLAIMS_MOST_GROUPS, CLAIMS_MOST_CLAIMS), "the longest scratch");
    expect(CLAIMS_LONGEST_SLIP == CLAIMS_SLIP_LENGTH(CLAIMS_MOST_CLAIMS), "the longest slip");
    expect(CLAIMS_LONGEST_CANONICAL == CLAIMS_CANONICAL_LENGTH(2 * CLAIMS_MOST_GROUPS, CLAIMS_MOST_CLAIMS), "the longest canonical form");
    expect(CLAIMS_LONGEST_CODES == CLAIMS_CODES_LENGTH(CLAIMS_MOST_CLAIMS), "the longest codes");
    expect(CLAIMS_INSIDE == 18 && CLAIMS_OUTSIDE == 19 && CLAIMS_FULL == 20, "the numbers of the tally");
    tally_fields();

    part_done("the header alone");

    for (by = sorts; by < sorts + SORTS; by++) {
        days();
        part_done(by->name);
    }
    return all_done();
}
