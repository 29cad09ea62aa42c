/* The library's calls. No other file here names them, except the table of sorts.h. */
#include <string.h>
#include "ours.h"

static mark sheet[MOST_MARKS], scratch[CLAIMS_LONGEST_SCRATCH];

mark *ours_sheet(void) { return sheet; }

#if KINDS == 4

#define SETTLE claims_settle_kinds
#define FITS_AND_RANK claims_fits_and_rank_kinds

void ours_settle(const uint8_t *file, size_t length, struct outcome *out) {
    struct claims_settle_kinds_answer r =
        claims_settle_kinds(file, length, 0, out->choice, MOST_ROWS, sheet, MOST_MARKS, scratch, CLAIMS_LONGEST_SCRATCH);
    out->refusal = r.refusal;
    out->of_kind[0] = (unsigned)r.kind0;
    out->of_kind[1] = (unsigned)r.kind1;
    out->of_kind[2] = (unsigned)r.kind2;
    out->of_kind[3] = (unsigned)r.kind3;
    out->kept = (unsigned)r.kept;
    out->total = r.total;
}

void ours_keep(unsigned layout, const struct file *file, struct outcome *out) {
    (void)layout;
    ours_settle(file->bytes, file->length, out);
}

int ours_certified(const struct day *d, const uint8_t *choice) { return certified_wide(d, KINDS, choice, sheet); }

#else

#define SETTLE claims_settle
#define FITS_AND_RANK claims_fits_and_rank

static void settle_by(claims_settle_call *settle, unsigned weekday, const uint8_t *file, size_t length, struct outcome *out) {
    struct claims_settle_answer r = settle(file, length, weekday, out->choice, MOST_ROWS, sheet, MOST_MARKS, scratch, CLAIMS_LONGEST_SCRATCH);
    out->refusal = r.refusal;
    out->of_kind[0] = (unsigned)(r.kept - r.earned);
    out->of_kind[1] = (unsigned)r.earned;
    out->kept = (unsigned)r.kept;
    out->total = r.total;
}

void ours_settle(const uint8_t *file, size_t length, struct outcome *out) { settle_by(claims_settle, 0, file, length, out); }

void ours_settle_by(const struct sort *by, unsigned weekday, const struct file *file, struct outcome *out) {
    settle_by(by->settle, weekday, file->bytes, file->length, out);
}

/* The tally that the calls are made on; one in which no row is in, and one in which the kept rows are in. */
static struct claims_tally tally, empty_tally, full_tally;

void ours_keep(unsigned layout, const struct file *file, struct outcome *out) {
    const struct sort *by = &sorts[layout == WEEK ? STORED_WEEK : STORED_OLD];
    ours_settle_by(by, 0, file, out);
    by->tally_begin(file->bytes, file->length, 0, &empty_tally);
    full_tally = empty_tally;
    for (unsigned row = 0; row < MOST_ROWS; row++)
        if (out->choice[row]) claims_tally_put_in(&full_tally, row);
}

unsigned ours_begin(const struct file *file) { return claims_tally_begin(file->bytes, file->length, 0, &tally); }
unsigned ours_put_in(unsigned row) { return claims_tally_put_in(&tally, row); }
unsigned ours_take_out(unsigned row) { return claims_tally_take_out(&tally, row); }
unsigned ours_count(unsigned side, unsigned group) { return claims_tally_count(&tally, side, group).count; }

int ours_certified(const struct day *d, const uint8_t *choice) { return certified(d, KINDS, choice, sheet); }

unsigned ours_codes(const uint8_t *file, size_t length, uint8_t *codes) {
    return claims_write_codes(file, length, 0, codes, MOST_ROWS, scratch, CLAIMS_LONGEST_SCRATCH).refusal;
}

unsigned ours_accept(const uint8_t *file, size_t length, const uint8_t *choice, size_t choices, unsigned weekday) {
    return claims_accept(file, length, choice, choices, sheet, MOST_MARKS, weekday);
}

#endif

/* With no memory lent, settle judges the file and then answers that the memory is short; with no group and no row none is needed. */
unsigned ours_judge(const uint8_t *file, size_t length) {
    unsigned refusal = SETTLE(file, length, 0, (uint8_t *)sheet, 0, sheet, 0, scratch, 0).refusal;
    return refusal == CLAIMS_SHORT ? 0 : refusal;
}

struct plain_rank ours_fits_and_rank(const uint8_t *file, size_t length, const uint8_t *selection, size_t selected, unsigned side,
                                     unsigned weekday) {
    struct claims_fits_and_rank_answer r = FITS_AND_RANK(file, length, selection, selected, side, weekday);
    return (struct plain_rank){r.refusal, r.fits, r.rank};
}

/* ---- every call ---- */

enum { DAY_NAMED = WEEKDAYS - 1 };

#if KINDS == 4

static void make_settle(const struct sort *by, const struct file *day, const uint8_t *selection) {
    static uint8_t choice[MOST_ROWS];
    (void)by, (void)selection;
    claims_settle_kinds(day->bytes, day->length, DAY_NAMED, choice, MOST_ROWS, sheet, MOST_MARKS, scratch, CLAIMS_LONGEST_SCRATCH);
}

static void make_fits_and_rank(const struct sort *by, const struct file *day, const uint8_t *selection) {
    (void)by;
    for (unsigned side = 0; side < 2; side++) claims_fits_and_rank_kinds(day->bytes, day->length, selection, MOST_ROWS, side, DAY_NAMED);
}

/* They take one sort of file, in the week layout. */
const struct call calls[] = {
    {"claims_settle_kinds", make_settle, NULL},
    {"claims_fits_and_rank_kinds", make_fits_and_rank, NULL},
};

#else

static void make_settle(const struct sort *by, const struct file *day, const uint8_t *selection) {
    static uint8_t choice[MOST_ROWS];
    (void)selection;
    by->settle(day->bytes, day->length, DAY_NAMED, choice, MOST_ROWS, sheet, MOST_MARKS, scratch, CLAIMS_LONGEST_SCRATCH);
}

static void make_fits_and_rank(const struct sort *by, const struct file *day, const uint8_t *selection) {
    for (unsigned side = 0; side < 2; side++) by->fits_and_rank(day->bytes, day->length, selection, MOST_ROWS, side, DAY_NAMED);
}

static void make_spare_places(const struct sort *by, const struct file *day, const uint8_t *selection) {
    for (unsigned row = 0; row < MOST_ROWS; row++) by->spare_places(day->bytes, day->length, selection, MOST_ROWS, row, DAY_NAMED);
}

static void make_slip(const struct sort *by, const struct file *day, const uint8_t *selection) {
    static uint8_t slip[CLAIMS_LONGEST_SLIP];
    by->write_slip(day->bytes, day->length, selection, MOST_ROWS, DAY_NAMED, slip, CLAIMS_LONGEST_SLIP);
}

static void make_canonical(const struct sort *by, const struct file *day, const uint8_t *selection) {
    static uint8_t canonical[CLAIMS_LONGEST_CANONICAL];
    (void)selection;
    by->write_canonical(day->bytes, day->length, canonical, CLAIMS_LONGEST_CANONICAL);
}

static void make_codes(const struct sort *by, const struct file *day, const uint8_t *selection) {
    static uint8_t codes[CLAIMS_LONGEST_CODES];
    (void)selection;
    by->write_codes(day->bytes, day->length, DAY_NAMED, codes, CLAIMS_LONGEST_CODES, scratch, CLAIMS_LONGEST_SCRATCH);
}

/* With the selection as the choice, and the sheet that settle left for the day. */
static void make_accept(const struct sort *by, const struct file *day, const uint8_t *selection) {
    by->accept(day->bytes, day->length, selection, MOST_ROWS, sheet, MOST_MARKS, DAY_NAMED);
}

/*
 * The day as the last of the most files; those before it have no group and no row. Of the most shop groups the last one is left out, and
 * its rows name the one before it, since the oven is a shop group too.
 */
static void make_settle_joined(const struct sort *by, const struct file *day, const uint8_t *selection) {
    enum { BEFORE = CLAIMS_MOST_FILES - 1, SHORTEST = CLAIMS_FILE_LENGTH(0, 0), RECORD = 16, CLAIM = 5 };
    static uint8_t files[BEFORE * SHORTEST + MOST_FILE], choice[MOST_ROWS];
    static uint32_t lengths[CLAIMS_MOST_FILES];
    uint8_t *last = files + BEFORE * SHORTEST;
    size_t shops_at = 2 + RECORD * get16(day->bytes), shops = get16(day->bytes + shops_at), dropped = shops == MOST_GROUPS;
    size_t claims_at = shops_at + 2 + RECORD * (shops - dropped), from = claims_at + RECORD * dropped;
    (void)by, (void)selection;
    memcpy(last, day->bytes, claims_at);
    put16(last + shops_at, (unsigned)(shops - dropped));
    memcpy(last + claims_at, day->bytes + from, day->length - from);
    for (uint8_t *claim = last + claims_at + 2; claim < last + day->length - RECORD * dropped; claim += CLAIM)
        if (get16(claim + 2) == MOST_GROUPS - 1) put16(claim + 2, MOST_GROUPS - 2);
    for (unsigned k = 0; k < BEFORE; k++) lengths[k] = SHORTEST;
    lengths[BEFORE] = (uint32_t)(day->length - RECORD * dropped);
    claims_settle_joined(files, BEFORE * SHORTEST + lengths[BEFORE], lengths, CLAIMS_MOST_FILES, MOST_ROWS / 2, DAY_NAMED, choice, MOST_ROWS,
                         sheet, MOST_MARKS, scratch, CLAIMS_LONGEST_SCRATCH);
}

static void make_tally_begin(const struct sort *by, const struct file *day, const uint8_t *selection) {
    (void)selection;
    by->tally_begin(day->bytes, day->length, DAY_NAMED, &tally);
}

/* The tallies are begun before, away from the stack that is measured. Each row is put in, or taken out, and one that there is not. */
static void make_put_in(const struct sort *by, const struct file *day, const uint8_t *selection) {
    (void)by, (void)day, (void)selection;
    tally = empty_tally;
    for (unsigned row = 0; row <= MOST_ROWS; row++) claims_tally_put_in(&tally, row);
}

static void make_take_out(const struct sort *by, const struct file *day, const uint8_t *selection) {
    (void)by, (void)day, (void)selection;
    tally = full_tally;
    for (unsigned row = 0; row <= MOST_ROWS; row++) claims_tally_take_out(&tally, row);
}

static void make_count(const struct sort *by, const struct file *day, const uint8_t *selection) {
    (void)by, (void)day, (void)selection;
    for (unsigned side = 0; side < 3; side++)
        for (unsigned group = 0; group <= MOST_GROUPS; group++) claims_tally_count(&full_tally, side, group);
}

static void make_version(const struct sort *by, const struct file *day, const uint8_t *selection) {
    (void)by, (void)day, (void)selection;
    claims_version();
}

/* The lines of a call on a file, one for each sort. */
#define EACH_SORT(name, make)                               \
    {name, make, &sorts[NEW_WEEK]},                         \
    {name "_stored", make, &sorts[STORED_WEEK]},            \
    {name "_old", make, &sorts[NEW_OLD]},                   \
    {name "_old_stored", make, &sorts[STORED_OLD]}

const struct call calls[] = {
    EACH_SORT("claims_settle", make_settle),
    EACH_SORT("claims_fits_and_rank", make_fits_and_rank),
    EACH_SORT("claims_spare_places", make_spare_places),
    EACH_SORT("claims_write_slip", make_slip),
    EACH_SORT("claims_write_canonical", make_canonical),
    EACH_SORT("claims_write_codes", make_codes),
    EACH_SORT("claims_accept", make_accept),
    EACH_SORT("claims_tally_begin", make_tally_begin),
    {"claims_tally_put_in", make_put_in, NULL},
    {"claims_tally_take_out", make_take_out, NULL},
    {"claims_tally_count", make_count, NULL},
    {"claims_settle_joined", make_settle_joined, NULL},
    {"claims_version", make_version, NULL},
};

#endif

const unsigned call_count = sizeof calls / sizeof *calls;
