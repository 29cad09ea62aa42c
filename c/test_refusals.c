/*
 * Refusals of files, and both sides of each boundary, for each sort of file. Two tables have a row a case: a file, and what every call
 * tells of it as a new file and as a stored one. A file that is refused is refused by its own number, whatever is lent and whichever day is
 * named, and nothing is changed. A file that is taken is answered by every call, as the plain ways of day.h answer, in memory of just the
 * needed lengths; in memory one cell shorter 8 is told.
 */
#include <stdio.h>
#include "calls.h"

enum { SMALL_ROWS = 12 };

/* ---- What is told of a file ---- */

/* A length that is shorter by `less`, where it is so long. */
static size_t shorter(size_t length, size_t less) { return length < less ? 0 : length - less; }

/* The lengths that the calls need for a day and the selection, each of them shorter by `less`. */
static struct lengths needed(const struct day *d, size_t less) {
    unsigned groups = d->groups[CARD] + d->groups[SHOP];
    return (struct lengths){
        .selection = shorter(CLAIMS_SELECTION_LENGTH(d->rows), less),
        .choice = shorter(CLAIMS_CHOICE_LENGTH(d->rows), less),
        .slip = shorter(CLAIMS_SLIP_LENGTH(count_rows(d, selection, 0)), less),
        .canonical = shorter(CLAIMS_CANONICAL_LENGTH(groups, d->rows), less),
        .codes = shorter(CLAIMS_CODES_LENGTH(d->rows), less),
        .sheet = shorter(CLAIMS_SHEET_LENGTH(groups, d->rows), less),
        .scratch = shorter(CLAIMS_SCRATCH_LENGTH(groups, d->rows), less),
    };
}

/* What settle answers and leaves is the closing of the day; of a small day it is the choice that the search finds. */
static int settled_well(const struct day *d, const struct told *t) {
    const uint8_t *kept = t->lent.choice;
    const struct claims_settle_answer *r = &t->settled;
    struct day low = lowered(d);
    uint8_t best[SMALL_ROWS];
    if (d->rows <= SMALL_ROWS) {
        search_all(d, FIRST_KINDS, best);
        if (memcmp(best, kept, d->rows) != 0) return 0;
    }
    return r->refusal == 0 && r->earned == count_rows(d, kept, 1) && r->kept == count_rows(d, kept, 0) && r->total == worth_of(d, kept) &&
           fits_day(d, kept) && certified(&low, FIRST_KINDS, kept, t->lent.sheet);
}

/* What all calls answer for a file that holds the day, where row 0 alone is not selected. */
static void answered_well(const char *what, const struct sort *by, const struct day *d, const struct told *t) {
    static struct day form;
    for (unsigned side = 0; side < 2; side++) {
        struct ranked must = rank_side(d, side, selection);
        const struct claims_fits_and_rank_answer *r = &t->ranked[side];
        expect(r->refusal == 0 && r->fits == must.fits && r->rank == must.rank, "%s, %s: fits and rank", by->name, what);
    }
    expect(t->ranked[2].refusal == CLAIMS_VALUE, "%s, %s: side 2", by->name, what);
    expect(t->spare.refusal == (d->rows > 0 ? 0 : CLAIMS_VALUE), "%s, %s: spare places", by->name, what);
    expect(settled_well(d, t), "%s, %s: settle", by->name, what);
    expect(t->slip.refusal == 0 && t->slip.length == CLAIMS_SLIP_LENGTH(count_rows(d, selection, 0)), "%s, %s: the slip", by->name, what);
    expect(t->canonical.refusal == 0 &&
               read_day(t->lent.canonical, t->canonical.length, form_of(&sorts[NEW_WEEK], 0), &form) == 0 && form.rows == d->rows,
           "%s, %s: the canonical form", by->name, what);
    expect(t->codes.refusal == 0 && t->codes.length == d->rows, "%s, %s: the codes", by->name, what);
    expect(t->accepted == 0, "%s, %s: accept", by->name, what);
    expect(t->begun == 0 && t->tally.cards == d->groups[CARD] && t->tally.shops == d->groups[SHOP] && t->tally.rows == d->rows,
           "%s, %s: the tally", by->name, what);
}

/* In memory one cell shorter 8 is told, by each call that needs any. */
static int told_short(const struct day *d, const struct told *t) {
    unsigned number = marks_of(d) > 0 ? CLAIMS_SHORT : 0;
    if (d->rows > 0) return calls_gave(t, CLAIMS_SHORT) && form_gave(t, CLAIMS_SHORT);
    return form_gave(t, CLAIMS_SHORT) && t->slip.refusal == CLAIMS_SHORT && t->settled.refusal == number && t->codes.refusal == number &&
           t->accepted == number;
}

/* A file that every call takes. What they answer and leave in memory of the needed lengths stands in t. */
static void taken(const char *what, const struct sort *by, const struct file *f, struct told *t) {
    static struct told less;
    struct day d = {0};
    unsigned weekday = below(WEEKDAYS);
    read_day(f->bytes, f->length, form_of(by, weekday), &d);
    for (unsigned c = 0; c < d.rows; c++) selection[c] = c > 0;
    struct lengths all = needed(&d, 0), one_less = needed(&d, 1);
    ask(by, f, weekday, &one_less, 0, &less);
    expect(told_short(&d, &less), "%s, %s: not refused with 8", by->name, what);
    ask(by, f, weekday, &all, 0, t);
    answered_well(what, by, &d, t);
}

/* The number that is told of a file, 0 where it is taken. The plain reader tells the same. */
static void told_of(const char *what, const struct sort *by, const struct file *f, unsigned number, struct told *t) {
    static struct day d;
    unsigned plain = read_day(f->bytes, f->length, form_of(by, 0), &d);
    expect(plain == number, "%s, %s: the plain reader tells %u, and the table has %u", by->name, what, plain, number);
    memset(selection, 2, sizeof selection);
    if (number != 0)
        refused(what, by, f, number);
    else
        taken(what, by, f, t);
}

/* ---- Files as bytes ---- */

/* L is the layout of a file: a limit stands in a record once in the old layout, and seven times in the week layout. */
#define ONCE(limit) limit
#define SEVEN(limit) limit limit limit limit limit limit limit
#define BYTES(text) (const uint8_t *)(text), sizeof(text) - 1

/* Days A and B of document 01, and day B's canonical form, in which shop groups 1 and 2 have changed places and the limit 5 is 2. */
#define ONES(L) "\xff\xff" L("\1\0")
#define DAY_A(L) "\2\0" ONES(L) ONES(L) "\2\0" ONES(L) ONES(L) "\3\0\0\0\0\0\1\0\0\1\0\0\1\0\0\0\0"
#define DAY_B(L)                                                                                                                           \
    "\3\0" ONES(L) ONES(L) ONES(L) "\3\0\xff\xff" L("\2\0") "\0\0" L("\5\0") "\0\0" L("\1\0") "\3\0\0\0\2\0\0\1\0\2\0\1\2\0\1\0\0"
#define FORM_B                                                                                                                             \
    "\3\0" ONES(SEVEN) ONES(SEVEN) ONES(SEVEN) "\3\0\xff\xff" SEVEN("\2\0") "\0\0" SEVEN("\1\0") "\0\0" SEVEN("\2\0")                      \
    "\3\0\0\0\1\0\0\1\0\1\0\1\2\0\2\0\0"
#define DAY_E "\0\0\0\0\0\0"

/* Card group 0 with limit 258, and in it group 1; the shop group has limit 0. Row 0 is earned and names group 1, row 1 names group 0. */
#define IN_258(L, limit) "\2\0\xff\xff" L("\2\1") "\0\0" L(limit) "\1\0\xff\xff" L("\0\0") "\2\0\1\0\0\0\1\0\0\0\0\0"

/* The records of group 0, with limit 2, and of group 1 in it, with limit 3. */
#define ABOVE(L) "\xff\xff" L("\2\0") "\0\0" L("\3\0")

struct bytes {
    const char *what;
    const uint8_t *at;
    size_t length;
    unsigned told[2]; /* of a new file, and of a stored one */
    const uint8_t *form;
    size_t form_length; /* of a file that is taken, its canonical form, which shows each record as it was read */
};

/*
 * The days, a day in the other layout (M), and limits of two bytes; document 01's example of each number; then files with a limit above its
 * parent's and a fault after it or on the same record.
 */
#define FILES(L, M)                                                                                                                        \
    {"day A", BYTES(DAY_A(L)), {0, 0}, BYTES(DAY_A(SEVEN))},                                                                               \
    {"day A in the other layout", BYTES(DAY_A(M)), {3, 3}, NULL, 0},                                                                       \
    {"day B", BYTES(DAY_B(L)), {11, 0}, BYTES(FORM_B)},                                                                                    \
    {"day E", BYTES(DAY_E), {0, 0}, BYTES(DAY_E)},                                                                                         \
    {"limit 65535 in 258", BYTES(IN_258(L, "\xff\xff")), {11, 0}, BYTES(IN_258(SEVEN, "\2\1"))},                                           \
    {"limit 259 in 258", BYTES(IN_258(L, "\3\1")), {11, 0}, BYTES(IN_258(SEVEN, "\2\1"))},                                                 \
    {"limit 258 in 258", BYTES(IN_258(L, "\2\1")), {0, 0}, BYTES(IN_258(SEVEN, "\2\1"))},                                                  \
    {"limit 255 in 258", BYTES(IN_258(L, "\xff\0")), {0, 0}, BYTES(IN_258(SEVEN, "\xff\0"))},                                              \
    {"cut off", BYTES("\0"), {1, 1}, NULL, 0},                                                                                             \
    {"group count", BYTES("\1\1"), {2, 2}, NULL, 0},                                                                                       \
    {"parent", BYTES("\1\0\0\0" L("\5\0")), {3, 3}, NULL, 0},                                                                              \
    {"claim count", BYTES("\0\0\0\0\1\2"), {4, 4}, NULL, 0},                                                                               \
    {"no such group", BYTES("\0\0\0\0\1\0\0\0\0\0\0"), {5, 5}, NULL, 0},                                                                   \
    {"kind", BYTES("\1\0" ONES(L) "\1\0" ONES(L) "\1\0\0\0\0\0\2"), {6, 6}, NULL, 0},                                                      \
    {"trailing", BYTES("\0\0\0\0\0\0\0"), {7, 7}, NULL, 0},                                                                                \
    {"limit above, then cut off", BYTES("\2\0" ABOVE(L)), {11, 1}, NULL, 0},                                                               \
    {"limit above, then group count", BYTES("\2\0" ABOVE(L) "\1\1"), {11, 2}, NULL, 0},                                                    \
    {"limit above, then parent", BYTES("\3\0" ABOVE(L) "\2\0" L("\1\0")), {11, 3}, NULL, 0},                                               \
    {"limit above, then claim count", BYTES("\0\0\2\0" ABOVE(L) "\1\2"), {11, 4}, NULL, 0},                                                \
    {"limit above, then no group", BYTES("\0\0\2\0" ABOVE(L) "\1\0\0\0\0\0\0"), {11, 5}, NULL, 0},                                         \
    {"limit above, then kind", BYTES("\1\0" ONES(L) "\2\0" ABOVE(L) "\1\0\0\0\0\0\2"), {11, 6}, NULL, 0},                                  \
    {"limit above, then trailing", BYTES("\2\0" ABOVE(L) "\0\0\0\0\0"), {11, 7}, NULL, 0},                                                 \
    {"parent and limit of one record", BYTES("\2\0\xff\xff" L("\2\0") "\1\0" L("\3\0")), {3, 3}, NULL, 0},                                 \
    {"parent, then limit above", BYTES("\3\0\xff\xff" L("\2\0") "\1\0" L("\1\0") "\0\0" L("\3\0")), {3, 3}, NULL, 0},                      \
    {"limit above, but its record is cut off", BYTES("\2\0\xff\xff" L("\2\0") "\0\0\3"), {1, 1}, NULL, 0}
enum { FILES_EACH = 25 };
static const struct bytes files[2][FILES_EACH] = {[OLD] = {FILES(ONCE, SEVEN)}, [WEEK] = {FILES(SEVEN, ONCE)}};

/* Of a file that is taken every beginning is cut off, and one byte more is too many. */
static void beginnings(const char *what, const struct sort *by, struct file f) {
    memset(selection, 2, sizeof selection);
    f.bytes[f.length++] = 0;
    refused(what, by, &f, CLAIMS_TRAILING);
    for (f.length--; f.length-- > 0;) refused(what, by, &f, CLAIMS_CUT_OFF);
}

static void files_as_bytes(const struct sort *by) {
    static struct file f;
    static struct told t;
    for (const struct bytes *b = files[by->layout]; b < files[by->layout] + FILES_EACH; b++) {
        unsigned number = b->told[by->stored];
        memcpy(f.bytes, b->at, f.length = b->length);
        told_of(b->what, by, &f, number, &t);
        if (number != 0) continue;
        expect(t.canonical.length == b->form_length && memcmp(t.lent.canonical, b->form, b->form_length) == 0, "%s, %s: the form's bytes",
               by->name, b->what);
        beginnings(b->what, by, f);
    }
    part_done("files as bytes");
}

/* ---- Files with changed numbers ---- */

/* The sections of a file: the two sides, and the claims. */
enum { CLAIMS = 2, SECTIONS };

/* A number of a file: the count of a section, or a field of a record of it. The kind is one byte, and a limit stands there for all days. */
enum field { AS_IS, COUNT, PARENT, LIMIT, NAMED_CARD, NAMED_SHOP, KIND };
struct change {
    enum field field;
    unsigned section, record, to;
};

/* Where the file ends: as it should, one byte later, or behind the first changed count or record, or one byte before that. */
enum end { WHOLE, MORE, BEHIND, INSIDE };

/* A file of so many card groups, shop groups and claims, or of 3, 3 and 2, with at most two changes. */
struct changed {
    const char *what;
    struct change change[2];
    enum end end;
    unsigned count[SECTIONS];
    unsigned told[2]; /* of a new file, and of a stored one */
};

static const struct changed changed[] = {
    /* counts on both sides of each bound, and the longest file */
    {"256 card groups", .count = {256, 0, 0}},
    {"257 card groups", .count = {257, 0, 0}, .told = {2, 2}},
    {"65535 card groups", {{COUNT, CARD, 0, TOP}}, .told = {2, 2}},
    {"256 shop groups", .count = {0, 256, 0}},
    {"257 shop groups", .count = {0, 257, 0}, .told = {2, 2}},
    {"65535 shop groups", {{COUNT, SHOP, 0, TOP}}, .told = {2, 2}},
    {"512 claims", .count = {1, 1, 512}},
    {"513 claims", .count = {1, 1, 513}, .told = {4, 4}},
    {"65535 claims", {{COUNT, CLAIMS, 0, TOP}}, .told = {4, 4}},
    {"the longest file", .count = {256, 256, 512}},
    {"the longest file, a byte more", .count = {256, 256, 512}, .end = MORE, .told = {7, 7}},
    /* the parent of the last group of a section: below, equal to and above its own number, and at the top; of the first there is none */
    {"card group 2, parent 1", {{PARENT, CARD, 2, 1}}, .told = {0, 0}},
    {"card group 2, parent 2", {{PARENT, CARD, 2, 2}}, .told = {3, 3}},
    {"card group 2, parent 3", {{PARENT, CARD, 2, 3}}, .told = {3, 3}},
    {"card group 2, parent 65534", {{PARENT, CARD, 2, TOP - 1}}, .told = {3, 3}},
    {"card group 2, parent 65535", {{PARENT, CARD, 2, TOP}}, .told = {0, 0}},
    {"card group 0, parent 0", {{PARENT, CARD, 0, 0}}, .told = {3, 3}},
    {"shop group 2, parent 1", {{PARENT, SHOP, 2, 1}}, .told = {0, 0}},
    {"shop group 2, parent 2", {{PARENT, SHOP, 2, 2}}, .told = {3, 3}},
    {"shop group 2, parent 3", {{PARENT, SHOP, 2, 3}}, .told = {3, 3}},
    {"shop group 2, parent 65534", {{PARENT, SHOP, 2, TOP - 1}}, .told = {3, 3}},
    {"shop group 2, parent 65535", {{PARENT, SHOP, 2, TOP}}, .told = {0, 0}},
    {"shop group 0, parent 0", {{PARENT, SHOP, 0, 0}}, .told = {3, 3}},
    /* the fields of a claim on both sides of each bound */
    {"claim of card group 2", {{NAMED_CARD, CLAIMS, 0, 2}}, .told = {0, 0}},
    {"claim of card group 3", {{NAMED_CARD, CLAIMS, 0, 3}}, .told = {5, 5}},
    {"claim of card group 65535", {{NAMED_CARD, CLAIMS, 0, TOP}}, .told = {5, 5}},
    {"claim of shop group 2", {{NAMED_SHOP, CLAIMS, 0, 2}}, .told = {0, 0}},
    {"claim of shop group 3", {{NAMED_SHOP, CLAIMS, 0, 3}}, .told = {5, 5}},
    {"claim of shop group 65535", {{NAMED_SHOP, CLAIMS, 0, TOP}}, .told = {5, 5}},
    {"claim of kind 0", {{KIND, CLAIMS, 0, 0}}, .told = {0, 0}},
    {"claim of kind 1", {{KIND, CLAIMS, 0, 1}}, .told = {0, 0}},
    {"claim of kind 2", {{KIND, CLAIMS, 0, 2}}, .told = {6, 6}},
    {"claim of kind 255", {{KIND, CLAIMS, 0, 255}}, .told = {6, 6}},
    /* a fault in a count or record that is cut off, and in one that the file ends behind */
    {"card parent, cut in its record", {{PARENT, CARD, 2, 2}}, .end = INSIDE, .told = {1, 1}},
    {"card parent, cut behind it", {{PARENT, CARD, 2, 2}}, .end = BEHIND, .told = {3, 3}},
    {"card parent, then a record is missing", {{PARENT, CARD, 1, 1}}, .end = BEHIND, .told = {3, 3}},
    {"shop parent, then a record is missing", {{PARENT, SHOP, 1, 1}}, .end = BEHIND, .told = {3, 3}},
    {"card count, cut in it", {{COUNT, CARD, 0, 257}}, .end = INSIDE, .told = {1, 1}},
    {"card count, cut behind it", {{COUNT, CARD, 0, 257}}, .end = BEHIND, .told = {2, 2}},
    {"shop count, cut in it", {{COUNT, SHOP, 0, 257}}, .end = INSIDE, .told = {1, 1}},
    {"shop count, cut behind it", {{COUNT, SHOP, 0, 257}}, .end = BEHIND, .told = {2, 2}},
    {"claim count, cut in it", {{COUNT, CLAIMS, 0, 513}}, .end = INSIDE, .told = {1, 1}},
    {"claim count, cut behind it", {{COUNT, CLAIMS, 0, 513}}, .end = BEHIND, .told = {4, 4}},
    {"card group, cut in its claim", {{NAMED_CARD, CLAIMS, 0, 3}}, .end = INSIDE, .told = {1, 1}},
    {"card group, cut behind it", {{NAMED_CARD, CLAIMS, 0, 3}}, .end = BEHIND, .told = {5, 5}},
    {"kind, cut behind it", {{KIND, CLAIMS, 0, 2}}, .end = BEHIND, .told = {6, 6}},
    /* two faults: the first one met is told */
    {"card parent, shop count", {{PARENT, CARD, 2, 2}, {COUNT, SHOP, 0, 257}}, .told = {3, 3}},
    {"shop count, claim count", {{COUNT, SHOP, 0, 257}, {COUNT, CLAIMS, 0, 513}}, .told = {2, 2}},
    {"shop parent, claim count", {{PARENT, SHOP, 2, 2}, {COUNT, CLAIMS, 0, 513}}, .told = {3, 3}},
    {"claim count, card group", {{COUNT, CLAIMS, 0, 513}, {NAMED_CARD, CLAIMS, 0, 3}}, .told = {4, 4}},
    {"card group, kind", {{NAMED_CARD, CLAIMS, 0, 3}, {KIND, CLAIMS, 0, 2}}, .told = {5, 5}},
    {"shop group, kind", {{NAMED_SHOP, CLAIMS, 0, 3}, {KIND, CLAIMS, 0, 2}}, .told = {5, 5}},
    {"kind, next card group", {{KIND, CLAIMS, 0, 2}, {NAMED_CARD, CLAIMS, 1, 3}}, .told = {6, 6}},
    /* bytes after the last claim are told last */
    {"kind, a byte more", {{KIND, CLAIMS, 1, 2}}, .end = MORE, .told = {6, 6}},
    {"card group, a byte more", {{NAMED_CARD, CLAIMS, 0, 3}}, .end = MORE, .told = {5, 5}},
    {"no fault, a byte more", .end = MORE, .told = {7, 7}},
    /* limits on both sides of the parent's, which is 1 */
    {"card group 1, limit 1 in 1", {{PARENT, CARD, 1, 0}}, .told = {0, 0}},
    {"card group 1, limit 2 in 1", {{PARENT, CARD, 1, 0}, {LIMIT, CARD, 1, 2}}, .told = {11, 0}},
    {"card group 2, limit 2 in 1", {{PARENT, CARD, 2, 1}, {LIMIT, CARD, 2, 2}}, .told = {11, 0}},
    {"card group 2, limit 65535 in 1", {{PARENT, CARD, 2, 0}, {LIMIT, CARD, 2, TOP}}, .told = {11, 0}},
    {"card group 2, limit 65535 at the top", {{LIMIT, CARD, 2, TOP}}, .told = {0, 0}},
    {"shop group 1, limit 0 in 1", {{PARENT, SHOP, 1, 0}, {LIMIT, SHOP, 1, 0}}, .told = {0, 0}},
    {"shop group 1, limit 256 in 1", {{PARENT, SHOP, 1, 0}, {LIMIT, SHOP, 1, 256}}, .told = {11, 0}},
    {"shop group 2, limit 2 in 1", {{PARENT, SHOP, 2, 1}, {LIMIT, SHOP, 2, 2}}, .told = {11, 0}},
    {"card group 1, its own parent, limit 2", {{PARENT, CARD, 1, 1}, {LIMIT, CARD, 1, 2}}, .told = {3, 3}},
    {"limit 2 in 1, cut in its record", {{PARENT, CARD, 1, 0}, {LIMIT, CARD, 1, 2}}, .end = INSIDE, .told = {1, 1}},
    {"limit 2 in 1, cut behind it", {{PARENT, CARD, 1, 0}, {LIMIT, CARD, 1, 2}}, .end = BEHIND, .told = {11, 1}},
    {"limit 2 in 1, a byte more", {{PARENT, CARD, 1, 0}, {LIMIT, CARD, 1, 2}}, .end = MORE, .told = {11, 7}},
};

/* How many limits a group record has, and how many bytes a record of a section has. */
static unsigned limits_in(unsigned layout) { return layout == WEEK ? WEEKDAYS : 1; }
static unsigned width_of(unsigned layout, unsigned section) { return section == CLAIMS ? 5 : 2 + 2 * limits_in(layout); }

/* Where the count of a section stands, and where a record does. */
static size_t section_at(const unsigned *count, unsigned layout, unsigned section) {
    size_t at = 0;
    for (unsigned s = 0; s < section; s++) at += 2 + width_of(layout, s) * count[s];
    return at;
}
static size_t record_at(const unsigned *count, unsigned layout, unsigned section, unsigned record) {
    return section_at(count, layout, section) + 2 + width_of(layout, section) * record;
}

/* A file of so many records, whose counts may be over the bounds: groups at the top with limit 1, and ordinary claims of groups 0. */
static void write_records(const unsigned *count, unsigned layout, struct file *f) {
    uint8_t *at = f->bytes;
    for (unsigned section = 0; section < SECTIONS; section++) {
        at = put16(at, count[section]);
        for (unsigned i = 0; i < count[section] * width_of(layout, section); i++) {
            unsigned in = i % width_of(layout, section);
            *at++ = section == CLAIMS ? 0 : in < 2 ? 0xff : in % 2 == 0;
        }
    }
    f->length = (size_t)(at - f->bytes);
}

static void make_change(const unsigned *count, unsigned layout, const struct change *c, struct file *f) {
    uint8_t *record = f->bytes + record_at(count, layout, c->section, c->record);
    switch (c->field) {
    case AS_IS: break;
    case COUNT: put16(f->bytes + section_at(count, layout, c->section), c->to); break;
    case LIMIT:
        for (unsigned k = 1; k <= limits_in(layout); k++) put16(record + 2 * k, c->to);
        break;
    case KIND: record[4] = (uint8_t)c->to; break;
    default: put16(record + (c->field == NAMED_SHOP ? 2 : 0), c->to);
    }
}

/* Where the first changed count or record ends. */
static size_t behind_change(const unsigned *count, unsigned layout, const struct change *c) {
    return c->field == COUNT ? section_at(count, layout, c->section) + 2 : record_at(count, layout, c->section, c->record + 1);
}

static void changed_files(const struct sort *by) {
    static const unsigned few[SECTIONS] = {3, 3, 2};
    static struct file f;
    static struct told t;
    for (const struct changed *row = changed; row < changed + sizeof changed / sizeof *changed; row++) {
        const unsigned *count = row->count[CARD] + row->count[SHOP] > 0 ? row->count : few;
        write_records(count, by->layout, &f);
        for (unsigned k = 0; k < 2; k++) make_change(count, by->layout, &row->change[k], &f);
        if (row->end == MORE) f.bytes[f.length++] = 0;
        if (row->end == BEHIND || row->end == INSIDE)
            f.length = behind_change(count, by->layout, &row->change[0]) - (row->end == INSIDE);
        told_of(row->what, by, &f, row->told[by->stored], &t);
    }
    part_done("files with changed numbers");
}

int main(void) {
    start_numbers(20270312);
    for (const struct sort *by = sorts; by < sorts + SORTS; by++) {
        printf("%s\n", by->name);
        files_as_bytes(by);
        changed_files(by);
    }
    return all_done();
}
