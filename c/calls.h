/*
 * All calls on a file, for tests: they are made one after another with the same selection and the same lengths, and what they answer and
 * leave stands in one struct. A file that is refused is refused by all of them, and by the call for several counters too, where the file is
 * of the sort that it takes. Nothing is changed, except that the beginning of a tally leaves one without rows or groups.
 */
#ifndef CALLS_H
#define CALLS_H

#include <string.h>
#include "sorts.h"

/* The selection that the calls are given. */
static uint8_t selection[MOST_ROWS];

/* What is lent to the calls to be changed. Before them every byte of it is FILL. */
struct lent {
    uint8_t choice[CLAIMS_LONGEST_CHOICE], slip[CLAIMS_LONGEST_SLIP], canonical[CLAIMS_LONGEST_CANONICAL], codes[CLAIMS_LONGEST_CODES];
    uint32_t sheet[CLAIMS_LONGEST_SHEET], scratch[CLAIMS_LONGEST_SCRATCH], codes_scratch[CLAIMS_LONGEST_SCRATCH];
};
enum { FILL = 0xa5 };

/* How much of each the calls are told of: as much as any file needs, or nothing. */
struct lengths {
    size_t selection, choice, slip, canonical, codes, sheet, scratch;
};
static const struct lengths longest = {
    .selection = CLAIMS_LONGEST_SELECTION,
    .choice = CLAIMS_LONGEST_CHOICE,
    .slip = CLAIMS_LONGEST_SLIP,
    .canonical = CLAIMS_LONGEST_CANONICAL,
    .codes = CLAIMS_LONGEST_CODES,
    .sheet = CLAIMS_LONGEST_SHEET,
    .scratch = CLAIMS_LONGEST_SCRATCH,
};
static const struct lengths nothing;

/* The two sides and one that does not exist. */
enum { SIDES = 3 };

/* What the calls answer and leave. */
struct told {
    struct claims_fits_and_rank_answer ranked[SIDES];
    struct claims_spare_places_answer spare;
    struct claims_settle_answer settled;
    struct claims_write_slip_answer slip;
    struct claims_write_canonical_answer canonical;
    struct claims_write_codes_answer codes;
    uint32_t accepted, begun;
    struct claims_tally tally; /* before the call every byte of it is FILL too */
    struct lent lent;
};

/*
 * Makes all calls of a sort on a file. They name the weekday, or what stands in its place. Accept is given what settle leaves, or nothing
 * but FILL where settle is refused.
 */
static inline void ask(const struct sort *by, const struct file *f, unsigned weekday, const struct lengths *n, unsigned row,
                       struct told *t) {
    struct lent *l = &t->lent;
    memset(l, FILL, sizeof *l);
    for (unsigned side = 0; side < SIDES; side++)
        t->ranked[side] = by->fits_and_rank(f->bytes, f->length, selection, n->selection, side, weekday);
    t->spare = by->spare_places(f->bytes, f->length, selection, n->selection, row, weekday);
    t->settled = by->settle(f->bytes, f->length, weekday, l->choice, n->choice, l->sheet, n->sheet, l->scratch, n->scratch);
    t->slip = by->write_slip(f->bytes, f->length, selection, n->selection, weekday, l->slip, n->slip);
    t->canonical = by->write_canonical(f->bytes, f->length, l->canonical, n->canonical);
    t->codes = by->write_codes(f->bytes, f->length, weekday, l->codes, n->codes, l->codes_scratch, n->scratch);
    t->accepted = by->accept(f->bytes, f->length, l->choice, n->choice, l->sheet, n->sheet, weekday);
    memset(&t->tally, FILL, sizeof t->tally);
    t->begun = by->tally_begin(f->bytes, f->length, weekday, &t->tally);
}

/* Whether the calls that name a day and are given lengths gave the number alone, and changed nothing. */
static inline int calls_gave(const struct told *t, unsigned number) {
    static struct lent before;
    memset(&before, FILL, sizeof before);
    memcpy(before.canonical, t->lent.canonical, sizeof before.canonical);
    for (unsigned side = 0; side < SIDES; side++)
        if (t->ranked[side].refusal != number || t->ranked[side].fits != 0 || t->ranked[side].rank != 0) return 0;
    return t->spare.refusal == number && t->spare.places == 0 && t->settled.refusal == number && t->settled.earned == 0 &&
           t->settled.kept == 0 && t->settled.total == 0 && t->slip.refusal == number && t->slip.length == 0 &&
           t->codes.refusal == number && t->codes.length == 0 && t->accepted == number && memcmp(&t->lent, &before, sizeof before) == 0;
}

/* Whether the canonical form, which names no day, did so. */
static inline int form_gave(const struct told *t, unsigned number) {
    for (size_t i = 0; i < sizeof t->lent.canonical; i++)
        if (t->lent.canonical[i] != FILL) return 0;
    return t->canonical.refusal == number && t->canonical.length == 0;
}

/* Whether the beginning of a tally, which is given no length, gave the number and left a tally without rows or groups. */
static inline int begin_gave(const struct told *t, unsigned number) {
    static const struct claims_tally empty;
    return t->begun == number && memcmp(&t->tally, &empty, sizeof empty) == 0;
}

/*
 * Whether the call for several counters gives the number alone, with the file's place, and changes nothing, where the file is the last of
 * so many. Those before it have no group and no row.
 */
static inline int joined_gave(const struct file *f, unsigned count, unsigned weekday, const struct lengths *n, unsigned number) {
    enum { SHORTEST = CLAIMS_FILE_LENGTH(0, 0) };
    static uint8_t files[(CLAIMS_MOST_FILES - 1) * SHORTEST + sizeof f->bytes];
    static struct lent l, before;
    uint32_t lengths[CLAIMS_MOST_FILES];
    unsigned last = count - 1;
    for (unsigned k = 0; k < last; k++) lengths[k] = SHORTEST;
    lengths[last] = (uint32_t)f->length;
    memset(files, 0, sizeof files);
    memcpy(files + last * SHORTEST, f->bytes, f->length);
    memset(&l, FILL, sizeof l);
    memset(&before, FILL, sizeof before);
    struct claims_settle_joined_answer r = claims_settle_joined(files, last * SHORTEST + f->length, lengths, count, 9, weekday, l.choice,
                                                                n->choice, l.sheet, n->sheet, l.scratch, n->scratch);
    return r.refusal == number && r.file == last && r.earned == 0 && r.kept == 0 && r.total == 0 && memcmp(&l, &before, sizeof l) == 0;
}

/* A day that the week does not have. */
static inline unsigned no_weekday(void) { return no_weekdays[below(NO_WEEKDAYS)]; }

static inline void refused_with(const char *what, const struct sort *by, const struct file *f, unsigned weekday, const struct lengths *n,
                                unsigned number) {
    static struct told t;
    ask(by, f, weekday, n, MOST_ROWS, &t);
    expect(calls_gave(&t, number) && form_gave(&t, number), "%s, %s, day %u: not refused with %u", by->name, what, weekday, number);
    expect(begin_gave(&t, number), "%s, %s, day %u: a tally is not refused with %u", by->name, what, weekday, number);
    if (by != &sorts[NEW_WEEK]) return;
    for (unsigned count = 1; count <= CLAIMS_MOST_FILES; count++)
        expect(joined_gave(f, count, weekday, n, number), "the last of %u files, %s, day %u: not refused with %u", count, what, weekday,
               number);
}

/* The file is judged first: it is refused by its own number with all that a call may need, with nothing, and on a day over 6. */
static inline void refused(const char *what, const struct sort *by, const struct file *f, unsigned number) {
    refused_with(what, by, f, below(WEEKDAYS), &longest, number);
    refused_with(what, by, f, below(WEEKDAYS), &nothing, number);
    refused_with(what, by, f, no_weekday(), below(2) ? &longest : &nothing, number);
}

#endif
