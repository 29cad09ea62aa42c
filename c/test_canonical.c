/*
 * Tests of the canonical form, for each sort of file: a sample and worked files; random weeks, whose limits differ by weekday in the week
 * layout, against a form that qsort makes from the lowered week's tables; the same week in other group numbers and with groups that no
 * claim needs; weeks that differ in one field. A week in the old layout has the form of the same week in the week layout. The written file
 * is a new one in the week layout, and settled it gives the same choice. Buffers are exact, one short and longer, and hold other bytes
 * before each call.
 */
#include <stdio.h>
#include <stdlib.h>
#include <string.h>
#include "sorts.h"

enum { PAST = 64, CELLS = MOST_FILE + PAST };

/* The sort whose turn it is. */
static const struct sort *by;

static uint8_t out[CELLS];

/* What a cell holds before a call, as far as they are filled: some cells more than are lent. It differs from call to call. */
static unsigned turn;
static size_t filled;
static uint8_t filler(size_t i) { return (uint8_t)((i + turn) * 2654435761u >> 13); }

static struct claims_write_canonical_answer write_in(const struct file *f, size_t cells) {
    turn++;
    filled = cells < MOST_FILE ? cells + PAST : CELLS;
    for (size_t i = 0; i < filled; i++) out[i] = filler(i);
    return by->write_canonical(f->bytes, f->length, out, cells);
}

/* How many cells are needed: as many as the week's file has in the week layout. */
static size_t cells_for(const struct week *w) {
    const struct day *d = &w->on[0];
    return CLAIMS_CANONICAL_LENGTH(d->groups[CARD] + d->groups[SHOP], d->rows);
}

/* The week's file, of the sort whose turn it is. */
static void write_file(const struct week *w, struct file *f) { write_week(w, by->layout, f); }

/* Whether the cells from a place on hold what they held before. */
static int untouched(size_t from) {
    for (size_t i = from; i < filled; i++)
        if (out[i] != filler(i)) return 0;
    return 1;
}

static void turned_away(const char *what, const struct file *f, size_t cells, unsigned number) {
    struct claims_write_canonical_answer r = write_in(f, cells);
    expect(r.refusal == number && r.length == 0 && untouched(0), "%s: %u, but must be %u", what, (unsigned)r.refusal, number);
}

/* A file written into a buffer of so many cells is just the form. */
static void written(const char *what, const struct file *f, size_t cells, const struct file *form) {
    struct claims_write_canonical_answer r = write_in(f, cells);
    expect(r.refusal == 0 && r.length == form->length, "%s: the answer", what);
    expect(memcmp(out, form->bytes, form->length) == 0, "%s: the bytes", what);
    expect(untouched(form->length), "%s: a byte past the form is changed", what);
}

/* ---- The form by a sort ---- */

/* Of the groups of a side: the lowest row that names it or a group beneath it, MOST_ROWS where none does, and how many are above it. */
static unsigned lowest[MOST_GROUPS], depth[MOST_GROUPS];

static int earlier(const void *x, const void *y) {
    unsigned a = *(const unsigned *)x, b = *(const unsigned *)y;
    if (lowest[a] != lowest[b]) return lowest[a] < lowest[b] ? -1 : 1;
    return depth[a] < depth[b] ? -1 : depth[a] > depth[b];
}

/* The groups of a side in the order that they have in the form. Answers how many there are, without those that are dropped. */
static unsigned sort_side(const struct day *d, unsigned side, unsigned *order) {
    unsigned used = 0;
    for (unsigned g = 0; g < d->groups[side]; g++) {
        lowest[g] = MOST_ROWS;
        depth[g] = d->parent[side][g] == TOP ? 0 : depth[d->parent[side][g]] + 1;
    }
    for (unsigned c = d->rows; c-- > 0;)
        for (unsigned g = d->group[side][c]; g != TOP; g = d->parent[side][g]) lowest[g] = c;
    for (unsigned g = 0; g < d->groups[side]; g++)
        if (lowest[g] < MOST_ROWS) order[used++] = g;
    qsort(order, used, sizeof *order, earlier);
    return used;
}

/* The side of a weekday in new numbers, of which number i is the group order[i]. */
static void renumber_side(const struct day *d, unsigned side, const unsigned *order, unsigned count, struct day *other) {
    unsigned number[MOST_GROUPS];
    for (unsigned i = 0; i < count; i++) number[order[i]] = i;
    other->groups[side] = count;
    for (unsigned i = 0; i < count; i++) {
        unsigned above = d->parent[side][order[i]];
        other->parent[side][i] = (uint16_t)(above == TOP ? TOP : number[above]);
        other->limit[side][i] = d->limit[side][order[i]];
    }
    for (unsigned c = 0; c < d->rows; c++) other->group[side][c] = (uint16_t)number[d->group[side][c]];
}

/* The canonical file of a week, with its limits lowered. */
static void make_form(const struct week *w, struct file *f) {
    static struct week low, form;
    unsigned order[MOST_GROUPS];
    form = low = lowered_week(w);
    for (unsigned side = 0; side < 2; side++) {
        unsigned used = sort_side(&low.on[0], side, order);
        for (unsigned k = 0; k < WEEKDAYS; k++) renumber_side(&low.on[k], side, order, used, &form.on[k]);
    }
    write_week(&form, WEEK, f);
}

/* ---- The same week in other numbers ---- */

/* Up to `more` groups of a side that no claim needs, after the others: under any earlier group or at the top, with any limits. */
static void add_unused(struct week *w, unsigned side, unsigned more) {
    for (; more > 0 && w->on[0].groups[side] < MOST_GROUPS; more--) {
        unsigned g = w->on[0].groups[side], parent = g == 0 || below(2) ? TOP : below(g), limit = below(TOP + 1);
        for (unsigned k = 0; k < WEEKDAYS; k++) {
            struct day *d = &w->on[k];
            d->groups[side]++;
            d->parent[side][g] = (uint16_t)parent;
            d->limit[side][g] = (uint16_t)(by->layout == WEEK ? below(TOP + 1) : limit);
        }
    }
}

/* The groups of a side in any order, parents before children. */
static void draw_order(const struct day *d, unsigned side, unsigned *order) {
    uint8_t done[MOST_GROUPS] = {0};
    for (unsigned count = 0; count < d->groups[side];) {
        unsigned g = below(d->groups[side]), above = d->parent[side][g];
        if (done[g] || (above != TOP && !done[above])) continue;
        done[g] = 1;
        order[count++] = g;
    }
}

/* A week as a file of the sort may hold it: as it is, or lowered where the file is a new one. */
static void to_sort(struct week *w) {
    if (by->stored == NEW) *w = lowered_week(w);
}

static void shuffle(const struct week *w, unsigned more, struct week *other) {
    static struct week wider;
    unsigned order[MOST_GROUPS];
    wider = *w;
    for (unsigned side = 0; side < 2; side++) add_unused(&wider, side, more);
    *other = wider;
    for (unsigned side = 0; side < 2; side++) {
        draw_order(&wider.on[0], side, order);
        for (unsigned k = 0; k < WEEKDAYS; k++) renumber_side(&wider.on[k], side, order, wider.on[0].groups[side], &other->on[k]);
    }
    to_sort(other);
}

/* ---- Weeks ---- */

/* A file settled by the calls of a sort, which leaves the choice there. */
static struct claims_settle_answer settled(const struct sort *sort, const struct file *f, unsigned weekday, uint8_t *choice) {
    static uint32_t sheet[CLAIMS_LONGEST_SHEET], scratch[CLAIMS_LONGEST_SCRATCH];
    memset(choice, 0, MOST_ROWS);
    return sort->settle(f->bytes, f->length, weekday, choice, MOST_ROWS, sheet, CLAIMS_LONGEST_SHEET, scratch, CLAIMS_LONGEST_SCRATCH);
}

/* The file settled, and its form as a new file: the same counts and the same choice on a weekday. */
static void settled_alike(const struct file *f, const struct file *form, unsigned weekday) {
    static uint8_t choice[2][MOST_ROWS];
    struct claims_settle_answer one = settled(by, f, weekday, choice[0]), other = settled(&sorts[NEW_WEEK], form, weekday, choice[1]);
    expect(one.refusal == 0 && other.refusal == 0, "both are settled");
    expect(one.earned == other.earned && one.kept == other.kept && one.total == other.total, "the same counts");
    expect(memcmp(choice[0], choice[1], MOST_ROWS) == 0, "the same choice");
}

/* A file written by the calls of another sort is the form. */
static void written_by(const struct sort *sort, const char *what, const struct file *f, const struct file *form) {
    const struct sort *was = by;
    by = sort;
    written(what, f, f->length, form);
    by = was;
}

static int same_file(const struct file *a, const struct file *b) {
    return a->length == b->length && memcmp(a->bytes, b->bytes, a->length) == 0;
}

/* What is changed of a week: a limit or the parent of a group that a row names, a row's kind, or the group that a row names. */
enum { LIMIT, KIND, PARENT, NAMED, CHANGES };

/* A weekday with one such change, of a row on a side, where `to` is the group to name. Some changes leave the day as it is. */
static void change(struct day *d, unsigned what, unsigned c, unsigned side, unsigned to) {
    unsigned g = d->group[side][c];
    switch (what) {
    case LIMIT: d->limit[side][g] ^= 1; break;
    case KIND: d->kind[c] ^= 1; break;
    case PARENT: d->parent[side][g] = (uint16_t)(d->parent[side][g] != TOP ? TOP : g == 0 ? TOP : g - 1); break;
    default: d->group[side][c] = (uint16_t)to;
    }
}

/* A week with one change, at any row and side. In the week layout a limit is changed on one weekday alone. */
static void change_week(struct week *w, unsigned what) {
    unsigned c = below(w->on[0].rows), side = below(2), to = below(w->on[0].groups[side]), only = below(WEEKDAYS);
    for (unsigned k = 0; k < WEEKDAYS; k++)
        if (what != LIMIT || by->layout == OLD || k == only) change(&w->on[k], what, c, side, to);
}

/*
 * Weeks with one field changed. Where a limit is above its parent's now, a new file is refused. Else the form is that of the changed week,
 * and the bytes are others, except where the lowered week is what it was. A row that names another group may still give the same form.
 */
static void changed(const struct week *w, const struct file *form) {
    static struct file f, other;
    static struct week e, low, low_e;
    low = lowered_week(w);
    for (unsigned what = 0; what < CHANGES; what++) {
        e = *w;
        change_week(&e, what);
        low_e = lowered_week(&e);
        write_file(&e, &f);
        if (by->stored == NEW && !is_new_week(&e)) {
            turned_away("a change that puts a limit above its parent's", &f, CELLS, CLAIMS_LIMIT_ABOVE);
            continue;
        }
        make_form(&e, &other);
        written("changed", &f, cells_for(&e), &other);
        if (memcmp(&low, &low_e, sizeof low) == 0)
            expect(same_file(form, &other), "change %u: nothing is changed, but other bytes", what);
        else if (what != NAMED)
            expect(!same_file(form, &other), "change %u: the same bytes", what);
    }
}

static void one_week(const struct week *w) {
    static struct file f, form, as_week;
    static struct week e;
    write_file(w, &f);
    make_form(w, &form);
    written("exact", &f, cells_for(w), &form);
    written("longer", &f, cells_for(w) + below(PAST), &form);
    turned_away("one short", &f, cells_for(w) - 1, CLAIMS_SHORT);
    if (f.length < cells_for(w)) turned_away("as long as the file of the old layout", &f, f.length, CLAIMS_SHORT);
    expect(form.length <= cells_for(w), "no longer than the file in the week layout");
    settled_alike(&f, &form, below(WEEKDAYS));
    write_week(w, WEEK, &as_week);
    written_by(&sorts[by->stored ? STORED_WEEK : NEW_WEEK], "the same week in the week layout", &as_week, &form);
    written_by(&sorts[NEW_WEEK], "the form of the form", &form, &form);
    written_by(&sorts[STORED_WEEK], "the form of the form, as a stored file", &form, &form);
    shuffle(w, below(20), &e);
    write_file(&e, &f);
    written("shuffled", &f, cells_for(&e), &form);
    if (w->on[0].rows > 0) changed(w, &form);
}

/* A week with a day's limits on one weekday; in the week layout the others have their own. */
static void one_day(const struct day *d) {
    static struct week w;
    w = by->layout == WEEK ? drawn_week(d, below(WEEKDAYS)) : every_day(d);
    to_sort(&w);
    one_week(&w);
}

static void random_weeks(const char *name, unsigned weeks, unsigned groups, unsigned rows) {
    for (unsigned i = 0; i < weeks; i++) {
        struct day d = random_day(groups, rows);
        one_day(&d);
    }
    part_done(name);
}

/* 256 groups in one chain on each side, named from its end, from its middle, and in any order. Lowered, all have the first one's limit. */
static void chains(void) {
    for (unsigned i = 0; i < 6; i++) {
        struct day d = chain_day(3);
        for (unsigned side = 0; side < 2; side++)
            for (unsigned g = 0; g < MOST_GROUPS; g++) d.limit[side][g] = (uint16_t)(3 + g);
        for (unsigned c = 0; c < d.rows; c++)
            for (unsigned side = 0; side < 2; side++)
                d.group[side][c] = (uint16_t)(i == 0 ? MOST_GROUPS - 1 : i == 1 ? MOST_GROUPS / 2 : below(MOST_GROUPS));
        one_day(&d);
    }
    part_done("chains");
}

/*
 * A limit is lowered on each weekday by itself. On weekday k the outer group has limit 3 + k and the inner one limit 6, so that in the form
 * of a stored file the inner one has 3, 4 and 5 on the first three weekdays and 6 on the others.
 */
static void lowered_by_day(void) {
    static struct file f, form;
    static struct week w, low;
    struct day d = flat_day(2, 6, 1, 9);
    d.parent[CARD][1] = 0;
    add_row(&d, 1, 0, 0);
    low = w = every_day(&d);
    for (unsigned k = 0; k < WEEKDAYS; k++) {
        w.on[k].limit[CARD][0] = low.on[k].limit[CARD][0] = (uint16_t)(3 + k);
        if (k < 3) low.on[k].limit[CARD][1] = (uint16_t)(3 + k);
    }
    write_week(&w, WEEK, &f);
    write_week(&low, WEEK, &form);
    if (by->stored)
        written("lowered on each weekday by itself", &f, f.length, &form);
    else
        turned_away("above on weekdays 0 to 2", &f, f.length, CLAIMS_LIMIT_ABOVE);
    written("lowered already", &form, form.length, &form);
}

static void read_sample(const char *name, struct file *f) {
    FILE *in = fopen(name, "rb");
    f->length = in == NULL ? 0 : fread(f->bytes, 1, sizeof f->bytes, in);
    expect(f->length > 0, "%s cannot be read", name);
    if (in != NULL) fclose(in);
}

/*
 * The form goes by what rows name, though an earned row does not count in the card group that it names. Card groups 0 (limit 7), 1 (limit
 * 5), 2 (limit 4, in 0) and 3 (limit 3, no claim); row 0 is earned and names 1, row 1 is earned and names 2, row 2 is ordinary and names 1.
 * No row counts in 2, but it is not dropped, since row 1 names it. Row 0 does not count in 1, but it makes 1 the first in the form; then
 * come 0 and 2, and 3 is dropped.
 */
static void by_naming(void) {
    static struct file f, form;
    struct day d = flat_day(4, 0, 1, 9), e = flat_day(3, 0, 1, 9);
    d.limit[CARD][0] = 7, d.limit[CARD][1] = 5, d.limit[CARD][2] = 4, d.limit[CARD][3] = 3, d.parent[CARD][2] = 0;
    e.limit[CARD][0] = 5, e.limit[CARD][1] = 7, e.limit[CARD][2] = 4, e.parent[CARD][2] = 1;
    add_row(&d, 1, 0, 1), add_row(&d, 2, 0, 1), add_row(&d, 1, 0, 0);
    add_row(&e, 0, 0, 1), add_row(&e, 2, 0, 1), add_row(&e, 0, 0, 0);
    write_day(&d, by->layout, &f);
    write_day(&e, WEEK, &form);
    written("card groups that earned rows name", &f, CELLS, &form);
    one_day(&d);
}

/*
 * The sample, in the layout of the sort: card groups 0 (limit 9, no claim), 1 (limit 7), 2 (limit 5, in 1) and 3 (limit 2); row 0 names 3,
 * row 1 names 2. In its form card group 3 is 0, and 1 and 2 keep their numbers, since group 0 is dropped.
 */
static void worked(void) {
    static struct file f, form;
    read_sample(by->layout == WEEK ? "samples/shelf.claims" : "samples/old/shelf.claims", &f);
    read_sample("samples/shelf_canonical.claims", &form);
    written("the sample", &f, CELLS, &form);
    struct day none = flat_day(3, 1, 2, 1), empty = {0};
    write_day(&none, by->layout, &f);
    write_day(&empty, WEEK, &form);
    written("no claim: every group is dropped", &f, CLAIMS_CANONICAL_LENGTH(5, 0), &form);
    one_day(&empty);
    by_naming();
    if (by->layout == WEEK) lowered_by_day();
    part_done("worked files");
}

int main(void) {
    for (by = sorts; by < sorts + SORTS; by++) {
        printf("%s\n", by->name);
        start_numbers(20270304);
        worked();
        random_weeks("random tiny weeks", 1000, 6, 8);
        random_weeks("random small weeks", 200, 20, 30);
        random_weeks("random large weeks", 20, MOST_GROUPS, MOST_ROWS);
        chains();
    }
    return all_done();
}
