/*
 * Tests of the sorts of file, with all calls on a file. A limit above its parent's, on any weekday, is refused in a new file, with 11, and
 * lowered in a stored one: what the calls answer and leave for a stored file, they answer and leave for the same week lowered, in a stored
 * file and in a new one. What they answer and leave for a file in the old layout, they answer and leave for the same week in the week
 * layout. And files that are broken at random are refused as the plain reader refuses them. Other faults are in test_refusals.c.
 */
#include <stdio.h>
#include <string.h>
#include "calls.h"

/* A week that is refused, by this number, in a new file of a layout. */
static void refused_new(const char *what, const struct week *w, unsigned layout, unsigned number) {
    static struct file f;
    write_week(w, layout, &f);
    refused(what, &sorts[layout == WEEK ? NEW_WEEK : NEW_OLD], &f, number);
}

/* ---- A week, and the same week lowered and in the other layout ---- */

/* The same answers, and the same left in what is lent, the marks too: they are those of the lowered limits and show the choice by these. */
static void same_told(const char *what, const struct day *low, const struct told *a, const struct told *b) {
    const struct lent *l = &a->lent, *m = &b->lent;
    for (unsigned side = 0; side < SIDES; side++) {
        const struct claims_fits_and_rank_answer *x = &a->ranked[side], *y = &b->ranked[side];
        unsigned refusal = side < 2 ? 0 : CLAIMS_VALUE;
        expect(x->refusal == refusal && y->refusal == refusal && x->fits == y->fits && x->rank == y->rank, "%s: fits and rank", what);
    }
    expect(a->spare.refusal == b->spare.refusal && a->spare.places == b->spare.places, "%s: spare places", what);
    expect(a->settled.refusal == 0 && b->settled.refusal == 0 && a->settled.earned == b->settled.earned &&
               a->settled.kept == b->settled.kept && a->settled.total == b->settled.total,
           "%s: settle", what);
    expect(memcmp(l->choice, m->choice, sizeof l->choice) == 0, "%s: the choice", what);
    expect(memcmp(l->scratch, m->scratch, sizeof l->scratch) == 0, "%s: the scratch", what);
    expect(memcmp(l->sheet, m->sheet, sizeof l->sheet) == 0, "%s: the sheet", what);
    expect(certified(low, 2, l->choice, l->sheet) && certified(low, 2, m->choice, m->sheet), "%s: the marks", what);
    expect(a->slip.refusal == 0 && b->slip.refusal == 0 && a->slip.length == b->slip.length, "%s: the slip", what);
    expect(memcmp(l->slip, m->slip, sizeof l->slip) == 0, "%s: the slip's text", what);
    expect(a->canonical.refusal == 0 && b->canonical.refusal == 0 && a->canonical.length == b->canonical.length, "%s: the form", what);
    expect(memcmp(l->canonical, m->canonical, sizeof l->canonical) == 0, "%s: the form's bytes", what);
    expect(a->codes.refusal == 0 && b->codes.refusal == 0 && a->codes.length == b->codes.length, "%s: the codes' number", what);
    expect(memcmp(l->codes, m->codes, sizeof l->codes) == 0, "%s: the codes", what);
    expect(memcmp(l->codes_scratch, m->codes_scratch, sizeof l->codes_scratch) == 0, "%s: the codes' scratch", what);
    expect(a->accepted == 0 && b->accepted == 0, "%s: accept", what);
    expect(a->begun == 0 && b->begun == 0 && memcmp(&a->tally, &b->tally, sizeof a->tally) == 0, "%s: the tally", what);
}

/* All calls of the sort that has this layout and is new or stored, on a week. */
static void ask_week(const struct week *w, unsigned layout, unsigned stored, unsigned weekday, unsigned row, struct told *t) {
    static struct file f;
    write_week(w, layout, &f);
    ask(&sorts[layout == WEEK ? stored ? STORED_WEEK : NEW_WEEK : stored ? STORED_OLD : NEW_OLD], &f, weekday, &longest, row, t);
}

/*
 * The same is told, on a weekday, of a week in a stored file of a layout, of the week lowered in a stored file and in a new one of that
 * layout, and of the week lowered in a new file of the week layout. Where a limit is above its parent's, on any weekday, a new file that
 * holds the week is refused. In the old layout the week has the same limits on all weekdays.
 */
static void alike_in(const struct week *w, unsigned layout, unsigned weekday) {
    static struct week low;
    static struct told told, low_new;
    const struct day *d = &w->on[weekday];
    unsigned row = d->rows > 0 ? below(d->rows) : 0;
    for (unsigned c = 0; c < d->rows; c++) selection[c] = below(4) == 0;
    low = lowered_week(w);
    ask_week(&low, WEEK, NEW, weekday, row, &low_new);
    ask_week(w, layout, STORED, weekday, row, &told);
    same_told("as stored, and lowered in a new file", &low.on[weekday], &told, &low_new);
    ask_week(&low, layout, STORED, weekday, row, &told);
    same_told("lowered, in a stored file and in a new one", &low.on[weekday], &told, &low_new);
    if (layout == OLD) {
        ask_week(&low, OLD, NEW, weekday, row, &told);
        same_told("lowered, in new files of both layouts", &low.on[weekday], &told, &low_new);
    }
    if (!is_new_week(w)) refused_new("a limit above its parent's", w, layout, CLAIMS_LIMIT_ABOVE);
}

/* The limits differ by weekday. */
static void week_alike(const struct week *w) { alike_in(w, WEEK, below(WEEKDAYS)); }

/* The limits are the same on all weekdays, so that the old layout has the week too. */
static void day_alike(const struct day *d) {
    static struct week w;
    w = every_day(d);
    alike_in(&w, WEEK, below(WEEKDAYS));
    alike_in(&w, OLD, below(WEEKDAYS));
}

/* Days with the same limits on all weekdays, and weeks whose limits differ, of which every other one is as a new file may hold it. */
static void random_days(const char *name, unsigned days, unsigned groups, unsigned rows) {
    static struct week w;
    unsigned high = 0;
    for (unsigned i = 0; i < days; i++) {
        struct day d = random_day(groups, rows);
        high += !is_new(&d);
        day_alike(&d);
        w = drawn_week(&d, below(WEEKDAYS));
        if (below(2)) w = lowered_week(&w);
        week_alike(&w);
    }
    expect(high > days / 2, "%s: in %u of %u a limit is above its parent's", name, high, days);
    part_done(name);
}

/* The limits of a chain: falling, rising, all high but one, and in waves. Rising ones are lowered to the first, through all levels. */
static unsigned chain_limit(unsigned shape, unsigned g) {
    switch (shape) {
    case 0: return MOST_GROUPS - g;
    case 1: return 3 + g;
    case 2: return g == MOST_GROUPS / 2 ? 20 : TOP;
    default: return 100 - g / 8 + g % 16;
    }
}

/* A week whose limits fall on one weekday, rise on the next, and so on. */
static void week_of_chains(void) {
    static struct week w;
    struct day d = chain_day(0);
    w = every_day(&d);
    for (unsigned k = 0; k < WEEKDAYS; k++)
        for (unsigned side = 0; side < 2; side++)
            for (unsigned g = 0; g < MOST_GROUPS; g++) w.on[k].limit[side][g] = (uint16_t)chain_limit(k % 4, g);
    for (unsigned weekday = 0; weekday < WEEKDAYS; weekday++) alike_in(&w, WEEK, weekday);
}

static void chains(void) {
    for (unsigned shape = 0; shape < 4; shape++)
        for (unsigned spread = 0; spread < 2; spread++) {
            struct day d = chain_day(0);
            for (unsigned side = 0; side < 2; side++) {
                for (unsigned g = 0; g < MOST_GROUPS; g++) d.limit[side][g] = (uint16_t)chain_limit(shape, g);
                for (unsigned c = 0; spread && c < d.rows; c++) d.group[side][c] = (uint16_t)below(MOST_GROUPS);
            }
            expect(is_new(&d) == (shape == 0), "only the falling limits are a new file's");
            day_alike(&d);
        }
    week_of_chains();
    part_done("chains");
}

/* What settle must tell of a day in a stored file of either layout: the numbers, the choice, and marks that show it. */
static void settled_stored(const char *what, const struct day *d, unsigned earned, unsigned kept, unsigned total, const char *choice,
                           const uint32_t *marks) {
    static struct week w;
    static struct told t;
    struct day low = lowered(d);
    w = every_day(d);
    for (unsigned layout = OLD; layout <= WEEK; layout++) {
        ask_week(&w, layout, STORED, below(WEEKDAYS), 0, &t);
        expect(t.settled.refusal == 0 && t.settled.earned == earned && t.settled.kept == kept && t.settled.total == total,
               "%s, stored: the numbers", what);
        expect(memcmp(t.lent.choice, choice, d->rows) == 0, "%s, stored: the choice", what);
        expect(certified(&low, 2, t.lent.choice, t.lent.sheet) && certified(&low, 2, t.lent.choice, marks), "%s, stored: the marks", what);
        refused_new(what, &w, layout, CLAIMS_LIMIT_ABOVE);
    }
    day_alike(d);
}

/*
 * Day B of document 01, as a stored file: shop group 1 has limit 5 in a group of limit 2. Its marks there are one good sheet of several;
 * both that one and the one that settle leaves show the choice.
 */
static void day_b(void) {
    static const uint32_t marks[] = {0, 0, 0, 1, 0, 3, 0, 0, 0};
    struct day b = flat_day(3, 1, 3, 1);
    b.limit[SHOP][0] = 2, b.limit[SHOP][1] = 5, b.parent[SHOP][1] = b.parent[SHOP][2] = 0;
    add_row(&b, 0, 2, 0), add_row(&b, 1, 2, 1), add_row(&b, 2, 1, 0);
    struct day low = lowered(&b);
    expect(low.limit[SHOP][1] == 2, "s1 is lowered to 2");
    settled_stored("day B", &b, 1, 2, 5, "\0\1\1", marks);
    part_done("day B");
}

/*
 * Three card groups, each in the one before, with limits 1, 5 and 5; two earned rows and an ordinary one name the last. The earned rows
 * count from the second group up, whose limit is lowered to 1, so that one of them is kept. A mark of 4 there shows it by the lowered
 * limit; by the limit as it stands it comes to too much.
 */
static void earned_lowered(void) {
    static const uint32_t marks[] = {0, 4, 0, 0, 0, 0, 0};
    struct day d = flat_day(3, 5, 1, 9);
    hang_chains(&d, CARD, 1);
    d.limit[CARD][0] = 1;
    add_row(&d, 2, 0, 1), add_row(&d, 2, 0, 1), add_row(&d, 2, 0, 0);
    expect(!certified(&d, 2, (const uint8_t *)"\1\0\0", marks), "earned rows: the marks by the limits as they stand");
    settled_stored("earned rows", &d, 1, 1, 4, "\1\0\0", marks);
    part_done("earned rows under lowered limits");
}

/* ---- Faults ---- */

/* Where the record of a group ends in the file of a day. */
static size_t behind_record(const struct day *d, unsigned layout, unsigned side, unsigned g) {
    size_t width = layout == WEEK ? 16 : 4;
    return 2 + side * (width * d->groups[CARD] + 2) + width * (g + 1);
}

/* A week with a limit above its parent's: the file is cut behind the group's record, and in it; then the group is its own parent too. */
static void cut_above(struct week *w, unsigned layout, unsigned side, unsigned g) {
    static struct file f;
    for (const struct sort *by = sorts; by < sorts + SORTS; by++) {
        if (by->layout != layout) continue;
        write_week(w, layout, &f);
        f.length = behind_record(&w->on[0], layout, side, g);
        refused("cut behind the record", by, &f, by->stored ? CLAIMS_CUT_OFF : CLAIMS_LIMIT_ABOVE);
        f.length--;
        refused("cut in the record", by, &f, CLAIMS_CUT_OFF);
    }
    for (unsigned k = 0; k < WEEKDAYS; k++) w->on[k].parent[side][g] = (uint16_t)g;
    for (const struct sort *by = sorts; by < sorts + SORTS; by++) {
        write_week(w, layout, &f);
        if (by->layout == layout) refused("its own parent, and the limit above", by, &f, CLAIMS_PARENT);
    }
}

/*
 * One limit of a day whose limits are all equal: as it is; one above its parent's on all weekdays, in both layouts; and so on one weekday
 * alone. The named day is any.
 */
static void one_above(struct day d, unsigned side, unsigned g) {
    static struct week w;
    if (d.parent[side][g] == TOP) d.parent[side][g] = 0;
    expect(is_new(&d), "equal limits are a new file's");
    day_alike(&d);
    w = every_day(&d);
    w.on[below(WEEKDAYS)].limit[side][g]++;
    expect(!is_new_week(&w), "a limit above its parent's on one weekday is not");
    week_alike(&w);
    cut_above(&w, WEEK, side, g);
    d.limit[side][g]++;
    expect(!is_new(&d), "a limit above its parent's is not");
    day_alike(&d);
    w = every_day(&d);
    cut_above(&w, OLD, side, g);
}

/* Above on each weekday alone, and each day named, also ones that the week does not have: 11 is told of the new file. */
static void above_on_one_day(void) {
    static struct file f;
    static struct week w;
    for (unsigned side = 0; side < 2; side++)
        for (unsigned only = 0; only < WEEKDAYS; only++) {
            struct day d = flat_day(2, 3, 2, 3);
            d.parent[side][1] = 0;
            add_row(&d, 1, 1, 0);
            w = every_day(&d);
            w.on[only].limit[side][1] = 4;
            write_week(&w, WEEK, &f);
            for (unsigned weekday = 0; weekday <= WEEKDAYS; weekday++)
                refused_with("above on one weekday", &sorts[NEW_WEEK], &f, weekday, &longest, CLAIMS_LIMIT_ABOVE);
            for (unsigned weekday = 0; weekday < WEEKDAYS; weekday++) alike_in(&w, WEEK, weekday);
        }
    part_done("above on one weekday");
}

/* The first group with a parent, the middle one and the last one of each section: in a chain, all under one group, and in a forest. */
static void each_above(unsigned count, unsigned limit, unsigned shape) {
    struct day d = flat_day(count, limit, count, limit);
    for (unsigned side = 0; side < 2; side++) {
        if (shape == 0) hang_chains(&d, side, 1);
        for (unsigned g = 1; shape == 1 && g < count; g++) d.parent[side][g] = 0;
        if (shape == 2) hang_forest(&d, side, 0, 4);
    }
    draw_rows(&d, 12, 2);
    for (unsigned side = 0; side < 2; side++) {
        one_above(d, side, 1);
        one_above(d, side, count / 2);
        one_above(d, side, count - 1);
    }
}

/* A limit one above another differs in its low byte, in both bytes, or is the largest there is. */
static void limits_above(void) {
    static const unsigned counts[] = {2, 3, MOST_GROUPS}, limits[] = {0, 5, UINT8_MAX, TOP - 1};
    for (unsigned i = 0; i < sizeof counts / sizeof *counts; i++)
        for (unsigned j = 0; j < sizeof limits / sizeof *limits; j++)
            for (unsigned shape = 0; shape < 3; shape++) each_above(counts[i], limits[j], shape);
    part_done("one limit above its parent's");
}

/* The week of a file that is accepted: each weekday read by itself. */
static void read_week(const struct sort *by, const struct file *f, struct week *w) {
    unsigned faults = 0;
    memset(w, 0, sizeof *w);
    for (unsigned k = 0; k < WEEKDAYS; k++) faults += read_day(f->bytes, f->length, form_of(by, k), &w->on[k]) != 0;
    expect(faults == 0, "a week is not read");
}

/* An old-layout file, sound or broken, in the week layout: the limit of each whole record seven times, and all else as it stands. */
static void widen(const struct file *old, struct file *week) {
    size_t from = 0;
    week->length = 0;
    for (unsigned side = 0; side < 2 && from + 2 <= old->length; side++) {
        unsigned count = get16(old->bytes + from);
        memcpy(week->bytes + week->length, old->bytes + from, 2);
        from += 2, week->length += 2;
        for (unsigned g = 0; g < count && from + 4 <= old->length; g++, from += 4) {
            memcpy(week->bytes + week->length, old->bytes + from, 2);
            week->length += 2;
            for (unsigned k = 0; k < WEEKDAYS; k++, week->length += 2) memcpy(week->bytes + week->length, old->bytes + from + 2, 2);
        }
    }
    memcpy(week->bytes + week->length, old->bytes + from, old->length - from);
    week->length += old->length - from;
}

/* A byte of a random file changed, or its end cut off or lengthened, against the plain reader for that sort. */
static void broken_files(const struct sort *by, unsigned files) {
    static struct file f, wide;
    static struct week read;
    struct day d;
    for (unsigned i = 0; i < files; i++) {
        unsigned weekday = below(WEEKDAYS);
        d = day_for(by, random_day(4, 6));
        write_among(&d, form_of(by, weekday), &f);
        switch (below(4)) {
        case 0: f.length = below((unsigned)f.length); break;
        case 1: f.bytes[f.length++] = (uint8_t)below(UINT8_MAX + 1); break;
        default: f.bytes[below((unsigned)f.length)] = (uint8_t)below(4);
        }
        unsigned number = read_day(f.bytes, f.length, form_of(by, weekday), &d);
        if (by->layout == OLD) {
            const struct sort *there = &sorts[by->stored ? STORED_WEEK : NEW_WEEK];
            widen(&f, &wide);
            expect(read_day(wide.bytes, wide.length, form_of(there, weekday), &d) == number, "a widened file has another number");
            if (number != 0) refused("a broken file, widened", there, &wide, number);
        }
        if (number != 0) {
            refused("a broken file", by, &f, number);
            continue;
        }
        read_week(by, &f, &read);
        alike_in(&read, by->layout, weekday);
    }
    printf("%s, ", by->name);
    part_done("broken");
}

/* ---- Days over 6, the longest files, and the samples of both layouts ---- */

/* A good file and good lengths: on a day over 6 every call is refused with 12, but for the canonical form, which is the same on any. */
static void day_over(const struct sort *by, const struct file *f, unsigned rows, const char *what) {
    static struct told over, good;
    ask(by, f, no_weekday(), &longest, rows > 0 ? below(rows + 1) : 0, &over);
    expect(calls_gave(&over, CLAIMS_DAY) && begin_gave(&over, CLAIMS_DAY), "%s, %s: not refused with 12", by->name, what);
    ask(by, f, WEEKDAYS - 1, &longest, 0, &good);
    expect(good.settled.refusal == 0 && good.codes.refusal == 0 && good.canonical.refusal == 0, "%s, %s: day 6", by->name, what);
    expect(over.canonical.refusal == 0 && over.canonical.length == good.canonical.length &&
               memcmp(over.lent.canonical, good.lent.canonical, sizeof good.lent.canonical) == 0,
           "%s, %s: the form", by->name, what);
}

/*
 * A day over 6, with a selection that is good, one with a byte over 1, and with nothing lent, where 8 is told unless nothing is needed. The
 * beginning of a tally needs no length.
 */
static void days_over(const struct sort *by, unsigned files) {
    static struct file f;
    static struct told t;
    for (unsigned i = 0; i < files; i++) {
        struct day d = day_for(by, random_day(20, 40));
        write_among(&d, form_of(by, 0), &f);
        memset(selection, 0, sizeof selection);
        day_over(by, &f, d.rows, "a good selection");
        if (d.rows == 0) continue;
        selection[below(d.rows)] = 2;
        day_over(by, &f, d.rows, "a byte over 1");
        ask(by, &f, no_weekday(), &nothing, MOST_ROWS, &t);
        expect(calls_gave(&t, CLAIMS_SHORT) && form_gave(&t, CLAIMS_SHORT) && begin_gave(&t, CLAIMS_DAY), "%s: day over 6, nothing lent",
               by->name);
    }
    printf("%s, ", by->name);
    part_done("days over 6");
}

/* The longest file of each layout is taken by every call, and with one byte more it is refused. */
static void longest_files(void) {
    static struct file f;
    struct day d = flat_day(MOST_GROUPS, 2, MOST_GROUPS, 2);
    for (unsigned side = 0; side < 2; side++) hang_forest(&d, side, 3, 8);
    draw_rows(&d, MOST_ROWS, 2);
    day_alike(&d);
    for (const struct sort *by = sorts; by < sorts + SORTS; by++) {
        write_among(&d, form_of(by, below(WEEKDAYS)), &f);
        expect(f.length == (by->layout == WEEK ? CLAIMS_LONGEST_FILE : CLAIMS_LONGEST_FILE_OLD), "%s: the longest", by->name);
        memset(selection, 0, sizeof selection);
        day_over(by, &f, d.rows, "the longest file");
        f.bytes[f.length++] = 0;
        refused("one byte more than the longest", by, &f, CLAIMS_TRAILING);
    }
    part_done("the longest files");
}

static void read_sample(const char *folder, const char *name, struct file *f) {
    char path[64];
    snprintf(path, sizeof path, "samples/%s%s.claims", folder, name);
    FILE *in = fopen(path, "rb");
    f->length = in == NULL ? 0 : fread(f->bytes, 1, sizeof f->bytes, in);
    expect(f->length > 0, "%s cannot be read", path);
    if (in != NULL) fclose(in);
}

/* The samples that stand there in both layouts are the same weeks. */
static void samples(void) {
    static const char *const names[] = {"day_a", "full", "held", "shelf", "street"};
    static struct file f, old;
    static struct told t, old_told;
    struct day d;
    for (unsigned i = 0; i < sizeof names / sizeof *names; i++) {
        read_sample("", names[i], &f);
        read_sample("old/", names[i], &old);
        expect(read_day(f.bytes, f.length, form_of(&sorts[NEW_WEEK], 0), &d) == 0, "%s is a new file", names[i]);
        for (unsigned c = 0; c < d.rows; c++) selection[c] = below(4) == 0;
        for (unsigned weekday = 0; weekday < WEEKDAYS; weekday++) {
            ask(&sorts[NEW_WEEK], &f, weekday, &longest, 0, &t);
            ask(&sorts[NEW_OLD], &old, weekday, &longest, 0, &old_told);
            same_told(names[i], &d, &old_told, &t);
        }
    }
    part_done("the samples in both layouts");
}

int main(void) {
    start_numbers(20270305);
    above_on_one_day();
    limits_above();
    for (const struct sort *by = sorts; by < sorts + SORTS; by++) broken_files(by, 1000);
    for (const struct sort *by = sorts; by < sorts + SORTS; by++) days_over(by, 100);
    longest_files();
    samples();
    day_b();
    earned_lowered();
    random_days("random small days", 300, 8, 12);
    random_days("random days", 60, 40, 120);
    random_days("random large days", 8, MOST_GROUPS, MOST_ROWS);
    chains();
    return all_done();
}
