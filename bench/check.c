/*
 * Every contestant's answer against ours, and ours against a search through all selections, on a handful of days; the marks of each day;
 * the codes against the ranks of the rows that have them; closings against a plain judge; and the stack of every call against its bound.
 * Under the second terms there is one sort of file, and there are no codes and no closings to judge.
 *
 *   check CALL... -- FILE...    CALL... are the names of the calls that the archive exports, and FILE... the found days
 */
#include <stdio.h>
#include <string.h>
#include "found.h"
#include "measure.h"
#include "stack.h"

/* A day that is checked: its name, its number, its tables and its file. */
struct subject {
    char name[80];
    unsigned number;
    struct day tables;
    struct file file;
};

static void take_family(struct subject *s, unsigned family, unsigned rows, unsigned number) {
    snprintf(s->name, sizeof s->name, "%s, %u claims, day %u", families[family].name, rows, number);
    s->number = number;
    s->tables = tables_of(family, rows, number);
    write_day(&s->tables, WEEK, &s->file);
}

static void take_file(struct subject *s, const char *path) {
    snprintf(s->name, sizeof s->name, "%s", name_of(path));
    s->number = 0;
    read_file(path, &s->file, &s->tables);
}

static void check(int ok, const char *what, const char *who, const struct subject *s) { expect(ok, "%s: %s: %s", who, what, s->name); }

static void settle(const struct subject *s, struct outcome *out) { ours_settle(s->file.bytes, s->file.length, out); }

static int same(const struct outcome *a, const struct outcome *b, unsigned rows, int with_choice) {
    if (a->refusal != b->refusal || a->kept != b->kept || a->total != b->total) return 0;
    if (memcmp(a->of_kind, b->of_kind, sizeof a->of_kind) != 0) return 0;
    return !with_choice || memcmp(a->choice, b->choice, rows) == 0;
}

/* What two families are named for. */
static void check_named(const struct subject *s, unsigned family) {
    static struct outcome ours;
    settle(s, &ours);
    if (family == NOTHING) check(ours.kept == 0, "something fits", "ours", s);
    if (family == EVERYTHING) check(ours.kept == s->tables.rows, "something does not fit", "ours", s);
}

/* ---- what differs with the terms ---- */

#if KINDS == 4

static void check_sorts(const struct subject *s, const struct outcome *ours) { (void)s, (void)ours; }

static void check_codes(const struct subject *s) { (void)s; }

static void check_closings(const struct subject *s) { (void)s; }

#else

/* Our calls for every sort of file settle a day as the first one does, on any weekday, where all weekdays have the same limits. */
static void check_sorts(const struct subject *s, const struct outcome *ours) {
    static struct file file;
    static struct outcome same_day;
    for (const struct sort *by = sorts; by < sorts + SORTS; by++) {
        write_day(&s->tables, by->layout, &file);
        memset(&same_day, 7, sizeof same_day);
        ours_settle_by(by, s->number % WEEKDAYS, &file, &same_day);
        check(same(&same_day, ours, s->tables.rows, 1), "another answer for a sort of file", by->name, s);
    }
}

/* How many of the rows with a code are kept. The rows with the code, kept or not, are left as a selection. */
static unsigned kept_with(const struct day *d, const uint8_t *kept, const uint8_t *codes, unsigned code, uint8_t *coded) {
    unsigned count = 0;
    for (unsigned c = 0; c < d->rows; c++) {
        coded[c] = codes[c] == code;
        count += coded[c] && kept[c];
    }
    return count;
}

/* Just the ordinary rows have code 0. Of the rows with code 1 as many are kept as fit the shop side, of those with code 2 the card side. */
static void check_codes(const struct subject *s) {
    static struct outcome kept;
    static uint8_t codes[MOST_ROWS], coded[MOST_ROWS];
    const struct day *d = &s->tables;
    unsigned wrong = 0;
    settle(s, &kept);
    check(ours_codes(s->file.bytes, s->file.length, codes) == 0, "no codes", "ours", s);
    for (unsigned c = 0; c < d->rows; c++) wrong += (codes[c] == CLAIMS_CODE_ORDINARY) != (d->kind[c] == 0) || codes[c] > CLAIMS_CODE_REST;
    wrong += kept_with(d, kept.choice, codes, CLAIMS_CODE_SHOP, coded) != rank_side(d, SHOP, coded).rank;
    wrong += kept_with(d, kept.choice, codes, CLAIMS_CODE_CARD, coded) != rank_side(d, CARD, coded).rank;
    check(wrong == 0, "the codes go against the ranks", "ours", s);
}

static void check_closing(const struct subject *s, const uint8_t *choice, size_t choices, unsigned weekday, const char *what) {
    unsigned ours = ours_accept(s->file.bytes, s->file.length, choice, choices, weekday);
    unsigned plain = plain_accept(s->file.bytes, s->file.length, choice, choices, ours_sheet(), MOST_MARKS, weekday);
    check(ours == plain, what, "plain C", s);
}

/* What settle leaves is accepted. With a row changed, a mark raised or lowered, or a choice or a day that is refused, plain C agrees. */
static void check_closings(const struct subject *s) {
    static struct outcome kept;
    unsigned rows = s->tables.rows, weekday = s->number % WEEKDAYS, row = s->number % rows;
    settle(s, &kept);
    check(ours_accept(s->file.bytes, s->file.length, kept.choice, rows, weekday) == 0, "its own closing is refused", "ours", s);
    check_closing(s, kept.choice, rows, weekday, "another number for our closing");
    check_closing(s, kept.choice, rows - 1, weekday, "another number for a short choice");
    check_closing(s, kept.choice, rows, WEEKDAYS, "another number for a day over 6");
    for (unsigned k = 0; k < 3; k++) {
        ours_sheet()[row] += k == 1 ? 1 : -1;
        kept.choice[row] ^= k == 2;
        check_closing(s, kept.choice, rows, weekday, "another number for a changed closing");
    }
}

#endif

/* ---- what is the same under both ---- */

/* The marks show that no choice weighs more than ours, and each contestant settles a day as ours does. */
static void check_settled(const struct subject *s) {
    static struct outcome ours, theirs;
    settle(s, &ours);
    check(ours.refusal == 0, "refused", "ours", s);
    check(ours_certified(&s->tables, ours.choice), "the marks", "ours", s);
    check_sorts(s, &ours);
    for (unsigned who = 1; who < contestant_count; who++) {
        memset(&theirs, 7, sizeof theirs);
        contestants[who].settle(s->file.bytes, s->file.length, &theirs);
        check(same(&theirs, &ours, s->tables.rows, contestants[who].knows_rows), "another answer than ours", contestants[who].name, s);
    }
}

/* Ours keeps the best of all selections. */
static void check_searched(const struct subject *s) {
    static struct outcome ours, best;
    static struct day d;
    settle(s, &ours);
    best.refusal = read_day(s->file.bytes, s->file.length, week_file, &d);
    search_all(&d, KINDS, best.choice);
    best.kept = count_rows(&d, best.choice, 0);
    best.total = worth_of(&d, best.choice);
    for (unsigned kind = 0; kind < KINDS; kind++)
        best.of_kind[kind] = count_rows(&d, best.choice, kind) - count_rows(&d, best.choice, kind + 1);
    check(same(&ours, &best, d.rows, 1), "not the best of all selections", "ours", s);
}

static int equal_ranks(struct plain_rank a, struct plain_rank b) { return a.refusal == b.refusal && a.fits == b.fits && a.rank == b.rank; }

/* Fits and rank of the kept rows, which fit, and of every other row, on both sides and on one that does not exist, and on a day over 6. */
static void check_ranks(const struct subject *s) {
    static struct outcome kept;
    static uint8_t other[MOST_ROWS];
    const uint8_t *bytes = s->file.bytes;
    size_t length = s->file.length;
    unsigned rows = s->tables.rows;
    settle(s, &kept);
    for (unsigned c = 0; c < rows; c++) other[c] = c % 2;
    for (unsigned side = 0; side < 3; side++)
        for (unsigned k = 0; k < 3; k++) {
            const uint8_t *selection = k ? other : kept.choice;
            size_t selected = k == 2 ? rows - 1 : rows;
            unsigned weekday = (side + k + s->number) % (WEEKDAYS + 1);
            struct plain_rank ours = ours_fits_and_rank(bytes, length, selection, selected, side, weekday);
            struct plain_rank plain = plain_fits_and_rank(bytes, length, selection, selected, side, weekday);
            struct plain_rank greedy = greedy_fits_and_rank(bytes, length, selection, selected, side, weekday);
            check(equal_ranks(ours, plain), "another rank than ours", "plain C", s);
            check(equal_ranks(ours, greedy), "another rank than ours", "greedy C", s);
        }
}

/* A file that is cut, lengthened, or has one byte set anew: the readers give the same number. */
static void check_damaged(const struct subject *s) {
    static struct file hurt;
    static struct day d;
    static const uint8_t values[] = {0, 1, KINDS, 127, 255};
    size_t length = s->file.length;
    unsigned wrong = 0;
    for (unsigned k = 0; k < 400; k++) {
        hurt = s->file;
        if (k % 4 == 0) hurt.length = (length - 1) * k / 400;
        if (k % 4 != 0) hurt.bytes[length * k / 400] = values[k % 5];
        if (k == 398) hurt.bytes[hurt.length++] = 0;
        unsigned ours = ours_judge(hurt.bytes, hurt.length);
        wrong += ours != read_day(hurt.bytes, hurt.length, week_file, &d);
        wrong += ours != plain_judge(hurt.bytes, hurt.length);
    }
    check(wrong == 0, "another refusal than ours", "plain C", s);
}

/* Each call keeps the bound. */
static void check_stacks(void) {
    for (unsigned k = 0; k < call_count; k++) {
        struct depths d = stack_of(&calls[k]);
        unsigned most = d.on_chains > d.on_days ? d.on_chains : d.on_days;
        expect(most <= MOST_STACK, "%s: a stack of %u bytes, but at most %u are allowed", calls[k].name, most, MOST_STACK);
    }
}

static int is_known(const char *name) {
    for (unsigned k = 0; k < call_count; k++)
        if (strcmp(calls[k].name, name) == 0) return 1;
    return 0;
}

/* The table of calls has every exported call. */
static void check_calls(unsigned count, char **names) {
    expect(count >= call_count, "%u calls are named, of %u", count, call_count);
    for (unsigned k = 0; k < count; k++) expect(is_known(names[k]), "%s is exported, but not in the table of calls in ours.c", names[k]);
}

/* What is checked on every day that is too large for a search through all selections. */
static void check_large(const struct subject *s) {
    check_settled(s);
    check_ranks(s);
    check_codes(s);
    check_closings(s);
}

static void check_family(unsigned family) {
    static const unsigned small[] = {2, 4, 6, 8, 10, 12}, large[] = {64, MOST_ROWS};
    static struct subject s;
    for (unsigned k = 0; k < 6; k++)
        for (unsigned number = 0; number < 4; number++) {
            take_family(&s, family, small[k], number);
            check_named(&s, family);
            check_searched(&s);
            check_settled(&s);
            check_codes(&s);
        }
    for (unsigned k = 0; k < 2; k++)
        for (unsigned number = 0; number < DAYS; number++) {
            take_family(&s, family, large[k], number);
            check_named(&s, family);
            check_large(&s);
        }
    take_family(&s, family, 64, 0);
    check_damaged(&s);
}

int main(int argc, char **argv) {
    static struct subject found;
    int names = 1;
    while (names < argc && strcmp(argv[names], "--") != 0) names++;
    for (unsigned family = 0; family < FAMILIES; family++) check_family(family);
    for (int k = names + 1; k < argc; k++) {
        take_file(&found, argv[k]);
        check_large(&found);
    }
    check_stacks();
    check_calls((unsigned)names - 1, argv + 1);
    return all_done();
}
