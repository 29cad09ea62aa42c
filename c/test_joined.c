/*
 * Tests of settling several counters together. The files of a set of counters are joined here, byte by byte, and the joined file is settled
 * by the call for stored files: the call for counters must give the same answer and leave the same cells, and they must be a closing of the
 * joined day. Where the oven limit is at least the number of all claims, each counter must keep what claims_settle keeps of its file alone.
 * What is turned away must give its number, with the place of the file where the fault is a file's, and change nothing.
 */
#define _GNU_SOURCE
#include <sys/mman.h>
#include "counters.h"
#include "lent.h"

/* ---- The call ---- */

enum { SMALL_ROWS = 10 };

/* How many cells of each buffer a call is lent. */
struct cells {
    size_t choice, sheet, scratch;
};
static const struct cells longest = {CHOICE_CELLS, SHEET_CELLS, SCRATCH_CELLS}, none;

/* The cells that the joined file needs, and `more` of each. */
static struct cells needed(size_t more) { return (struct cells){rows + more, groups + rows + more, 6 * groups + 3 * rows + more}; }

static struct claims_settle_joined_answer settle(unsigned oven, unsigned day, struct cells n) {
    fill_lent();
    return claims_settle_joined(files, length, lengths, count, (uint16_t)oven, day, lent.choice, n.choice, lent.sheet, n.sheet,
                                lent.scratch, n.scratch);
}

/*
 * Whether what the call answered and left is a closing of the joined day by the plain ways of day.h: the choice fits, the sheet shows it by
 * the lowered limits, and of a small day it is the choice that the search finds.
 */
static int closed_well(const struct claims_settle_joined_answer *r, unsigned day) {
    static struct day d;
    uint8_t best[SMALL_ROWS];
    if (read_day(joined.bytes, joined.length, (struct form){WEEK, STORED, day, FIRST_KINDS}, &d) != 0) return 0;
    struct day low = lowered(&d);
    if (rows <= SMALL_ROWS) {
        search_all(&d, FIRST_KINDS, best);
        if (memcmp(best, lent.choice, rows) != 0) return 0;
    }
    return r->earned == count_rows(&d, lent.choice, 1) && r->kept == count_rows(&d, lent.choice, 0) &&
           r->total == worth_of(&d, lent.choice) && fits_day(&d, lent.choice) && certified(&low, FIRST_KINDS, lent.choice, lent.sheet);
}

/* The files against the joined file, in as many cells. Afterwards the cells are as the call on the files left them. */
static void compare(const char *what, unsigned oven, unsigned day, struct cells n) {
    static uint8_t left[sizeof lent];
    join(oven);
    fill_lent();
    struct claims_settle_answer must = claims_settle_stored(joined.bytes, joined.length, day, lent.choice, n.choice, lent.sheet, n.sheet,
                                                            lent.scratch, n.scratch);
    memcpy(left, &lent, sizeof lent);
    struct claims_settle_joined_answer r = settle(oven, day, n);
    expect(r.refusal == must.refusal && r.file == 0 && r.earned == must.earned && r.kept == must.kept && r.total == must.total,
           "%s, %u files, oven %u, day %u: the answer", what, count, oven, day);
    expect(memcmp(left, &lent, sizeof lent) == 0, "%s, %u files, oven %u, day %u: the lent cells", what, count, oven, day);
    if (r.refusal == 0)
        expect(closed_well(&r, day), "%s, %u files, oven %u, day %u: no closing of the joined day", what, count, oven, day);
    else
        expect(untouched(0, 0, 0), "%s, %u files: changed and refused", what, count);
}

/* Whether each counter keeps what it keeps alone, where the last call settled all of them. */
static void each_alone(unsigned day) {
    static uint8_t choice[MOST_ROWS];
    static uint32_t sheet[MOST_MARKS], scratch[CLAIMS_LONGEST_SCRATCH];
    const uint8_t *part = lent.choice;
    for (unsigned k = 0; k < count; k++) {
        unsigned claims = section_of(k, 2).records;
        struct claims_settle_answer r = claims_settle(member[k].bytes, member[k].length, day, choice, MOST_ROWS, sheet, MOST_MARKS, scratch,
                                                      CLAIMS_LONGEST_SCRATCH);
        expect(r.refusal == 0 && memcmp(part, choice, claims) == 0, "counter %u of %u keeps other rows than alone", k, count);
        part += claims;
    }
}

/* The number and the place are told, and zeros beside them, and no cell is changed. */
static void told(const char *what, unsigned number, unsigned place, unsigned day, struct cells n) {
    struct claims_settle_joined_answer r = settle(below(9), day, n);
    expect(r.refusal == number && r.file == place && r.earned == 0 && r.kept == 0 && r.total == 0 && untouched(0, 0, 0),
           "%s, %u files: %u of file %u is told for %u of file %u", what, count, r.refusal, r.file, number, place);
}

/* The same whatever is lent and whichever day is named. */
static void turned_away(const char *what, unsigned number, unsigned place) {
    told(what, number, place, below(WEEKDAYS), longest);
    told(what, number, place, below(WEEKDAYS), none);
    told(what, number, place, no_weekdays[below(NO_WEEKDAYS)], longest);
    told(what, number, place, no_weekdays[below(NO_WEEKDAYS)], none);
}

/* ---- Random files ---- */

/* So many files of at most so many groups a side and rows, a few of them with no row or with nothing at all. */
static void draw_files(unsigned n, unsigned most_groups, unsigned most_rows, unsigned day) {
    for (count = 0; count < n; count++) {
        struct day d = random_day(most_groups, most_rows);
        if (below(12) == 0) d = flat_day(below(3), 2, below(3), 1);
        d = lowered(&d);
        write_among(&d, (struct form){WEEK, NEW, day, FIRST_KINDS}, &member[count]);
    }
    put_together();
}

/* Each buffer one cell short, and a weekday that there is not; and both, where the buffers are judged first. */
static void short_and_no_weekday(unsigned oven, unsigned day) {
    unsigned no_day = no_weekdays[below(NO_WEEKDAYS)];
    for (unsigned one = 0; one < 3; one++) {
        struct cells n = needed(0);
        size_t *cell[3] = {&n.choice, &n.sheet, &n.scratch};
        if (*cell[one] == 0) continue;
        --*cell[one];
        compare("one cell short", oven, day, n);
        told("one cell short", CLAIMS_SHORT, 0, day, n);
        told("one cell short and no weekday", CLAIMS_SHORT, 0, no_day, n);
    }
    compare("no weekday", oven, no_day, needed(0));
    told("no weekday", CLAIMS_DAY, 0, no_day, needed(0));
}

/* An oven limit: none, a small one, one about the number of rows, one about the most rows that there are, or the largest. */
static unsigned draw_oven(void) {
    unsigned about[] = {0, below(4), below(rows + 1), rows + below(3) - (rows > 0), MOST_ROWS - 1 + below(4), TOP - below(2)};
    return about[below(sizeof about / sizeof *about)];
}

/* Answers how many times the oven limit left other rows than each counter keeps alone. */
static unsigned random_sets(unsigned sets, unsigned most_groups, unsigned most_rows) {
    static uint8_t kept[MOST_ROWS];
    unsigned differ = 0;
    for (unsigned n = 0; n < sets; n++) {
        unsigned day = below(WEEKDAYS);
        draw_files(1 + n % MOST_FILES, most_groups, most_rows, day);
        join(0);
        unsigned oven = draw_oven();
        compare("exact", oven, day, needed(0));
        if (oven >= rows) each_alone(day);
        memcpy(kept, lent.choice, rows);
        compare("longer", oven, day, needed(1 + below(PAST)));
        short_and_no_weekday(oven, day);
        compare("an oven for every row", rows, day, longest);
        each_alone(day);
        differ += memcmp(kept, lent.choice, rows) != 0;
    }
    return differ;
}

/* ---- Files at fault ---- */

/* Card group 1 in card group 0, two shop groups, and two rows; where the counts and records stand in the file of that day. */
enum { CARD_1 = 2 + RECORD, CLAIMS_AT = 4 + 4 * RECORD };

static void good_files(unsigned n) {
    struct day d = flat_day(2, 3, 2, 1);
    d.parent[CARD][1] = 0;
    add_row(&d, 0, 0, 1), add_row(&d, 1, 1, 0);
    for (count = 0; count < n; count++) write_day(&d, WEEK, &member[count]);
}

/* Each fault of a file, the first in three ways. */
enum { EMPTY, ONE_BYTE, CUT, COUNT, SHOP_COUNT, PARENT, CLAIM_COUNT, NO_CARD, NO_SHOP, KIND, MORE, ABOVE, FAULTS };
static const unsigned numbers[FAULTS] = {1, 1, 1, 2, 2, 3, 4, 5, 5, 6, 7, 11};

static void damage(unsigned k, unsigned fault) {
    struct file *f = &member[k];
    uint8_t *b = f->bytes;
    if (fault == EMPTY) f->length = 0;
    if (fault == ONE_BYTE) f->length = 1;
    if (fault == CUT) f->length--;
    if (fault == COUNT) put16(b, MOST_GROUPS + 1);
    if (fault == SHOP_COUNT) put16(b + CARD_1 + RECORD, MOST_GROUPS + 1);
    if (fault == PARENT) put16(b + CARD_1, 1);
    if (fault == CLAIM_COUNT) put16(b + CLAIMS_AT, MOST_ROWS + 1);
    if (fault == NO_CARD) put16(b + CLAIMS_AT + 2, 2);
    if (fault == NO_SHOP) put16(b + CLAIMS_AT + 2 + CLAIM + 2, 2);
    if (fault == KIND) b[CLAIMS_AT + 2 + CLAIM - 1] = 2;
    if (fault == MORE) b[f->length++] = 0;
    if (fault == ABOVE) put16(b + CARD_1 + 2 + 2 * below(WEEKDAYS), 4);
}

/* Each fault in each place, and with a second fault of any sort in a higher one: the lower is told. */
static void faults(void) {
    for (unsigned n = 1; n <= MOST_FILES; n++)
        for (unsigned k = 0; k < n; k++)
            for (unsigned fault = 0; fault < FAULTS; fault++) {
                good_files(n);
                damage(k, fault);
                put_together();
                turned_away("a file at fault", numbers[fault], k);
                if (k + 1 == n) continue;
                damage(k + 1 + below(n - k - 1), below(FAULTS));
                put_together();
                turned_away("two files at fault", numbers[fault], k);
            }
}

/* Where one file ends and the next begins is said by the lengths alone. */
static void other_bounds(void) {
    for (unsigned k = 0; k + 1 < MOST_FILES; k++) {
        good_files(MOST_FILES);
        put_together();
        lengths[k]++, lengths[k + 1]--;
        turned_away("a file takes a byte of the next one", CLAIMS_TRAILING, k);
        lengths[k] -= 2, lengths[k + 1] += 2;
        turned_away("a file leaves a byte to the next one", CLAIMS_CUT_OFF, k);
    }
}

/* ---- 16 ---- */

static void no_files(void) {
    good_files(1);
    put_together();
    count = 0;
    turned_away("a file and no length", CLAIMS_FILES, 0);
    length = 0;
    turned_away("no file", CLAIMS_FILES, 0);
    count = 1;
    turned_away("no byte and a length", CLAIMS_FILES, 0);
    memset(lengths, 0, sizeof lengths);
    for (count = 1; count <= MOST_FILES; count++) turned_away("no byte, and empty files", CLAIMS_CUT_OFF, 0);
    turned_away("no byte, and nine empty files", CLAIMS_FILES, 0);
    good_files(MOST_FILES + 1);
    put_together();
    turned_away("nine files", CLAIMS_FILES, 0);
    lengths[MOST_FILES] = 0, length -= member[MOST_FILES].length;
    turned_away("nine files, the last one empty", CLAIMS_FILES, 0);
    damage(0, KIND);
    put_together();
    turned_away("nine files, the first at fault", CLAIMS_FILES, 0);
}

/* Sums that are one byte off, of good files and with a file at fault. */
static void other_sums(void) {
    for (unsigned n = 1; n <= MOST_FILES; n++) {
        good_files(n);
        if (n % 2 == 0) damage(below(n), below(FAULTS));
        for (int off = -1; off <= 1; off += 2) {
            put_together();
            length += (size_t)off;
            turned_away("a buffer one byte off", CLAIMS_FILES, 0);
            put_together();
            unsigned k = below(n);
            lengths[k] += (uint32_t)((lengths[k] == 0 ? 1 : off));
            turned_away("a length one byte off", CLAIMS_FILES, 0);
        }
    }
}

/* Lengths that come to the buffer's and to 2^32 once, or as often as there are further files. */
static void sums_past_32_bits(void) {
    for (unsigned n = 2; n <= MOST_FILES; n++) {
        good_files(n);
        put_together();
        lengths[n - 2] = UINT32_MAX - lengths[n - 2] + 1, lengths[n - 1] += 2 * member[n - 2].length;
        turned_away("lengths past 2^32", CLAIMS_FILES, 0);
        for (unsigned k = 0; k < n; k++) lengths[k] = UINT32_MAX;
        lengths[n - 1] = (uint32_t)length + n - 1;
        turned_away("lengths far past 2^32", CLAIMS_FILES, 0);
    }
    /* a buffer of 2^32 zeros and one, which is reserved only: the first file is one of no group and no row, with zeros behind it */
    const uint32_t two[2] = {UINT32_MAX, 2};
    size_t size = (size_t)UINT32_MAX + 2;
    uint8_t *zeros = mmap(NULL, size, PROT_READ, MAP_PRIVATE | MAP_ANONYMOUS | MAP_NORESERVE, -1, 0);
    expect(zeros != MAP_FAILED, "no room to reserve");
    if (zeros == MAP_FAILED) return;
    struct claims_settle_joined_answer r = claims_settle_joined(zeros, size, two, 2, 9, 0, lent.choice, 0, lent.sheet, 0, lent.scratch, 0);
    expect(r.refusal == CLAIMS_TRAILING && r.file == 0, "a buffer of 2^32 bytes and one: %u is told", r.refusal);
    r = claims_settle_joined(zeros, size - 1, two, 2, 9, 0, lent.choice, 0, lent.sheet, 0, lent.scratch, 0);
    expect(r.refusal == CLAIMS_FILES, "a buffer of 2^32 bytes: %u is told", r.refusal);
    munmap(zeros, size);
}

/* ---- 17, and the largest sets ---- */

/* What the next of n files has of so many in all: its share, and the last file also what is left over. */
static unsigned share_of(unsigned all, unsigned n) { return count + 1 < n ? all / n : all / n + all % n; }

/* So many groups and rows in all, dealt to n files. */
static void deal(unsigned n, unsigned cards, unsigned shops, unsigned claims) {
    static const uint16_t limits[] = {0, 1, 2, 5, 511, 512, 513, 514, 1023, TOP - 1, TOP};
    for (count = 0; count < n; count++) {
        struct day d = flat_day(share_of(cards, n), 0, share_of(shops, n), 0);
        for (unsigned side = 0; side < 2; side++) {
            hang_forest(&d, side, below(8), 1 + below(9));
            for (unsigned g = 0; g < d.groups[side]; g++) d.limit[side][g] = limits[below(sizeof limits / sizeof *limits)];
        }
        d = lowered(&d);
        draw_rows(&d, share_of(claims, n), 2);
        write_among(&d, (struct form){WEEK, NEW, 0, FIRST_KINDS}, &member[count]);
    }
    put_together();
}

/* As large as can be in one way or in all, and one more. One file has at most 256 groups a side and 512 claims. */
static void sizes(void) {
    static const unsigned dealt[][4] = {
        {8, 8, 0, 0},        {256, 9, 9, 0},       {9, 255, 9, 0},       {9, 9, 512, 0},        {256, 255, 512, 0},  {257, 9, 9, 17},
        {9, 256, 9, 17},     {9, 9, 513, 17},      {257, 255, 512, 17},  {256, 256, 512, 17},   {256, 255, 513, 17},
    };
    for (unsigned n = 1; n <= MOST_FILES; n++)
        for (unsigned c = 0; c < sizeof dealt / sizeof *dealt; c++) {
            const unsigned *d = dealt[c];
            if (n == 1 && (d[0] > MOST_GROUPS || d[2] > MOST_ROWS)) continue;
            deal(n, d[0], d[1], d[2]);
            if (d[3] == 0) {
                unsigned oven = below(2) ? below(30) : MOST_ROWS + below(3);
                join(oven);
                compare("as large as can be", oven, 0, needed(0));
                if (oven >= rows) each_alone(0);
                continue;
            }
            turned_away("too large", CLAIMS_LARGE, 0);
            damage(n - 1, MORE);
            put_together();
            turned_away("too large, and the last file at fault", CLAIMS_TRAILING, n - 1);
        }
    deal(1, MOST_GROUPS, MOST_GROUPS, MOST_ROWS);
    while (count < MOST_FILES) member[count++] = member[0];
    put_together();
    turned_away("eight of the longest files", CLAIMS_LARGE, 0);
    for (unsigned k = MOST_FILES - 1; k > 0; k--) {
        damage(k, MORE);
        put_together();
        turned_away("files that are too large, and one at fault behind them", CLAIMS_TRAILING, k);
    }
}

/*
 * Eight counters with 64 rows each, every other one earned, that all fit their groups: the oven keeps the first earned rows, and then the
 * first ordinary ones. Limits on both sides of the number of rows.
 */
static void crowds(void) {
    static const unsigned limits[] = {511, 512, 513, 514, 1023, TOP}, ovens[] = {0, 1, 255, 256, 257, 511, 512, 513, 514, 1023, TOP};
    for (unsigned n = 0; n < sizeof limits / sizeof *limits * (sizeof ovens / sizeof *ovens); n++) {
        unsigned limit = limits[n % 6], oven = ovens[n / 6], half = MOST_ROWS / 2;
        struct day d = flat_day(1, limit, 1, limit);
        while (d.rows < MOST_ROWS / MOST_FILES) add_row(&d, 0, 0, d.rows % 2);
        for (count = 0; count < MOST_FILES; count++) write_day(&d, WEEK, &member[count]);
        put_together();
        join(oven);
        compare("a crowd", oven, 0, needed(0));
        for (unsigned c = 0; c < rows; c++)
            expect(lent.choice[c] == (c / 2 < (c % 2 ? oven : oven < half ? 0 : oven - half)), "a crowd, oven %u: row %u", oven, c);
    }
}

int main(void) {
    start_numbers(20270313);
    unsigned small = random_sets(8000, 4, 8), large = random_sets(800, 24, 60);
    expect(small > 2000 && large > 200, "an oven limit held only %u small sets and %u large ones", small, large);
    part_done("random files");
    faults();
    other_bounds();
    part_done("files at fault");
    no_files();
    other_sums();
    sums_past_32_bits();
    part_done("lengths");
    sizes();
    crowds();
    part_done("sizes");
    return all_done();
}
