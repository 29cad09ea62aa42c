/*
 * Tests of the tally, for each sort of file and on each weekday: long runs of calls beside a plain recount, every refusal in its order,
 * refused beginnings, copies that go on by themselves, and tallies that no call wrote.
 *
 * The plain recount keeps which rows are in and nothing else. A row may come in where the rows with it fit the day, as day.h finds it. What
 * every cell of the tally has to hold follows from the day and from these rows, and after each call all cells are compared.
 *
 * The tally stands at the front or at the end of two pages, and there is no memory before and behind these: a call that reads or writes
 * there ends the test. The rest of the two pages is watched.
 */
#include <string.h>
#include <sys/mman.h>
#include <unistd.h>
#include "sorts.h"

enum { NODES = 2 * MOST_GROUPS, ROOM = 2 * 4096 /* bytes */, REST = ROOM - sizeof(struct claims_tally), AROUND = 1 << 20 };

/* The sort whose turn it is, and the weekday that a tally is begun for. */
static const struct sort *by;
static unsigned weekday;

/* The tally that the calls are lent, the rest of the pages, and what that has to hold. */
static uint8_t *pages, *rest, watched[REST];
static struct claims_tally *lent;

/* The day that it is begun from, as its file has it, and the plain recount: the rows that are in, and what the tally has to hold. */
static struct file file;
static struct day day;
static uint8_t in[MOST_ROWS];
static struct claims_tally must;

/* Numbers at the ends of what a call may be given, and ones whose low bits are a small number. */
static const uint32_t far[] = {0,   1,   2,   3,     254,   255,      256,         257,         510,         511,
                               512, 513, 514, 65535, 65536, 0x10001u, 0x7fffffffu, 0x80000000u, 0xfffffe00u, UINT32_MAX};
enum { FAR = sizeof far / sizeof *far };

/* ---- The memory ---- */

static void map_pages(void) {
    uint8_t *at = mmap(NULL, AROUND + ROOM + AROUND, PROT_NONE, MAP_PRIVATE | MAP_ANONYMOUS | MAP_NORESERVE, -1, 0);
    expect(at != MAP_FAILED && mprotect(at + AROUND, ROOM, PROT_READ | PROT_WRITE) == 0, "no memory to be had");
    pages = at + AROUND;
    lent = (void *)pages;
    memset(watched, 0x5b, REST);
}

/* The tally stands at the front of the pages or at their end, as it was. */
static void place(void) {
    static struct claims_tally kept;
    unsigned front = below(2);
    kept = *lent;
    lent = (void *)(front ? pages : pages + REST);
    rest = front ? pages + sizeof kept : pages;
    *lent = kept;
    memcpy(rest, watched, REST);
}

/* Makes it dirty: as it was left, all bits set, every byte the same, or any bytes. */
static void dirty(void) {
    unsigned how = below(4);
    place();
    if (how == 1) memset(lent, 0xff, sizeof *lent);
    if (how == 2) memset(lent, (int)below(256), sizeof *lent);
    for (size_t i = 0; how == 3 && i < sizeof *lent; i++) ((uint8_t *)lent)[i] = (uint8_t)below(256);
}

static int rest_left_alone(void) { return memcmp(rest, watched, REST) == 0; }

/* ---- The plain recount ---- */

/* The node of a group; and the same where the group may be none, as at the top. */
static unsigned node_of(unsigned side, unsigned group) { return side == CARD ? group : day.groups[CARD] + group; }
static unsigned node_or_top(unsigned side, unsigned group) { return group == TOP ? CLAIMS_TALLY_TOP : node_of(side, group); }

/* What stays as it is from the beginning on. The limits are lowered. */
static void plain_tables(void) {
    struct day low = lowered(&day);
    memset(&must, 0, sizeof must);
    must.cards = day.groups[CARD], must.shops = day.groups[SHOP], must.rows = day.rows;
    for (unsigned side = 0; side < 2; side++)
        for (unsigned g = 0; g < day.groups[side]; g++) {
            must.parents[node_of(side, g)] = (uint16_t)node_or_top(side, day.parent[side][g]);
            must.limits[node_of(side, g)] = low.limit[side][g];
        }
    for (unsigned c = 0; c < day.rows; c++) {
        must.card_nodes[c] = (uint16_t)node_or_top(CARD, counts_from(&day, CARD, c));
        must.shop_nodes[c] = (uint16_t)node_or_top(SHOP, counts_from(&day, SHOP, c));
    }
}

/*
 * Each row that is in counts where it begins to; from the last group to the first, what counts in a group counts in its parent. What comes
 * to the top is counted too, behind the last node, and left out.
 */
static void recount(void) {
    uint16_t counts[NODES + 1] = {0};
    for (unsigned side = 0; side < 2; side++) {
        for (unsigned c = 0; c < day.rows; c++) counts[node_or_top(side, counts_from(&day, side, c))] += in[c];
        for (unsigned g = day.groups[side]; g-- > 0;) counts[node_or_top(side, day.parent[side][g])] += counts[node_of(side, g)];
    }
    memcpy(must.counts, counts, sizeof must.counts);
    memcpy(must.selection, in, sizeof must.selection);
}

/* The number that is to be told. Where it is 0, the row is in afterwards, or out. */
static unsigned plain_put_in(unsigned row) {
    if (row >= day.rows) return CLAIMS_VALUE;
    if (in[row]) return CLAIMS_INSIDE;
    in[row] = 1;
    if (fits_day(&day, in)) return 0;
    in[row] = 0;
    return CLAIMS_FULL;
}

static unsigned plain_take_out(unsigned row) {
    if (row >= day.rows) return CLAIMS_VALUE;
    if (!in[row]) return CLAIMS_OUTSIDE;
    in[row] = 0;
    return 0;
}

/* ---- The calls, each beside the plain recount ---- */

static size_t first_difference(void) {
    size_t i = 0;
    while (i < sizeof must && ((uint8_t *)lent)[i] == ((uint8_t *)&must)[i]) i++;
    return i;
}

static void holds(const char *after) {
    int same = memcmp(lent, &must, sizeof must) == 0;
    expect(same, "%s, day %u: after %s byte %u is wrong", by->name, weekday, after, same ? 0 : (unsigned)first_difference());
    expect(rest_left_alone(), "%s, day %u: %s changed memory around the tally", by->name, weekday, after);
}

static void told(const char *what, unsigned of, unsigned number, unsigned due) {
    expect(number == due, "%s, day %u: %s %u tells %u, and not %u", by->name, weekday, what, of, number, due);
}

/* Of a row that is not in, 20 is told exactly where spare places, for the tally's own selection, answers 0 places. */
static void put_in(unsigned row) {
    int out = row < day.rows && !in[row];
    struct claims_spare_places_answer spare = {0, 0};
    if (out) spare = by->spare_places(file.bytes, file.length, lent->selection, sizeof lent->selection, row, weekday);
    unsigned due = plain_put_in(row), number = claims_tally_put_in(lent, row);
    told("putting in row", row, number, due);
    if (out) expect(spare.refusal == 0 && (number == CLAIMS_FULL) == (spare.places == 0), "%s: spare places of row %u", by->name, row);
    recount();
    holds("putting in a row");
}

static void take_out(unsigned row) {
    unsigned due = plain_take_out(row);
    told("taking out row", row, claims_tally_take_out(lent, row), due);
    recount();
    holds("taking out a row");
}

static void count(unsigned side, unsigned group) {
    int there = side < 2 && group < day.groups[side];
    struct claims_tally_count_answer r = claims_tally_count(lent, side, group);
    expect(r.refusal == (there ? 0 : CLAIMS_VALUE) && r.count == (there ? must.counts[node_of(side, group)] : 0),
           "%s, day %u: the count of group %u of side %u is %u, with refusal %u", by->name, weekday, group, side, r.count, r.refusal);
    holds("counting");
}

static void all_counts(void) {
    for (unsigned side = 0; side < 2; side++)
        for (unsigned g = 0; g <= day.groups[side]; g++) count(side, g);
}

/* The calls that take a selection take the tally's: its rows fit both sides, and each has a line on the slip. */
static void selection_taken(void) {
    static uint8_t slip[CLAIMS_LONGEST_SLIP];
    unsigned kept = count_rows(&day, in, 0);
    for (unsigned side = 0; side < 2; side++) {
        struct claims_fits_and_rank_answer r =
            by->fits_and_rank(file.bytes, file.length, lent->selection, sizeof lent->selection, side, weekday);
        expect(r.refusal == 0 && r.fits == 1 && r.rank == kept, "%s, day %u: the rows do not fit side %u", by->name, weekday, side);
    }
    struct claims_write_slip_answer w =
        by->write_slip(file.bytes, file.length, lent->selection, sizeof lent->selection, weekday, slip, CLAIMS_SLIP_LENGTH(kept));
    expect(w.refusal == 0 && w.length == CLAIMS_SLIP_LENGTH(kept), "%s, day %u: the slip", by->name, weekday);
}

/* ---- Beginnings ---- */

static unsigned begin(const uint8_t *bytes, size_t length, unsigned day_named) {
    dirty();
    memset(in, 0, sizeof in);
    return by->tally_begin(bytes, length, day_named, lent);
}

/* Begins a tally from a day, on the weekday whose turn it is. */
static void begin_day(const struct day *d) {
    day = day_for(by, *d);
    write_among(&day, form_of(by, weekday), &file);
    told("beginning on day", weekday, begin(file.bytes, file.length, weekday), 0);
    plain_tables();
    holds("beginning");
}

/* Every number in `far`, as a row, as a side and as a group; some of them the day may have. */
static void far_numbers(void) {
    for (unsigned k = 0; k < FAR; k++) {
        put_in(far[k]), take_out(far[k]);
        for (unsigned side = 0; side < 2; side++) count(side, far[k]);
        for (unsigned g = 0; g < 3; g++) count(far[k], g);
    }
    put_in(day.rows), take_out(day.rows);
    count(CARD, day.groups[CARD]), count(SHOP, day.groups[SHOP]);
}

/* A refused beginning: a tally without rows or groups. */
static void begin_refused(const uint8_t *bytes, size_t length, unsigned day_named, unsigned number) {
    told("a beginning that is refused, on day", day_named, begin(bytes, length, day_named), number);
    memset(&day, 0, sizeof day);
    plain_tables();
    holds("a refused beginning");
}

/* The file is judged first, and then the day. Before each refused beginning the tally is one in use, or dirty. */
static void refused_beginnings(void) {
    struct day a = day_a(), read;
    struct file f;
    for (unsigned k = 0; k < NO_WEEKDAYS; k++) {
        begin_day(&a), put_in(0), put_in(1);
        f = file;
        begin_refused(f.bytes, f.length, no_weekdays[k], CLAIMS_DAY);
        far_numbers();
        begin_refused(f.bytes, f.length - 1, no_weekdays[k], CLAIMS_CUT_OFF);
    }
    for (size_t cut = 0; cut < f.length; cut++) begin_refused(f.bytes, cut, weekday, CLAIMS_CUT_OFF);
    f.bytes[f.length] = 0;
    begin_refused(f.bytes, f.length + 1, weekday, CLAIMS_TRAILING);
    for (unsigned n = 0; n < 300; n++) {
        struct day d = random_day(12, 12);
        write_among(&d, form_of(by, weekday), &f);
        if (below(2)) f.bytes[below((unsigned)f.length)] = (uint8_t)below(256);
        unsigned number = read_day(f.bytes, f.length, form_of(by, weekday), &read);
        if (number == 0) continue;
        begin_refused(f.bytes, f.length, weekday, number);
        begin_refused(f.bytes, f.length, no_weekdays[n % NO_WEEKDAYS], number);
        put_in(below(12)), take_out(below(12)), count(below(2), below(12));
    }
}

/* ---- Refusals in their order ---- */

/*
 * Day A by hand. Card groups c0 and c1 and shop groups s0 and s1 all have limit 1. Row 0 is earned, names c0 and s0, and counts in s0
 * alone; row 1 counts in c0 and s1, and row 2 in c1 and s0.
 */
static void day_a_by_hand(void) {
    static const struct {
        enum { IN, OUT } way;
        unsigned row, number;
    } steps[] = {
        {OUT, 0, 19}, {IN, 0, 0}, {IN, 0, 18},                                              /* s0 is full, and 18 comes before 20 */
        {IN, 2, 20}, {OUT, 2, 19}, {IN, 1, 0}, {IN, 1, 18},                                 /* c0 has a place for row 1 */
        {IN, 3, 9}, {OUT, 3, 9}, {IN, 512, 9}, {OUT, 512, 9}, {IN, UINT32_MAX, 9}, {OUT, UINT32_MAX, 9},
        {OUT, 0, 0}, {OUT, 0, 19}, {IN, 2, 0}, {IN, 0, 20}, {IN, 2, 18}, {OUT, 1, 0}, {OUT, 2, 0}, {IN, 0, 0}, {OUT, 0, 0}, {OUT, 0, 19},
    };
    struct day a = day_a();
    begin_day(&a);
    for (unsigned k = 0; k < sizeof steps / sizeof *steps; k++) {
        unsigned row = steps[k].row;
        told("day A, row", row, steps[k].way == IN ? claims_tally_put_in(lent, row) : claims_tally_take_out(lent, row), steps[k].number);
        if (steps[k].number == 0) in[row] = steps[k].way == IN;
        recount();
        holds("a step of day A");
    }
}

/* ---- Runs of calls ---- */

/* A row of the day, or now and then any number. */
static unsigned any_row(void) { return day.rows == 0 || below(16) == 0 ? far[below(FAR)] : below(day.rows); }

static void any_count(void) {
    unsigned side = below(16) ? below(2) : far[below(FAR)];
    unsigned groups = side < 2 ? day.groups[side] : 0;
    count(side, below(8) ? below(groups + 1) : far[below(FAR)]);
}

static void any_call(void) {
    unsigned which = below(16);
    if (which < 8) put_in(any_row());
    else if (which < 12) take_out(any_row());
    else if (which < 15) any_count();
    else selection_taken();
}

/* Any calls; then every row is put in twice, where it has a place, and taken out twice. */
static void run(const struct day *d, unsigned calls) {
    begin_day(d);
    all_counts();
    for (unsigned k = 0; k < calls; k++) any_call();
    all_counts();
    selection_taken();
    for (unsigned k = 0; k < 2 * day.rows; k++) put_in(k % day.rows);
    selection_taken();
    far_numbers();
    all_counts();
    for (unsigned k = 0; k < 2 * day.rows; k++) take_out(k % day.rows);
    all_counts();
}

/* Two copies of a tally in use go on by themselves. */
static void run_copies(const struct day *d, unsigned calls) {
    static struct {
        struct claims_tally tally;
        uint8_t in[MOST_ROWS];
    } copies[2];
    begin_day(d);
    for (unsigned k = 0; k < calls; k++) any_call();
    for (unsigned k = 0; k < 2; k++) copies[k].tally = *lent, memcpy(copies[k].in, in, sizeof in);
    for (unsigned k = 0; k < calls; k++) {
        unsigned which = below(2);
        place();
        *lent = copies[which].tally;
        memcpy(in, copies[which].in, sizeof in);
        recount();
        any_call();
        copies[which].tally = *lent;
        memcpy(copies[which].in, in, sizeof in);
    }
}

/* Groups and rows at the ends of what there can be: none, and the most. In the last day each limit is just reached. */
static void run_ends(void) {
    struct day none = {0}, no_rows = flat_day(3, 1, 2, TOP), most = flat_day(MOST_GROUPS, 2, MOST_GROUPS, 2);
    while (most.rows < MOST_ROWS) add_row(&most, most.rows % MOST_GROUPS, most.rows / 2, 0);
    run(&none, 20);
    run(&no_rows, 20);
    run(&most, 300);
}

/* Chains of 256 groups a side. Then the same with the largest limit below the top, which is lowered through the whole chain. */
static void run_chains(void) {
    static const uint16_t limits[] = {0, 1, 100, MOST_ROWS / 2, MOST_ROWS - 1, MOST_ROWS, TOP};
    for (unsigned k = 0; k < sizeof limits / sizeof *limits; k++, weekday = (weekday + 1) % WEEKDAYS) {
        struct day d = chain_day(limits[k]), high = chain_day(TOP);
        for (unsigned side = 0; side < 2; side++) high.limit[side][0] = limits[k];
        for (unsigned c = 0; c < MOST_ROWS; c++) high.group[c % 2][c] = (uint16_t)below(MOST_GROUPS);
        run(&d, 150);
        run(&high, 150);
    }
}

static void runs(void) {
    for (unsigned n = 0; n < 210; n++) {
        struct day d = random_day(1 + below(12), below(24));
        weekday = n % WEEKDAYS;
        run(&d, 100);
    }
    for (unsigned n = 0; n < 2 * WEEKDAYS; n++) {
        struct day d = random_day(MOST_GROUPS, MOST_ROWS), small = random_day(8, 24);
        weekday = n % WEEKDAYS;
        run(&d, 300);
        run_copies(&d, 100);
        run_copies(&small, 200);
    }
    run_ends();
    run_chains();
}

/* ---- Tallies that no call wrote ---- */

/* Makes a call, which ends. One that is refused, and a count, change nothing, and none changes what is around the tally. */
static void call_ends(unsigned which, unsigned of, unsigned side) {
    static struct claims_tally before;
    before = *lent;
    unsigned number = which == 0 ? claims_tally_put_in(lent, of) : which == 1 ? claims_tally_take_out(lent, of) : 1;
    if (which == 2) claims_tally_count(lent, side, of);
    expect(number == 0 || memcmp(&before, lent, sizeof before) == 0, "a call that is refused changed a tally that no call wrote");
    expect(rest_left_alone(), "memory around a tally that no call wrote was changed");
}

static void calls_end(unsigned calls) {
    for (unsigned k = 0; k < calls; k++)
        call_ends(k % 3, below(8) ? below(MOST_ROWS + 2) : far[below(FAR)], below(8) ? below(2) : far[below(FAR)]);
}

/* What a cell of 16 bits may hold, and one of 64 bits: numbers at an end, or about the number of nodes, or any. */
static uint16_t any_cell(void) {
    static const uint16_t ends[] = {0, 1, 255, 256, 257, 510, 511, 512, 513, 1023, 1024, 2047, 2048, 32767, 32768, 65534, 65535};
    unsigned how = below(8);
    return how == 0 ? (uint16_t)below(65536) : how == 1 ? (uint16_t)below(NODES + 8) : ends[below(sizeof ends / sizeof *ends)];
}

static uint64_t any_wide(void) {
    static const uint64_t ends[] = {0,   1,     255,   256,      257,        511,        512,        513,
                                    514, 65535, 65536, 1u << 31, UINT32_MAX, 1ull << 32, 1ull << 63, UINT64_MAX - 512, UINT64_MAX};
    return ends[below(sizeof ends / sizeof *ends)];
}

/* Any bytes, and any cells. */
static void arbitrary_tallies(void) {
    for (unsigned n = 0; n < 3000; n++) {
        place();
        for (size_t i = 0; i < sizeof *lent; i++) ((uint8_t *)lent)[i] = (uint8_t)below(256);
        for (unsigned i = 0; n % 3 && i < NODES; i++) {
            lent->parents[i] = any_cell(), lent->limits[i] = any_cell(), lent->counts[i] = any_cell();
            lent->card_nodes[i] = any_cell(), lent->shop_nodes[i] = any_cell(), lent->selection[i] = (uint8_t)below(2);
        }
        if (n % 2) lent->cards = any_wide(), lent->shops = any_wide(), lent->rows = any_wide();
        calls_end(30);
    }
}

/* A tally in use with one cell of 16 bits changed, each cell in turn; then one or more of the three numbers. */
static void damaged_tally(const struct day *d) {
    static struct claims_tally whole;
    begin_day(d);
    for (unsigned k = 0; k < 200; k++) any_call();
    whole = *lent;
    for (unsigned i = 0; i < sizeof whole / sizeof(uint16_t); i++)
        for (unsigned n = 0; n < 3; n++) {
            uint16_t cell = any_cell();
            place();
            *lent = whole;
            memcpy((uint8_t *)lent + i * sizeof cell, &cell, sizeof cell);
            for (unsigned which = 0; which < 3; which++) call_ends(which, i % MOST_ROWS, i % 2);
            calls_end(3);
        }
    for (unsigned n = 0; n < 3000; n++) {
        place();
        *lent = whole;
        unsigned which = 1 + n % 7;
        if (which & 1) lent->cards = any_wide();
        if (which & 2) lent->shops = any_wide();
        if (which & 4) lent->rows = any_wide();
        calls_end(12);
    }
}

/* Parents in circles, or with larger numbers than their children, with limits and counts at either end. */
static void circles(void) {
    for (unsigned n = 0; n < 600; n++) {
        place();
        memset(lent, 0, sizeof *lent);
        lent->cards = MOST_GROUPS, lent->shops = MOST_GROUPS, lent->rows = MOST_ROWS;
        memset(lent->limits, n % 2 ? 0xff : (int)below(256), sizeof lent->limits);
        memset(lent->counts, n % 4 ? 0 : 0xff, sizeof lent->counts);
        memset(lent->selection, n % 3 == 0, sizeof lent->selection);
        for (unsigned i = 0; i < NODES; i++) {
            unsigned above[] = {i,     i + 1, (i + 1) % NODES,         i ^ 1,         NODES - 1 - i,
                                i - 1, 0,     (i + NODES - 1) % NODES, NODES - 1, below(NODES + 1)};
            lent->parents[i] = (uint16_t)above[n % 10];
            lent->card_nodes[i] = (uint16_t)below(NODES + 1), lent->shop_nodes[i] = (uint16_t)below(NODES + 1);
        }
        calls_end(60);
    }
}

static void others_tallies(void) {
    struct day chain = chain_day(MOST_ROWS), forest = random_day(MOST_GROUPS, MOST_ROWS), small = random_day(6, 12);
    arbitrary_tallies();
    damaged_tally(&chain);
    damaged_tally(&forest);
    damaged_tally(&small);
    circles();
}

int main(void) {
    alarm(300); /* a call that does not end ends the test */
    map_pages();
    start_numbers(20270314);
    for (by = sorts; by < sorts + SORTS; by++) {
        for (weekday = 0; weekday < WEEKDAYS; weekday++) day_a_by_hand();
        weekday = 3;
        refused_beginnings();
        runs();
        part_done(by->name);
    }
    by = sorts;
    others_tallies();
    part_done("tallies that no call wrote");
    return all_done();
}
