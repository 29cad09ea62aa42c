/*
 * Tests of the codes, for each sort of file: refusals and lengths; worked days and a sample; small days against the definition, worked out
 * from every largest choice of earned rows; larger days against it from two of these choices; and for all of them how many of the rows with
 * a code are kept. On the weekdays that are not named a file has other limits, and they must not matter. A stored day is worked out with
 * its limits as they stand in the file, and compared with the same day lowered.
 */
#include <stdio.h>
#include <string.h>
#include "lent.h"
#include "sorts.h"

enum { SMALL_EARNED = 9, SMALL_ROWS = 12, CODES = 4 };

/* The sort whose turn it is, and the weekday that the calls name. */
static const struct sort *by;
static unsigned weekday;

static struct file file;

/* How many rows were turned down, of each code. */
static unsigned turned_down[CODES];

/* ---- The definition ---- */

/*
 * The exchange graph of a choice of earned rows that fits both sides, as section 4 of document 000 has it: card side first, shop side
 * second. Its nodes are the earned rows.
 *
 * chosen[y]           1 where row y is in the choice
 * joins[side][x]      1 where row x is not, and with it the choice fits the side
 * swaps[side][y][x]   1 where y is in the choice and x is not, and with x in place of y the choice fits the side
 */
static struct {
    uint8_t chosen[MOST_ROWS], joins[2][MOST_ROWS], swaps[2][MOST_ROWS][MOST_ROWS];
} graph;

/* Begins the graph of a choice: its earned rows, and no arc yet. */
static void start_graph(const struct day *d, const uint8_t *choice) {
    for (unsigned c = 0; c < d->rows; c++) graph.chosen[c] = choice[c] && d->kind[c];
    memset(graph.joins, 0, sizeof graph.joins);
    for (unsigned side = 0; side < 2; side++) memset(graph.swaps[side], 0, d->rows * sizeof *graph.swaps[side]);
}

/* The earned rows that are not in the choice. */
static int is_outside(const struct day *d, unsigned x) { return d->kind[x] && !graph.chosen[x]; }

/* The graph as it is defined: each exchange is tried. */
static void graph_plainly(const struct day *d, const uint8_t *choice) {
    uint8_t set[MOST_ROWS];
    start_graph(d, choice);
    memcpy(set, graph.chosen, d->rows);
    for (unsigned x = 0; x < d->rows; x++) {
        if (!is_outside(d, x)) continue;
        for (unsigned side = 0; side < 2; side++) {
            set[x] = 1;
            graph.joins[side][x] = (uint8_t)fits_side(d, side, set);
            for (unsigned y = 0; y < d->rows; y++) {
                if (!graph.chosen[y]) continue;
                set[y] = 0;
                graph.swaps[side][y][x] = (uint8_t)fits_side(d, side, set);
                set[y] = 1;
            }
            set[x] = 0;
        }
    }
}

/*
 * The same by places. Of the groups that a row outside counts in, the lowest that is full is what holds it: the row joins where there is
 * none, and it goes in for a chosen row that counts in that group, which then counts in all full groups above it too.
 */
static void side_by_places(const struct day *d, unsigned side) {
    static uint8_t counts_in[MOST_ROWS][MOST_GROUPS];
    unsigned count[MOST_GROUPS] = {0};
    memset(counts_in, 0, sizeof counts_in);
    for (unsigned y = 0; y < d->rows; y++)
        for (unsigned g = counts_from(d, side, y); g != TOP && graph.chosen[y]; g = d->parent[side][g]) counts_in[y][g] = 1, count[g]++;
    for (unsigned x = 0; x < d->rows; x++) {
        if (!is_outside(d, x)) continue;
        unsigned g = counts_from(d, side, x);
        while (g != TOP && count[g] < d->limit[side][g]) g = d->parent[side][g];
        graph.joins[side][x] = g == TOP;
        for (unsigned y = 0; y < d->rows; y++) graph.swaps[side][y][x] = graph.chosen[y] && (g == TOP || counts_in[y][g]);
    }
}

static void graph_by_places(const struct day *d, const uint8_t *choice) {
    start_graph(d, choice);
    for (unsigned side = 0; side < 2; side++) side_by_places(d, side);
}

/* An arc goes from a chosen row to one that goes in for it on the card side, and to a chosen row from one that does so on the shop side. */
static int has_arc(unsigned from, unsigned to) { return graph.chosen[from] ? graph.swaps[CARD][from][to] : graph.swaps[SHOP][to][from]; }

/* For the card side the rows that are reached from those that join it; for the shop side the rows from which those are reached. */
static void reach(const struct day *d, unsigned side, uint8_t *reached) {
    unsigned found[MOST_ROWS], count = 0;
    memcpy(reached, graph.joins[side], d->rows);
    for (unsigned x = 0; x < d->rows; x++)
        if (reached[x]) found[count++] = x;
    for (unsigned i = 0; i < count; i++)
        for (unsigned v = 0; v < d->rows; v++) {
            if (reached[v] || !(side == CARD ? has_arc(found[i], v) : has_arc(v, found[i]))) continue;
            reached[v] = 1;
            found[count++] = v;
        }
}

/* Whether the codes are those of the graph. Where the choice is a largest one, no row is in both sets. */
static int defined_by_graph(const struct day *d, const uint8_t *codes) {
    uint8_t reached[2][MOST_ROWS];
    for (unsigned side = 0; side < 2; side++) reach(d, side, reached[side]);
    for (unsigned c = 0; c < d->rows; c++) {
        unsigned code = CLAIMS_CODE_REST;
        if (reached[CARD][c]) code = CLAIMS_CODE_SHOP;
        if (reached[SHOP][c]) code = CLAIMS_CODE_CARD;
        if (d->kind[c] == 0) code = CLAIMS_CODE_ORDINARY;
        if (codes[c] != code || (reached[CARD][c] && reached[SHOP][c])) return 0;
    }
    return 1;
}

/* Whether a choice has as many of the rows with a code as fit the side together, at the most. */
static int as_many_as_fit(const struct day *d, const uint8_t *choice, const uint8_t *codes, unsigned code, unsigned side) {
    uint8_t coded[MOST_ROWS];
    unsigned count = 0;
    for (unsigned c = 0; c < d->rows; c++) {
        coded[c] = codes[c] == code;
        count += coded[c] && choice[c];
    }
    return count == rank_side(d, side, coded).rank;
}

/* Of the rows with code 1 a largest choice has as many as fit the shop side, and of those with code 2 as many as fit the card side. */
static void by_ranks(const struct day *d, const uint8_t *choice, const uint8_t *codes, const char *what) {
    expect(as_many_as_fit(d, choice, codes, CLAIMS_CODE_SHOP, SHOP), "%s: the shop rank of the rows with code 1", what);
    expect(as_many_as_fit(d, choice, codes, CLAIMS_CODE_CARD, CARD), "%s: the card rank of the rows with code 2", what);
}

/* ---- The call ---- */

/* Writes the codes of the file, with buffers of so many cells. The choice of c/lent.h is the code buffer; its sheet is not lent. */
static struct claims_write_codes_answer write_in(size_t codes, size_t scratch) {
    fill_lent();
    return by->write_codes(file.bytes, file.length, weekday, lent.choice, codes, lent.scratch, scratch);
}

/* The number is told, and 0 beside it, and no buffer is changed. */
static void turned_away(const char *what, size_t codes, size_t scratch, unsigned number) {
    struct claims_write_codes_answer r = write_in(codes, scratch);
    expect(r.refusal == number && r.length == 0 && untouched(0, 0, 0), "%s: %u, but must be %u", what, (unsigned)r.refusal, number);
}

/* Writes a file that holds a day on the weekday. */
static void write_file(const struct day *d) { write_among(d, form_of(by, weekday), &file); }

/* The codes of a day, with buffers longer than needed by `more` cells, and everything else that the call leaves. */
static void write_codes(const struct day *d, size_t more, uint8_t *codes, const char *what) {
    unsigned zero = 1;
    write_file(d);
    struct claims_write_codes_answer r = write_in(d->rows + more, cells_of(d) + more);
    for (size_t i = 0; i < cells_of(d); i++) zero &= lent.scratch[i] == 0;
    expect(r.refusal == 0 && r.length == d->rows, "%s: the answer", what);
    expect(zero, "%s: the scratch is not zero", what);
    expect(untouched(d->rows, 0, cells_of(d)), "%s: a cell past the needed ones is changed", what);
    memcpy(codes, lent.choice, d->rows);
}

/* The choice of a day as it is settled. */
static void settle(const struct day *d, uint8_t *choice) {
    static uint32_t sheet[CLAIMS_LONGEST_SHEET], scratch[CLAIMS_LONGEST_SCRATCH];
    write_file(d);
    struct claims_settle_answer r =
        by->settle(file.bytes, file.length, weekday, choice, MOST_ROWS, sheet, CLAIMS_LONGEST_SHEET, scratch, CLAIMS_LONGEST_SCRATCH);
    expect(r.refusal == 0, "a day is not settled");
}

/* A day in a stored file, or in one of the old layout, has the codes of the day lowered in a new one of the week layout. */
static void lowered_alike(const struct day *d, const uint8_t *codes, const char *what) {
    static uint8_t low_codes[MOST_ROWS];
    const struct sort *was = by;
    struct day low = lowered(d);
    by = &sorts[NEW_WEEK];
    write_codes(&low, 0, low_codes, what);
    by = was;
    expect(memcmp(codes, low_codes, d->rows) == 0, "%s: other codes for the day lowered", what);
}

/* ---- Worked days ---- */

static void worked(const char *name, const struct day *d, const char *must) {
    uint8_t codes[MOST_ROWS], choice[MOST_ROWS];
    write_codes(d, 0, codes, name);
    expect(memcmp(codes, must, d->rows) == 0, "%s: the codes", name);
    settle(d, choice);
    graph_plainly(d, choice);
    expect(defined_by_graph(d, codes), "%s: the definition has other codes", name);
    by_ranks(d, choice, codes, name);
    lowered_alike(d, codes, name);
}

/* Two card groups of limit 1, of which the second is in the first, a shop group of this limit, and two earned rows, which fit one card. */
static struct day one_card(unsigned shop_limit) {
    struct day d = flat_day(2, 1, 1, shop_limit);
    d.parent[CARD][1] = 0;
    add_row(&d, 1, 0, 1), add_row(&d, 1, 0, 1);
    return d;
}

/*
 * Rows 0 and 1 are kept. Row 3 counts in a card group with row 0 and in a shop group with row 1, and both have limit 1. But row 2, which
 * counts in no card group, could go in for row 0 on the shelf; then the card has a place for row 3, and the shelf alone holds it.
 */
static struct day handed_on(void) {
    struct day d = flat_day(2, 1, 2, 1);
    d.parent[CARD][1] = 0;
    add_row(&d, 1, 0, 1), add_row(&d, 0, 1, 1), add_row(&d, 0, 0, 1), add_row(&d, 1, 1, 1);
    return d;
}

/* Document 01's days, and small ones for each code. */
static void worked_days(void) {
    struct day a = day_a(), b = flat_day(3, 1, 3, 1), c = flat_day(1, 1, 1, 9), d = flat_day(1, 0, 1, 1), e = {0}, f = a, plain = a;
    struct day none = flat_day(3, 2, 2, 2), held_by_card = one_card(9), held_by_both = one_card(1), shut = one_card(0), path = handed_on();
    worked("day A", &a, "\3\0\0");
    b.limit[SHOP][0] = 2, b.limit[SHOP][1] = 5, b.parent[SHOP][1] = 0, b.parent[SHOP][2] = 0;
    add_row(&b, 0, 2, 0), add_row(&b, 1, 2, 1), add_row(&b, 2, 1, 0);
    b = day_for(by, b);
    worked("day B", &b, "\0\3\0");
    add_row(&c, 0, 0, 1), add_row(&c, 0, 0, 1);
    worked("day C", &c, "\3\3");
    add_row(&d, 0, 0, 1);
    worked("day D", &d, "\3");
    worked("day E", &e, "");
    f.kind[1] = f.kind[2] = 1;
    worked("day F", &f, "\1\3\1");
    plain.kind[0] = 0;
    worked("day A, all rows ordinary", &plain, "\0\0\0");
    worked("groups and no claims", &none, "");
    worked("a full card, and room on the shelf", &held_by_card, "\2\2");
    worked("a full card and a full shelf", &held_by_both, "\3\3");
    worked("a full card, and a shelf of limit 0", &shut, "\1\1");
    worked("a place that is handed on", &path, "\1\1\1\1");
}

/*
 * 256 groups a side in one chain, limits for the card group where earned rows begin to count and for the last shop group, and 512 rows at
 * the ends, every other one earned: all earned rows have one code.
 */
static void chain_has(unsigned card_limit, unsigned shop_limit, unsigned code) {
    struct day d = chain_day(TOP);
    char must[MOST_ROWS];
    d.limit[CARD][MOST_GROUPS - 2] = (uint16_t)card_limit, d.limit[SHOP][MOST_GROUPS - 1] = (uint16_t)shop_limit;
    d = day_for(by, d);
    for (unsigned c = 0; c < d.rows; c++) must[c] = (char)(d.kind[c] ? code : CLAIMS_CODE_ORDINARY);
    uint8_t codes[MOST_ROWS];
    write_codes(&d, 0, codes, "a chain");
    expect(memcmp(codes, must, d.rows) == 0, "a chain with limits %u and %u: not code %u", card_limit, shop_limit, code);
    lowered_alike(&d, codes, "a chain");
}

static void chains(void) {
    weekday = below(WEEKDAYS);
    enum { ALL = MOST_ROWS / 2 }; /* the earned rows */
    chain_has(TOP, TOP, CLAIMS_CODE_REST);
    chain_has(ALL, ALL, CLAIMS_CODE_REST);
    chain_has(ALL - 1, ALL, CLAIMS_CODE_CARD);
    chain_has(ALL, ALL - 1, CLAIMS_CODE_SHOP);
    chain_has(ALL - 1, ALL - 1, CLAIMS_CODE_REST);
    chain_has(3, 4, CLAIMS_CODE_CARD);
    chain_has(4, 3, CLAIMS_CODE_SHOP);
    chain_has(0, TOP, CLAIMS_CODE_CARD);
    chain_has(TOP, 0, CLAIMS_CODE_SHOP);
    chain_has(0, 0, CLAIMS_CODE_REST);
}

/*
 * A week whose codes tell the weekday. Two earned rows name a card group under a group of limit 1 on weekdays 0, 1 and 2 and of limit 2 on
 * the others; their shelf has limit 1 on every other weekday, and else 9. So the card holds them, or the shelf, or both, or neither.
 */
static void each_weekday(void) {
    struct day d = one_card(9);
    struct week w = every_day(&d);
    for (unsigned k = 0; k < WEEKDAYS; k++) {
        w.on[k].limit[CARD][0] = k < 3 ? 1 : 2;
        if (k % 2) w.on[k].limit[SHOP][0] = 1;
    }
    write_week(&w, WEEK, &file);
    for (weekday = 0; weekday < WEEKDAYS; weekday++) {
        unsigned card = weekday < 3, shop = weekday % 2;
        unsigned code = card == shop ? CLAIMS_CODE_REST : card ? CLAIMS_CODE_CARD : CLAIMS_CODE_SHOP;
        struct claims_write_codes_answer r = write_in(2, cells_of(&d));
        expect(r.refusal == 0 && lent.choice[0] == code && lent.choice[1] == code, "weekday %u: not code %u", weekday, code);
    }
    weekday = 0;
}

/* ---- The sample ---- */

static FILE *open_sample(const char *name) {
    FILE *in = fopen(name, "rb");
    expect(in != NULL, "%s cannot be read", name);
    return in;
}

/* The sample's rows have the codes that stand beside it, a line a row: the row and its code. Rows are turned down with each code. */
static void sample(void) {
    FILE *claims = open_sample("samples/held.claims"), *lines = open_sample("samples/held.codes");
    struct day d = {0};
    uint8_t codes[MOST_ROWS], choice[MOST_ROWS];
    unsigned row, code, count = 0, down[CODES] = {0};
    if (claims == NULL || lines == NULL) return;
    file.length = fread(file.bytes, 1, sizeof file.bytes, claims);
    expect(read_day(file.bytes, file.length, form_of(&sorts[NEW_WEEK], 0), &d) == 0, "the sample is a new file");
    write_codes(&d, 0, codes, "the sample");
    settle(&d, choice);
    for (; fscanf(lines, "%u %u", &row, &code) == 2 && count < d.rows; count++) {
        expect(row == count && code == codes[count], "the sample: row %u", count);
        down[codes[count]] += !choice[count];
    }
    expect(count == d.rows && fgetc(lines) == EOF, "the sample: %u lines for %u rows", count, d.rows);
    for (code = 0; code < CODES; code++) expect(down[code] > 0, "the sample: no row with code %u is turned down", code);
    fclose(claims);
    fclose(lines);
}

/* ---- Refusals and lengths ---- */

/* Buffers exact, longer, and one short, each by itself. */
static void lengths(const struct day *d) {
    uint8_t codes[2][MOST_ROWS];
    for (unsigned more = 0; more <= PAST; more += PAST) write_codes(d, more, codes[more > 0], "exact or longer");
    expect(memcmp(codes[0], codes[1], d->rows) == 0, "other codes with longer buffers");
    if (d->rows > 0) turned_away("codes one short", d->rows - 1, SCRATCH_CELLS, CLAIMS_SHORT);
    if (cells_of(d) > 0) turned_away("scratch one short", CHOICE_CELLS, cells_of(d) - 1, CLAIMS_SHORT);
    if (d->rows > 0) turned_away("both short", d->rows - 1, cells_of(d) - 1, CLAIMS_SHORT);
    if (d->rows > 0) turned_away("no buffer", 0, 0, CLAIMS_SHORT);
    file.length--;
    turned_away("the file's own fault before short buffers", 0, 0, CLAIMS_CUT_OFF);
    turned_away("the file's own fault", CHOICE_CELLS, SCRATCH_CELLS, CLAIMS_CUT_OFF);
    file.length++;
    file.bytes[file.length++] = 0;
    turned_away("one byte too many", CHOICE_CELLS, SCRATCH_CELLS, CLAIMS_TRAILING);
}

/* A day that the week does not have, judged after the file and the lengths. */
static void no_such_day(const struct day *d) {
    for (unsigned k = 0; k < NO_WEEKDAYS; k++) {
        weekday = no_weekdays[k];
        write_file(d);
        turned_away("day over 6", d->rows, cells_of(d), CLAIMS_DAY);
        turned_away("day over 6, longer buffers", CHOICE_CELLS, SCRATCH_CELLS, CLAIMS_DAY);
        if (d->rows > 0) turned_away("day over 6, codes one short", d->rows - 1, cells_of(d), CLAIMS_SHORT);
        if (cells_of(d) > 0) turned_away("day over 6, scratch one short", d->rows, cells_of(d) - 1, CLAIMS_SHORT);
        file.length--;
        turned_away("day over 6, the file's own fault", CHOICE_CELLS, SCRATCH_CELLS, CLAIMS_CUT_OFF);
    }
}

static void refusals(void) {
    struct day a = day_a(), empty = {0}, none = flat_day(3, 2, 2, 2), largest = flat_day(MOST_GROUPS, 1, MOST_GROUPS, 1);
    draw_rows(&largest, MOST_ROWS, 2);
    no_such_day(&a);
    no_such_day(&empty);
    no_such_day(&largest);
    weekday = WEEKDAYS - 1;
    lengths(&a);
    lengths(&empty);
    lengths(&none);
    lengths(&largest);
    for (int n = 0; n < 25; n++) {
        struct day d = day_for(by, random_day(20, 40));
        weekday = below(WEEKDAYS);
        lengths(&d);
    }
    struct day high = flat_day(2, 1, 1, 1);
    high.parent[CARD][1] = 0, high.limit[CARD][1] = 2;
    write_day(&high, by->layout, &file);
    if (by->stored == NEW) turned_away("a limit above its parent's", CHOICE_CELLS, SCRATCH_CELLS, CLAIMS_LIMIT_ABOVE);
}

/* ---- Random days ---- */

/* The selection whose rows are the ones of a number: row 0 is the lowest bit. Whether all its rows are earned, and it fits both sides. */
static int select_earned(const struct day *d, unsigned bits, uint8_t *selection) {
    for (unsigned c = 0; c < d->rows; c++) {
        selection[c] = bits >> c & 1;
        if (selection[c] && !d->kind[c]) return 0;
    }
    return fits_day(d, selection);
}

/* Every largest choice of earned rows gives the codes, by its graph found in either way. Answers how many there are. */
static unsigned from_every_choice(const struct day *d, const uint8_t *codes) {
    uint8_t choice[MOST_ROWS];
    unsigned most = 0, choices = 0;
    for (unsigned bits = 0; bits < 1u << d->rows; bits++)
        if (select_earned(d, bits, choice) && count_rows(d, choice, 1) > most) most = count_rows(d, choice, 1);
    for (unsigned bits = 0; bits < 1u << d->rows; bits++) {
        if (!select_earned(d, bits, choice) || count_rows(d, choice, 1) != most) continue;
        choices++;
        graph_plainly(d, choice);
        expect(defined_by_graph(d, codes), "a largest choice has other codes");
        graph_by_places(d, choice);
        expect(defined_by_graph(d, codes), "a largest choice has other codes by places");
        by_ranks(d, choice, codes, "a largest choice");
    }
    return choices;
}

/* A small day, with at most 9 earned rows. On every other one few card groups are at the top, so that most earned rows count in some. */
static struct day small_day(unsigned n) {
    struct day d = random_day(8, SMALL_ROWS);
    if (n % 2) hang_forest(&d, CARD, below(5), 100);
    if (n % 3) memset(d.kind, 1, d.rows);
    for (unsigned c = SMALL_EARNED; c < d.rows; c++) d.kind[c] = 0;
    return day_for(by, d);
}

static void count_down(const struct day *d, const uint8_t *choice, const uint8_t *codes) {
    for (unsigned c = 0; c < d->rows; c++)
        if (!choice[c]) turned_down[codes[c] % CODES]++;
}

/* Rows were turned down with every code, so that the days tell them apart. */
static void all_codes_seen(const char *what) {
    for (unsigned code = 0; code < CODES; code++) {
        expect(turned_down[code] > 20, "%s: %u rows are turned down with code %u", what, turned_down[code], code);
        turned_down[code] = 0;
    }
}

static void small_days(void) {
    unsigned several = 0;
    for (unsigned n = 0; n < 1500; n++) {
        struct day d = small_day(n);
        weekday = below(WEEKDAYS);
        uint8_t codes[MOST_ROWS], choice[MOST_ROWS];
        write_codes(&d, below(2) ? PAST : 0, codes, "a small day");
        several += from_every_choice(&d, codes) > 1;
        settle(&d, choice);
        by_ranks(&d, choice, codes, "a small day");
        lowered_alike(&d, codes, "a small day");
        count_down(&d, choice, codes);
    }
    expect(several > 500, "only %u small days have several largest choices", several);
    all_codes_seen("small days");
}

/* ---- Which limits to raise, as claims.h says it ---- */

static unsigned earned_of(const struct day *d) {
    uint8_t choice[MOST_ROWS];
    settle(d, choice);
    return count_rows(d, choice, 1);
}

/* How many kept rows have a code, or with two different ones either of them. */
static unsigned kept_with(const struct day *d, const uint8_t *codes, unsigned one, unsigned other) {
    uint8_t choice[MOST_ROWS];
    unsigned count = 0;
    settle(d, choice);
    for (unsigned c = 0; c < d->rows; c++) count += choice[c] && (codes[c] == one || codes[c] == other);
    return count;
}

/* The limit of each group of a side that a row counts in is raised by one. */
static void raise_own(struct day *d, unsigned side, unsigned row) {
    for (unsigned g = counts_from(d, side, row); g != TOP; g = d->parent[side][g])
        if (d->limit[side][g] < TOP) d->limit[side][g]++;
}

/* All limits of a side are raised, as far as there are numbers. */
static struct day far_up(const struct day *d, unsigned side) {
    struct day up = *d;
    for (unsigned g = 0; g < d->groups[side]; g++) up.limit[side][g] = TOP;
    return up;
}

/* A row that is turned down: its own groups on the side that holds it bring one earned row more, on both sides at least one. */
static void raised_for(const struct day *d, unsigned row, unsigned code, unsigned earned) {
    struct day up = *d;
    if (code != CLAIMS_CODE_CARD) raise_own(&up, SHOP, row);
    if (code != CLAIMS_CODE_SHOP) raise_own(&up, CARD, row);
    unsigned more = earned_of(&up);
    expect(code == CLAIMS_CODE_REST ? more > earned : more == earned + 1, "row %u, code %u, limits raised: %u earned rows, before %u", row,
           code, more, earned);
}

/* Limits of one side alone, raised far. */
static void raised_alone(const struct day *d, const uint8_t *codes) {
    static const unsigned holds[] = {[CARD] = CLAIMS_CODE_CARD, [SHOP] = CLAIMS_CODE_SHOP};
    unsigned earned = earned_of(d);
    for (unsigned side = 0; side < 2; side++) {
        struct day up = far_up(d, side);
        unsigned other = holds[1 - side], some = 0;
        for (unsigned c = 0; c < d->rows; c++) some |= codes[c] == holds[side];
        expect(some ? earned_of(&up) > earned : earned_of(&up) == earned, "side %u far up: %u earned rows, before %u", side, earned_of(&up),
               earned);
        expect(kept_with(&up, codes, other, other) <= kept_with(d, codes, other, other), "side %u far up: more rows with code %u", side,
               other);
        expect(kept_with(&up, codes, other, CLAIMS_CODE_REST) <= kept_with(d, codes, other, CLAIMS_CODE_REST),
               "side %u far up: more rows with codes %u and 3", side, other);
    }
}

/* A day of three rows has these codes, and these rows are kept, before and after the limit of shop group 0 is raised by one. */
static void shelf_raised(struct day d, const char *must_codes, const char *before, const char *after, const char *what) {
    uint8_t codes[MOST_ROWS], choice[MOST_ROWS];
    write_codes(&d, 0, codes, what);
    settle(&d, choice);
    expect(memcmp(codes, must_codes, 3) == 0 && memcmp(choice, before, 3) == 0, "%s: the codes, and the rows kept", what);
    d.limit[SHOP][0]++;
    settle(&d, choice);
    expect(memcmp(choice, after, 3) == 0, "%s: the rows kept with a raised shelf", what);
}

/*
 * What one side alone can do for rows with code 3. In the first day rows 0 and 1 share a shelf of limit 1, and rows 1 and 2 a card group of
 * limit 1: a raised shelf keeps row 1 in the place of row 2, and as many rows. In the second row 2 counts in a card group of limit 0: a
 * raised shelf keeps one row more, which has code 1, and not row 2.
 */
static void one_side_alone(void) {
    struct day swapped = flat_day(4, 1, 2, 1), another = flat_day(3, 0, 1, 1);
    swapped.parent[CARD][1] = 0, swapped.parent[CARD][3] = 2;
    add_row(&swapped, 1, 0, 1), add_row(&swapped, 3, 0, 1), add_row(&swapped, 3, 1, 1);
    shelf_raised(swapped, "\3\3\3", "\1\0\1", "\1\1\0", "a row with code 3 in the place of another");
    another.parent[CARD][1] = 0, another.limit[CARD][2] = 5;
    add_row(&another, 2, 0, 1), add_row(&another, 2, 0, 1), add_row(&another, 1, 0, 1);
    shelf_raised(another, "\1\1\3", "\1\0\0", "\1\1\0", "one row more, with another code");
}

/* A stored day is taken lowered, so that the limits that are raised are those that count. */
static void limits_raised(void) {
    for (unsigned n = 0; n < 750; n++) {
        weekday = below(WEEKDAYS);
        struct day drawn = n % 3 ? small_day(n) : day_for(by, random_day(30, 90)), d = lowered(&drawn);
        uint8_t codes[MOST_ROWS], choice[MOST_ROWS];
        write_codes(&d, 0, codes, "a day whose limits are raised");
        settle(&d, choice);
        unsigned earned = count_rows(&d, choice, 1);
        for (unsigned c = 0; c < d.rows; c++)
            if (d.kind[c] && !choice[c]) raised_for(&d, c, codes[c], earned);
        raised_alone(&d, codes);
        count_down(&d, choice, codes);
    }
    all_codes_seen("days whose limits are raised");
}

/* The rows in the opposite order. */
static struct day turned_round(const struct day *d) {
    struct day r = *d;
    for (unsigned c = 0; c < d->rows; c++) {
        unsigned from = d->rows - 1 - c;
        for (unsigned side = 0; side < 2; side++) r.group[side][c] = d->group[side][from];
        r.kind[c] = d->kind[from];
    }
    return r;
}

/*
 * The codes of a day, from the earned rows that are kept of it: no arc leaves the rows with code 1, none enters those with code 2, and each
 * of these rows is reached. With the rows in the opposite order other rows are kept, and each row has the same code.
 */
static void one_day(const struct day *d, const char *what) {
    uint8_t codes[MOST_ROWS], round_codes[MOST_ROWS], choice[MOST_ROWS];
    struct day round = turned_round(d);
    weekday = below(WEEKDAYS);
    write_codes(d, 0, codes, what);
    settle(d, choice);
    graph_by_places(d, choice);
    expect(defined_by_graph(d, codes), "%s: the definition has other codes", what);
    by_ranks(d, choice, codes, what);
    lowered_alike(d, codes, what);
    count_down(d, choice, codes);
    write_codes(&round, 0, round_codes, what);
    settle(&round, choice);
    graph_by_places(&round, choice);
    expect(defined_by_graph(&round, round_codes), "%s: the definition has other codes from the last row to the first", what);
    unsigned other = 0;
    for (unsigned c = 0; c < d->rows; c++) other += codes[c] != round_codes[d->rows - 1 - c];
    expect(other == 0, "%s: %u rows have another code from the last row to the first", what, other);
}

/* A day of the largest size: flat, in chains, and in forests of two shapes, with small limits; all rows earned, none, or some. */
static struct day large_day(unsigned n) {
    struct day d = flat_day(MOST_GROUPS, 1, MOST_GROUPS, 1);
    for (unsigned side = 0; side < 2; side++) {
        switch ((n + side * (n / 8)) % 4) {
        case 1: hang_chains(&d, side, 1 + below(60)); break;
        case 2: hang_forest(&d, side, 0, MOST_GROUPS); break;
        case 3: hang_forest(&d, side, 4, 8); break;
        }
        for (unsigned g = 0; g < MOST_GROUPS; g++) d.limit[side][g] = (uint16_t)(below(20) == 0 ? 0 : 1 + below(n % 5 ? 4 : 60));
    }
    draw_rows(&d, MOST_ROWS, 2);
    if (n % 3) memset(d.kind, 1, MOST_ROWS);
    if (n % 16 == 15) memset(d.kind, 0, MOST_ROWS);
    return day_for(by, d);
}

static void larger_days(void) {
    for (int n = 0; n < 200; n++) {
        struct day d = day_for(by, random_day(40, 120));
        one_day(&d, "a day of middle size");
    }
    for (int n = 0; n < 30; n++) {
        struct day d = day_for(by, random_day(MOST_GROUPS, MOST_ROWS));
        one_day(&d, "a large day");
    }
    for (unsigned n = 0; n < 64; n++) {
        struct day d = large_day(n);
        one_day(&d, "a day of the largest size");
    }
    all_codes_seen("larger days");
}

int main(void) {
    for (by = sorts; by < sorts + SORTS; by++) {
        printf("%s\n", by->name);
        start_numbers(20270307);
        for (weekday = 0; weekday < WEEKDAYS; weekday++) worked_days();
        chains();
        sample();
        if (by->layout == WEEK) each_weekday();
        part_done("worked days and the sample");
        refusals();
        part_done("refusals and lengths");
        small_days();
        part_done("small days, from every largest choice");
        larger_days();
        part_done("larger days");
        one_side_alone();
        limits_raised();
        part_done("limits raised");
    }
    return all_done();
}
