/* The day, its file, days drawn at random, plain answers and the count of cases. c/day.h says what each function is for. */
#include "day.h"

#include <stdarg.h>
#include <stdio.h>
#include <string.h>

/* ---- The day and its file ---- */

const unsigned no_weekdays[NO_WEEKDAYS] = {WEEKDAYS, WEEKDAYS + 1, UINT8_MAX + 1, TOP + 1, UINT32_MAX};

/* The day with limits that are drawn at random. */
static struct day with_other_limits(const struct day *d) {
    struct day other = *d;
    for (unsigned side = 0; side < 2; side++) draw_limits(&other, side, 1 + d->rows / 4);
    return other;
}

uint8_t *put16(uint8_t *at, unsigned x) {
    at[0] = (uint8_t)x;
    at[1] = (uint8_t)(x >> 8);
    return at + 2;
}

/* How many limits stand in a group record. */
static unsigned limits_in(unsigned layout) { return layout == WEEK ? WEEKDAYS : 1; }

/* One group section of a week that is given day by day. */
static uint8_t *put_groups(uint8_t *at, const struct day *const *days, unsigned layout, unsigned side) {
    at = put16(at, days[0]->groups[side]);
    for (unsigned g = 0; g < days[0]->groups[side]; g++) {
        at = put16(at, days[0]->parent[side][g]);
        for (unsigned k = 0; k < limits_in(layout); k++) at = put16(at, days[k]->limit[side][g]);
    }
    return at;
}

static void write_days(const struct day *const *days, unsigned layout, struct file *f) {
    const struct day *d = days[0];
    uint8_t *at = f->bytes;
    for (unsigned side = 0; side < 2; side++) at = put_groups(at, days, layout, side);
    at = put16(at, d->rows);
    for (unsigned c = 0; c < d->rows; c++) {
        at = put16(put16(at, d->group[CARD][c]), d->group[SHOP][c]);
        *at++ = d->kind[c];
    }
    f->length = (size_t)(at - f->bytes);
}

void write_week(const struct week *w, unsigned layout, struct file *f) {
    const struct day *days[WEEKDAYS];
    for (unsigned k = 0; k < WEEKDAYS; k++) days[k] = &w->on[k];
    write_days(days, layout, f);
}

void write_day(const struct day *d, unsigned layout, struct file *f) {
    const struct day *days[WEEKDAYS] = {d, d, d, d, d, d, d};
    write_days(days, layout, f);
}

/* The other weekdays take turns with two days of other limits. */
void write_among(const struct day *d, struct form form, struct file *f) {
    static struct day others[2];
    const struct day *days[WEEKDAYS] = {d};
    for (unsigned k = 0; k < 2 && form.layout == WEEK; k++) {
        others[k] = with_other_limits(d);
        if (form.stored == NEW) others[k] = lowered(&others[k]);
    }
    for (unsigned k = 0; k < WEEKDAYS && form.layout == WEEK; k++) days[k] = k == form.weekday ? d : &others[k % 2];
    write_days(days, form.layout, f);
}

/* Whether one of the limits of a group record is above that of its parent's record. */
static inline int has_above(const uint8_t *own, const uint8_t *parent, unsigned limits) {
    for (unsigned k = 1; k <= limits; k++)
        if (get16(own + 2 * k) > get16(parent + 2 * k)) return 1;
    return 0;
}

/* The group section of a side from *at on, with records of so many limits, of which number `column` is taken. */
static inline unsigned read_groups(const uint8_t *file, size_t length, unsigned limits, unsigned column, unsigned stored, size_t *at,
                                   struct day *d, unsigned side) {
    uint16_t *parent = d->parent[side], *limit = d->limit[side];
    unsigned width = 2 + 2 * limits;
    if (length - *at < 2) return 1;
    unsigned groups = get16(file + *at);
    if (groups > MOST_GROUPS) return 2;
    const uint8_t *start = file + (*at += 2);
    for (unsigned g = 0; g < groups; g++, *at += width) {
        if (length - *at < width) return 1;
        const uint8_t *own = file + *at;
        unsigned above = get16(own);
        parent[g] = (uint16_t)above;
        limit[g] = (uint16_t)get16(own + 2 + 2 * column);
        if (above == TOP) continue;
        if (above >= g) return 3;
        if (stored == NEW && has_above(own, start + width * above, limits)) return 11;
    }
    d->groups[side] = groups;
    return 0;
}

static unsigned read_rows(const uint8_t *file, size_t length, unsigned kinds, size_t *at, struct day *d) {
    if (length - *at < 2) return 1;
    unsigned rows = get16(file + *at);
    if (rows > MOST_ROWS) return 4;
    *at += 2;
    for (unsigned c = 0; c < rows; c++, *at += 5) {
        if (length - *at < 5) return 1;
        d->group[CARD][c] = (uint16_t)get16(file + *at);
        d->group[SHOP][c] = (uint16_t)get16(file + *at + 2);
        d->kind[c] = file[*at + 4];
        if (d->group[CARD][c] >= d->groups[CARD] || d->group[SHOP][c] >= d->groups[SHOP]) return 5;
        if (d->kind[c] >= kinds) return 6;
    }
    d->rows = rows;
    return 0;
}

/* The numbers of limits are given as they are known, so that each layout has a reader of its own. */
unsigned read_day(const uint8_t *file, size_t length, struct form form, struct day *d) {
    size_t at = 0;
    unsigned fault = 0;
    for (unsigned side = 0; side < 2 && !fault; side++) {
        if (form.layout == WEEK)
            fault = read_groups(file, length, WEEKDAYS, form.weekday, form.stored, &at, d, side);
        else
            fault = read_groups(file, length, 1, 0, form.stored, &at, d, side);
    }
    if (!fault) fault = read_rows(file, length, form.kinds, &at, d);
    return fault ? fault : at < length ? 7 : 0;
}

/* Whether the limit of a group is above its parent's. */
static int is_above(const struct day *d, unsigned side, unsigned g) {
    unsigned parent = d->parent[side][g];
    return parent != TOP && d->limit[side][g] > d->limit[side][parent];
}

int is_new(const struct day *d) {
    for (unsigned side = 0; side < 2; side++)
        for (unsigned g = 0; g < d->groups[side]; g++)
            if (is_above(d, side, g)) return 0;
    return 1;
}

struct day lowered(const struct day *d) {
    struct day low = *d;
    for (unsigned side = 0; side < 2; side++)
        for (unsigned g = 0; g < d->groups[side]; g++)
            if (is_above(&low, side, g)) low.limit[side][g] = low.limit[side][d->parent[side][g]];
    return low;
}

int is_new_week(const struct week *w) {
    for (unsigned k = 0; k < WEEKDAYS; k++)
        if (!is_new(&w->on[k])) return 0;
    return 1;
}

struct week lowered_week(const struct week *w) {
    struct week low;
    for (unsigned k = 0; k < WEEKDAYS; k++) low.on[k] = lowered(&w->on[k]);
    return low;
}

/* ---- Days, made and drawn ---- */

struct day flat_day(unsigned cards, unsigned card_limit, unsigned shops, unsigned shop_limit) {
    struct day d = {.groups = {cards, shops}};
    for (int side = 0; side < 2; side++)
        for (unsigned g = 0; g < d.groups[side]; g++) {
            d.parent[side][g] = TOP;
            d.limit[side][g] = (uint16_t)(side == CARD ? card_limit : shop_limit);
        }
    return d;
}

void add_row(struct day *d, unsigned card, unsigned shop, unsigned kind) {
    d->group[CARD][d->rows] = (uint16_t)card;
    d->group[SHOP][d->rows] = (uint16_t)shop;
    d->kind[d->rows++] = (uint8_t)kind;
}

struct day day_a(void) {
    struct day a = flat_day(2, 1, 2, 1);
    add_row(&a, 0, 0, 1), add_row(&a, 0, 1, 0), add_row(&a, 1, 0, 0);
    return a;
}

struct day chain_day(unsigned limit) {
    struct day d = flat_day(MOST_GROUPS, limit, MOST_GROUPS, limit);
    for (unsigned side = 0; side < 2; side++) hang_chains(&d, side, 1);
    while (d.rows < MOST_ROWS) add_row(&d, MOST_GROUPS - 1, MOST_GROUPS - 1, d.rows % 2);
    return d;
}

static uint64_t state;

void start_numbers(uint64_t seed) { state = seed; }

/* The method is known as splitmix64. */
unsigned below(unsigned n) {
    uint64_t x = state += 0x9e3779b97f4a7c15u;
    x = (x ^ x >> 30) * 0xbf58476d1ce4e5b9u;
    x = (x ^ x >> 27) * 0x94d049bb133111ebu;
    return (unsigned)((x ^ x >> 31) % n);
}

void hang_chains(struct day *d, unsigned side, unsigned chains) {
    for (unsigned g = 0; g < d->groups[side]; g++) d->parent[side][g] = (uint16_t)(g < chains ? TOP : g - chains);
}

void hang_forest(struct day *d, unsigned side, unsigned chained, unsigned tops) {
    for (unsigned g = 0; g < d->groups[side]; g++) {
        unsigned parent;
        if (g == 0)
            parent = TOP;
        else if (chained && below(8) < chained)
            parent = g - 1;
        else
            parent = below(tops) == 0 ? TOP : below(g);
        d->parent[side][g] = (uint16_t)parent;
    }
}

void draw_limits(struct day *d, unsigned side, unsigned most) {
    for (unsigned g = 0; g < d->groups[side]; g++)
        d->limit[side][g] = (uint16_t)(below(16) == 0 ? TOP : below(12) == 0 ? 0 : 1 + below(most));
}

void draw_side(struct day *d, unsigned side, unsigned count, unsigned most) {
    d->groups[side] = count;
    hang_forest(d, side, below(3) ? 0 : below(9), 3);
    draw_limits(d, side, most);
}

void draw_rows(struct day *d, unsigned count, unsigned kinds) {
    for (; count > 0; count--) {
        unsigned card = below(d->groups[CARD]), shop = below(d->groups[SHOP]);
        add_row(d, card, shop, below(kinds));
    }
}

struct day random_day(unsigned groups, unsigned rows) {
    struct day d = {0};
    for (unsigned side = 0; side < 2; side++) draw_side(&d, side, 1 + below(groups), 1 + below(1 + rows / 4));
    draw_rows(&d, below(rows + 1), 2);
    return d;
}

struct week every_day(const struct day *d) {
    struct week w;
    for (unsigned k = 0; k < WEEKDAYS; k++) w.on[k] = *d;
    return w;
}

struct week drawn_week(const struct day *d, unsigned weekday) {
    struct week w;
    for (unsigned k = 0; k < WEEKDAYS; k++) w.on[k] = k == weekday ? *d : with_other_limits(d);
    return w;
}

/* ---- Plain answers ---- */

unsigned count_rows(const struct day *d, const uint8_t *selection, unsigned least) {
    unsigned count = 0;
    for (unsigned c = 0; c < d->rows; c++) count += selection[c] && d->kind[c] >= least;
    return count;
}

int fits_side(const struct day *d, unsigned side, const uint8_t *selection) {
    unsigned count[MOST_GROUPS] = {0};
    for (unsigned c = 0; c < d->rows; c++) {
        if (!selection[c]) continue;
        for (unsigned g = counts_from(d, side, c); g != TOP; g = d->parent[side][g])
            if (++count[g] > d->limit[side][g]) return 0;
    }
    return 1;
}

int fits_day(const struct day *d, const uint8_t *selection) { return fits_side(d, CARD, selection) && fits_side(d, SHOP, selection); }

/* The cell of a group among the counts of a side, of which the last is for the top. */
static unsigned cell_of(unsigned g) { return g < MOST_GROUPS ? g : MOST_GROUPS; }

struct ranked rank_side(const struct day *d, unsigned side, const uint8_t *selection) {
    unsigned come[MOST_GROUPS + 1] = {0};
    struct ranked r = {1, 0};
    for (unsigned c = 0; c < d->rows; c++) come[cell_of(counts_from(d, side, c))] += selection[c];
    for (unsigned g = d->groups[side]; g-- > 0;) {
        unsigned pass = come[g];
        if (pass > d->limit[side][g]) {
            pass = d->limit[side][g];
            r.fits = 0;
        }
        come[cell_of(d->parent[side][g])] += pass;
    }
    r.rank = come[MOST_GROUPS];
    return r;
}

/* Takes a place in each group from g up, where each has one left. */
static unsigned take_places(uint16_t *places, const uint16_t *parent, unsigned g) {
    for (unsigned v = g; v != TOP; v = parent[v])
        if (places[v] == 0) return 0;
    for (unsigned v = g; v != TOP; v = parent[v]) places[v]--;
    return 1;
}

struct ranked rank_greedily(const struct day *d, unsigned side, const uint8_t *selection) {
    uint16_t places[MOST_GROUPS];
    struct ranked r = {1, 0};
    memcpy(places, d->limit[side], d->groups[side] * sizeof *places);
    for (unsigned c = 0; c < d->rows; c++) {
        if (!selection[c]) continue;
        unsigned taken = take_places(places, d->parent[side], counts_from(d, side, c));
        r.rank += taken;
        r.fits &= taken;
    }
    return r;
}

/* The rows of a set, one a bit: row 0 is the lowest bit. */
static void set_of(unsigned bits, unsigned rows, uint8_t *set) {
    for (unsigned c = 0; c < rows; c++) set[c] = bits >> c & 1;
}

struct ranked rank_by_search(const struct day *d, unsigned side, const uint8_t *selection) {
    uint8_t set[32]; /* one cell for each bit of a number */
    unsigned selected = 0;
    struct ranked r = {(unsigned)fits_side(d, side, selection), 0};
    for (unsigned c = 0; c < d->rows; c++) selected |= (unsigned)selection[c] << c;
    for (unsigned bits = 0; bits < 1u << d->rows; bits++) {
        if (bits & ~selected) continue; /* no subset */
        set_of(bits, d->rows, set);
        unsigned count = count_rows(d, set, 0);
        if (count > r.rank && fits_side(d, side, set)) r.rank = count;
    }
    return r;
}

/* Whether a selection has more rows of the highest kind in which it differs from another, or else the first row in which it differs. */
static int is_better(const struct day *d, unsigned kinds, const uint8_t *one, const uint8_t *other) {
    for (unsigned kind = kinds; kind-- > 0;) {
        int more = 0;
        for (unsigned c = 0; c < d->rows; c++)
            if (d->kind[c] == kind) more += one[c] - other[c];
        if (more != 0) return more > 0;
    }
    for (unsigned c = 0; c < d->rows; c++)
        if (one[c] != other[c]) return one[c];
    return 0;
}

void search_all(const struct day *d, unsigned kinds, uint8_t *best) {
    uint8_t set[32]; /* one cell for each bit of a number */
    memset(best, 0, d->rows);
    for (unsigned bits = 0; bits < 1u << d->rows; bits++) {
        set_of(bits, d->rows, set);
        if (is_better(d, kinds, set, best) && fits_day(d, set)) memcpy(best, set, d->rows);
    }
}

uint64_t weight_of(const struct day *d, unsigned kind) {
    uint64_t weight = 1;
    while (kind--) weight *= d->rows + 1;
    return weight;
}

uint64_t worth_of(const struct day *d, const uint8_t *choice) {
    uint64_t worth = 0;
    for (unsigned c = 0; c < d->rows; c++)
        if (choice[c]) worth += weight_of(d, d->kind[c]);
    return worth;
}

int certified_wide(const struct day *d, unsigned kinds, const uint8_t *choice, const uint64_t *sheet) {
    const uint64_t *marks[2] = {sheet, sheet + d->groups[CARD]}, *row_marks = sheet + d->groups[CARD] + d->groups[SHOP];
    uint64_t total = 0, most = weight_of(d, kinds - 1);
    for (int side = 0; side < 2; side++)
        for (unsigned g = 0; g < d->groups[side]; g++) {
            if (marks[side][g] > most) return 0;
            total += d->limit[side][g] * marks[side][g];
        }
    for (unsigned c = 0; c < d->rows; c++) {
        uint64_t paid = row_marks[c];
        if (paid > most) return 0;
        total += paid;
        for (int side = 0; side < 2; side++)
            for (unsigned g = counts_from(d, side, c); g != TOP; g = d->parent[side][g]) paid += marks[side][g];
        if (paid < weight_of(d, d->kind[c])) return 0;
    }
    return total == worth_of(d, choice);
}

int certified(const struct day *d, unsigned kinds, const uint8_t *choice, const uint32_t *sheet) {
    uint64_t wide[MOST_MARKS];
    for (size_t i = 0; i < marks_of(d); i++) wide[i] = sheet[i];
    return certified_wide(d, kinds, choice, wide);
}

/* ---- Cases ---- */

static unsigned passed, failed; /* since the last line of a part */
static unsigned passed_before, failed_before;

void expect(int ok, const char *what, ...) {
    va_list words;
    if (ok) {
        passed++;
        return;
    }
    failed++;
    printf("failed: ");
    va_start(words, what);
    vprintf(what, words);
    va_end(words);
    printf("\n");
}

void part_done(const char *name) {
    printf("%s: %u passed, %u failed\n", name, passed, failed);
    passed_before += passed;
    failed_before += failed;
    passed = failed = 0;
}

int all_done(void) {
    printf("%u passed, %u failed\n", passed_before + passed, failed_before + failed);
    return failed_before + failed != 0;
}
