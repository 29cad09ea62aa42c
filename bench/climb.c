/*
 * A small search for slow days. It begins with a day of the most claims and changes a few of its rows or groups, again and again; a change
 * is kept where it makes ours slower beside C flow.
 *
 *   climb OUT SECONDS [SEED [FILE]]    leaves the slowest day in the file OUT
 *
 * The first day is that of FILE, or else day number SEED of one of the families in the mean, which SEED decides too. The time of a
 * contestant is the least of some runs, so a run on a busy machine may find another day.
 */
#include <stdio.h>
#include <stdlib.h>
#include <string.h>
#include "found.h"
#include "measure.h"
#include "ours.h"

enum { OURS, FLOW, BOTH };           /* places among the contestants */
enum { LOOKS = 3, SURE_LOOKS = 12 }; /* how many times a day is settled to see whether it is slow, and to be sure */
enum { MOST_CHANGES = 8, LONGEST_COPY = 16 };

/* A day, its file, and the least time of each contestant. */
struct climber {
    struct day tables;
    struct file file;
    double least[BOTH];
};

static double ratio_of(const struct climber *c) { return c->least[OURS] / c->least[FLOW]; }

static void save(const struct climber *c, const char *path) {
    FILE *to = fopen(path, "wb");
    if (to == NULL || fwrite(c->file.bytes, 1, c->file.length, to) != c->file.length || fclose(to) != 0) {
        fprintf(stderr, "%s: cannot be written\n", path);
        exit(2);
    }
}

/* ---- changes ---- */

struct row {
    uint16_t card, shop;
    uint8_t kind;
};

static struct row row_of(const struct day *d, unsigned c) { return (struct row){d->group[CARD][c], d->group[SHOP][c], d->kind[c]}; }

static void set_row(struct day *d, unsigned c, struct row row) {
    d->group[CARD][c] = row.card;
    d->group[SHOP][c] = row.shop;
    d->kind[c] = row.kind;
}

/* One small change: of a row's group or kind, of two rows' places, of rows made equal to others, of a limit, or of a parent. */
static void change(struct day *d) {
    unsigned side = below(2), group = below(d->groups[side]), a = below(d->rows), b = below(d->rows), length = 1 + below(LONGEST_COPY);
    struct row row = row_of(d, a);
    switch (below(6)) {
    case 0: d->group[side][a] = (uint16_t)group; break;
    case 1: d->kind[a] = (uint8_t)below(KINDS); break;
    case 2:
        set_row(d, a, row_of(d, b));
        set_row(d, b, row);
        break;
    case 3:
        for (unsigned k = 0; k < length && a + k < d->rows && b + k < d->rows; k++) set_row(d, b + k, row_of(d, a + k));
        break;
    case 4: d->limit[side][group] = (uint16_t)below(below(2) ? 4 : d->rows / 2); break;
    default: d->parent[side][group] = (uint16_t)(group == 0 || below(16) == 0 ? TOP : below(group));
    }
}

/* The limits are lowered, so that the file is a new one. */
static void change_some(const struct climber *from, struct climber *to) {
    to->tables = from->tables;
    for (unsigned k = 1 + below(MOST_CHANGES); k > 0; k--) change(&to->tables);
    to->tables = lowered(&to->tables);
    write_day(&to->tables, WEEK, &to->file);
}

/* ---- times ---- */

static struct file other; /* a day that is settled in between, so that the processor does not learn the branches of the measured one */

static void forget(struct climber *c) {
    for (unsigned who = 0; who < BOTH; who++) c->least[who] = 1e9;
}

/* Settles a day once more by each of the two. Where they do not agree, the day is saved and the program ends. */
static void look(struct climber *c, const char *path) {
    static struct outcome out[BOTH];
    for (unsigned who = 0; who < BOTH; who++) {
        contestants[who].settle(other.bytes, other.length, &out[who]);
        double start = now(), taken;
        contestants[who].settle(c->file.bytes, c->file.length, &out[who]);
        taken = now() - start;
        if (taken < c->least[who]) c->least[who] = taken;
    }
    if (out[OURS].refusal != 0 || memcmp(out[OURS].choice, out[FLOW].choice, c->tables.rows) != 0) {
        save(c, path);
        printf("%s: ours and C flow do not agree\n", path);
        exit(1);
    }
}

/* Whether a changed day is slower than the slowest: it seems so at first, and it is so when both are measured again in turns. */
static int is_slower(struct climber *changed, struct climber *slowest, const char *path) {
    forget(changed);
    for (unsigned k = 0; k < LOOKS; k++) look(changed, path);
    if (ratio_of(changed) <= ratio_of(slowest)) return 0;
    forget(changed);
    forget(slowest);
    for (unsigned k = 0; k < SURE_LOOKS; k++) {
        look(changed, path);
        look(slowest, path);
    }
    return ratio_of(changed) > ratio_of(slowest);
}

/* ---- the climb ---- */

static void print_climber(const struct climber *c, unsigned tried, unsigned kept) {
    printf("%7u days tried, %5u kept: ours %7.1f us, C flow %7.1f us, ratio %.2f\n", tried, kept, c->least[OURS], c->least[FLOW],
           ratio_of(c));
    fflush(stdout);
}

static void climb(struct climber *slowest, double seconds, const char *path) {
    enum { LINES = 10 };
    static struct climber changed;
    double start = now(), end = start + seconds * 1e6, next = start;
    unsigned tried = 0, kept = 0;
    forget(slowest);
    for (unsigned k = 0; k < SURE_LOOKS; k++) look(slowest, path);
    for (; now() < end; tried++) {
        if (now() >= next) {
            print_climber(slowest, tried, kept);
            next += (end - start) / LINES;
        }
        change_some(slowest, &changed);
        if (!is_slower(&changed, slowest, path)) continue;
        *slowest = changed;
        kept++;
    }
    save(slowest, path);
    print_climber(slowest, tried, kept);
    printf("%s has the day\n", path);
}

int main(int argc, char **argv) {
    static struct climber first;
    if (argc < 3 || argc > 5) return 2;
    double seconds = strtod(argv[2], NULL);
    unsigned seed = argc > 3 ? (unsigned)strtoul(argv[3], NULL, 10) : 1;
    make_day(FORESTS, MOST_ROWS, 0, &other);
    first.tables = tables_of(seed % IN_MEAN, MOST_ROWS, seed);
    if (argc > 4) read_file(argv[4], &first.file, &first.tables);
    if (first.tables.groups[CARD] == 0 || first.tables.groups[SHOP] == 0 || first.tables.rows < 2) return 2;
    write_day(&first.tables, WEEK, &first.file);
    start_numbers(seed);
    climb(&first, seconds, argv[1]);
    return 0;
}
