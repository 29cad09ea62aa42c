/*
 * The library under measurement, in the contestants' form: under the first terms the calls of libtill.a, under the second those of
 * libtill_kinds.a.
 */
#ifndef OURS_H
#define OURS_H

#include "contest.h"
#include "plain.h"
#include "sorts.h"

void ours_settle(const uint8_t *file, size_t length, struct outcome *out);

/*
 * The rows that are kept of a file in a layout, a stored one where there is a call for it. Under the first terms two tallies are begun too,
 * for the calls on a tally in the table below: one is left empty, and the kept rows are put into the other.
 */
void ours_keep(unsigned layout, const struct file *file, struct outcome *out);

/* The file judged and nothing more: 0, or the number of the first fault. */
unsigned ours_judge(const uint8_t *file, size_t length);

struct plain_rank ours_fits_and_rank(const uint8_t *file, size_t length, const uint8_t *selection, size_t selected, unsigned side,
                                     unsigned weekday);

/* The sheet that our last settling left, and whether it shows that no choice of the day weighs more than this one. */
#if KINDS == 4
typedef uint64_t mark;
#else
typedef uint32_t mark;
#endif
mark *ours_sheet(void);
int ours_certified(const struct day *d, const uint8_t *choice);

/* What there is under the first terms alone. */
#if KINDS == 2

/* Settles a file of any sort, by the limits of any weekday. */
void ours_settle_by(const struct sort *by, unsigned weekday, const struct file *file, struct outcome *out);

/* The codes of a file's rows. Answers the refusal. */
unsigned ours_codes(const uint8_t *file, size_t length, uint8_t *codes);

/* Whether a choice is accepted with the sheet that our last settling left: 0, or the number. The sheet may be changed before. */
unsigned ours_accept(const uint8_t *file, size_t length, const uint8_t *choice, size_t choices, unsigned weekday);

/* Our tally: it is begun, a row is put in or taken out, or a count is read. The first three answer the refusal, the last the count. */
unsigned ours_begin(const struct file *file);
unsigned ours_put_in(unsigned row);
unsigned ours_take_out(unsigned row);
unsigned ours_count(unsigned side, unsigned group);

#endif

/*
 * Every call that the archive exports: its name, a function that makes it on a day with a selection, for each side or each row where the
 * call is told one, and the sort of file that it takes, or NULL where the call has no sorts. The archive's names are compared with this
 * table; a new call is a line in it.
 */
struct call {
    const char *name;
    void (*make)(const struct sort *by, const struct file *day, const uint8_t *selection);
    const struct sort *by;
};
extern const struct call calls[];
extern const unsigned call_count;

#endif
