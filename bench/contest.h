/*
 * The contestants: each settles the bytes of a new claim file of the week layout, by the limits of weekday 0.
 *
 * KINDS says under which terms. With N rows one of kind k weighs N + 1 to the power k; under the second terms that takes costs of 64 bits.
 */
#ifndef CONTEST_H
#define CONTEST_H

#include "days.h"

#if KINDS == 4
typedef int64_t cost;
#else
typedef int cost;
#endif

#ifdef __cplusplus
extern "C" {
#endif

/* How they take the file. */
static const struct form week_file = {WEEK, NEW, 0, KINDS};

struct outcome {
    unsigned refusal, of_kind[KINDS], kept; /* how many rows of each kind are kept, and in all */
    uint64_t total;                         /* what they weigh together */
    uint8_t choice[MOST_ROWS]; /* left alone by a contestant that knows no row order */
};

/* Hand-written C: greatest flows on the tight arcs, first of the rows of the highest kind, then kind by kind, and a search per row. */
void flow_settle(const uint8_t *file, size_t length, struct outcome *out);

/* Hand-written C: network simplex, and a search per row. */
void simplex_settle(const uint8_t *file, size_t length, struct outcome *out);

/* LEMON's NetworkSimplex: the counts alone. */
void lemon_settle(const uint8_t *file, size_t length, struct outcome *out);

/* What a row of each kind costs: minus its weight. */
static inline void list_costs(const struct day *d, cost *costs) {
    for (unsigned kind = 0; kind < KINDS; kind++) costs[kind] = -(cost)weight_of(d, kind);
}

#ifdef __cplusplus
}
#endif

#endif
