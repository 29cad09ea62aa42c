/*
 * Lent memory of just the length that a test gives, between guards. Before a call all of it is dirty; afterwards the guards, and what the
 * call has no business with, have to hold what they held. The cells of a buffer have 8, 32 or 64 bits, as the call takes them.
 */
#ifndef GUARDED_H
#define GUARDED_H

#include "claims.h"
#include "day.h"

enum { GUARD = 128 /* bytes */, PAST = 3 /* cells more than any call needs */, ROOM = (CLAIMS_LONGEST_SCRATCH + PAST) * 8 };

/* So many bytes behind a guard, and a guard behind them. */
struct buffer {
    size_t length;
    union {
        uint8_t bytes[GUARD + ROOM + GUARD];
        uint32_t narrow[(GUARD + ROOM + GUARD) / 4];
        uint64_t wide[(GUARD + ROOM + GUARD) / 8];
    } at;
};
static struct buffer choice, sheet, scratch;

/* The first cell behind the guard, in each of the widths. */
static inline uint8_t *bytes_in(struct buffer *b) { return b->at.bytes + GUARD; }
static inline uint32_t *cells_in(struct buffer *b) { return b->at.narrow + GUARD / 4; }
static inline uint64_t *wide_in(struct buffer *b) { return b->at.wide + GUARD / 8; }

/*
 * What byte i holds before a call, counted from the front of the first guard: a number that follows from its place and from the salt. With
 * salt 0 every byte between the guards has all bits set.
 */
static unsigned salt;
static inline uint8_t dirt(const struct buffer *b, size_t i) {
    int between = i >= GUARD && i < GUARD + b->length;
    return between && salt == 0 ? 0xff : (uint8_t)((uint32_t)(i + salt) * 2654435761u >> 20);
}

/* Makes a buffer of so many bytes, dirty as its guards are. */
static inline void fill(struct buffer *b, size_t length) {
    b->length = length;
    for (size_t i = 0; i < length + 2 * GUARD; i++) b->at.bytes[i] = dirt(b, i);
}

/* Whether a buffer holds what it held before in both guards, and from byte `from` on between them. */
static inline int left_alone(const struct buffer *b, size_t from) {
    for (size_t i = 0; i < b->length + 2 * GUARD; i++)
        if ((i < GUARD || i >= GUARD + from) && b->at.bytes[i] != dirt(b, i)) return 0;
    return 1;
}

/* The same of the three buffers. */
static inline int all_left_alone(size_t from_choice, size_t from_sheet, size_t from_scratch) {
    return left_alone(&choice, from_choice) && left_alone(&sheet, from_sheet) && left_alone(&scratch, from_scratch);
}

/* Whether the first bytes of a buffer are 0. */
static inline int all_zero(struct buffer *b, size_t bytes) {
    for (size_t i = 0; i < bytes; i++)
        if (bytes_in(b)[i] != 0) return 0;
    return 1;
}

#endif
