/*
 * The files of several counters, for tests: each by itself, end to end with the list of their lengths, and joined, byte by byte, into the
 * file that the counters are settled by.
 */
#ifndef COUNTERS_H
#define COUNTERS_H

#include <string.h>
#include "claims.h"
#include "day.h"

/* The most files, and how many bytes the record of a group and of a claim has. */
enum { MOST_FILES = CLAIMS_MOST_FILES, RECORD = 16, CLAIM = 5 };

/* The counters' files, one more than there may be, and what the call is given: the files end to end and their lengths. */
static unsigned count;
static struct file member[MOST_FILES + 1];
static uint8_t files[(MOST_FILES + 1) * (MOST_FILE + 1)];
static uint32_t lengths[MOST_FILES + 1];
static size_t length;

/* The joined file, and how many groups and rows it has. */
static struct file joined;
static unsigned groups, rows;

/* Puts the files end to end. A length behind the last file's must not count: it is such that a file might have it. */
static inline void put_together(void) {
    length = 0;
    for (unsigned k = 0; k <= MOST_FILES; k++) lengths[k] = 6;
    for (unsigned k = 0; k < count; k++) {
        memcpy(files + length, member[k].bytes, member[k].length);
        lengths[k] = (uint32_t)member[k].length;
        length += member[k].length;
    }
}

/* A section of a good file: how many records it has, and where they stand. Sections CARD and SHOP have the groups, section 2 the claims. */
struct section {
    unsigned records;
    const uint8_t *at;
};

static inline struct section section_of(unsigned k, unsigned number) {
    const uint8_t *at = member[k].bytes;
    for (; number > 0; number--) at += 2 + RECORD * get16(at);
    return (struct section){get16(at), at + 2};
}

/* How many records of a section all files have together. */
static inline unsigned records_of(unsigned number) {
    unsigned n = 0;
    for (unsigned k = 0; k < count; k++) n += section_of(k, number).records;
    return n;
}

/* The groups of a side of all files. `first` is the number of the first of them, and `top` the parent of those that have none. */
static inline uint8_t *put_groups(uint8_t *at, unsigned side, unsigned first, unsigned top) {
    for (unsigned k = 0; k < count; k++) {
        struct section s = section_of(k, side);
        for (unsigned g = 0; g < s.records; g++, s.at += RECORD) {
            at = put16(at, get16(s.at) == TOP ? top : first + get16(s.at));
            memcpy(at, s.at + 2, RECORD - 2);
            at += RECORD - 2;
        }
        first += s.records;
    }
    return at;
}

static inline uint8_t *put_claims(uint8_t *at) {
    unsigned card = 0, shop = 1;
    for (unsigned k = 0; k < count; k++) {
        struct section s = section_of(k, 2);
        for (unsigned c = 0; c < s.records; c++, s.at += CLAIM) {
            at = put16(at, card + get16(s.at));
            at = put16(at, shop + get16(s.at + 2));
            *at++ = s.at[4];
        }
        card += section_of(k, CARD).records, shop += section_of(k, SHOP).records;
    }
    return at;
}

/* Joins the files, which are good and together not too large. */
static inline void join(unsigned oven) {
    uint8_t *at = put16(joined.bytes, records_of(CARD));
    at = put_groups(at, CARD, 0, TOP);
    at = put16(at, 1 + records_of(SHOP));
    at = put16(at, TOP);
    for (unsigned weekday = 0; weekday < WEEKDAYS; weekday++) at = put16(at, oven);
    at = put_groups(at, SHOP, 1, 0);
    at = put_claims(put16(at, records_of(2)));
    joined.length = (size_t)(at - joined.bytes);
    groups = records_of(CARD) + 1 + records_of(SHOP), rows = records_of(2);
}

#endif
