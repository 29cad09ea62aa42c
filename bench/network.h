/* A day as a network of half arcs in compressed rows, for the hand-written peers, and the row order on it. */
#ifndef NETWORK_H
#define NETWORK_H

#include "contest.h"

enum { MOST_NODES = 2 * MOST_GROUPS + 2, MOST_HALVES = 2 * (2 * MOST_GROUPS + MOST_ROWS) };

/*
 * Cards come first, then shops, then the source above the cards and the sink above the shops. Each arc is two half arcs, one out of
 * each end. A half arc stands with the others out of the same node; `left` is how much more can go along it.
 */
struct network {
    unsigned nodes, groups, rows, source, sink;
    uint16_t first[MOST_NODES + 1];
    uint16_t to[MOST_HALVES], back[MOST_HALVES];
    uint16_t left[MOST_HALVES];
    uint16_t half[MOST_HALVES / 2];   /* the forward half of each arc: of the groups, then of the rows */
    uint16_t mark[MOST_NODES], stamp; /* a node is marked where its mark is the stamp */
    uint16_t by[MOST_NODES];          /* the half arc by which a search came to a node */
    uint16_t stack[MOST_NODES];
};

/* Builds the network; rows of a kind below `least` have no capacity yet. */
void build_network(struct network *n, const struct day *d, unsigned least);

/* Gives each half arc across the border of the marked nodes capacity 0 in both directions. */
void freeze_border(struct network *n);

/* New marks: none. */
void clear_marks(struct network *n);

/* For each row in order: puts it in where later rows can make way. Every half arc with capacity left is tight. */
void order_rows(struct network *n, uint8_t *choice);

#endif
