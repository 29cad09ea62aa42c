/* The network of the hand-written peers. */
#include <string.h>
#include "network.h"

/* The two ends and the capacity of each arc: group g's arc is arc g, row c's is arc groups + c. */
struct arcs {
    uint16_t from[MOST_HALVES / 2], to[MOST_HALVES / 2], capacity[MOST_HALVES / 2];
};

/*
 * Flow goes from the source down the cards, along rows and up the shops to the sink. A row that counts in no card group starts at the
 * source.
 */
static void list_arcs(struct arcs *a, const struct network *n, const struct day *d, unsigned least) {
    unsigned cards = d->groups[0];
    for (unsigned g = 0; g < cards; g++) {
        a->from[g] = (uint16_t)(d->parent[0][g] == TOP ? n->source : d->parent[0][g]);
        a->to[g] = (uint16_t)g;
        a->capacity[g] = d->limit[0][g];
    }
    for (unsigned h = 0; h < d->groups[1]; h++) {
        a->from[cards + h] = (uint16_t)(cards + h);
        a->to[cards + h] = (uint16_t)(d->parent[1][h] == TOP ? n->sink : cards + d->parent[1][h]);
        a->capacity[cards + h] = d->limit[1][h];
    }
    for (unsigned c = 0; c < d->rows; c++) {
        unsigned card = counts_from(d, 0, c);
        a->from[n->groups + c] = (uint16_t)(card == TOP ? n->source : card);
        a->to[n->groups + c] = (uint16_t)(cards + d->group[1][c]);
        a->capacity[n->groups + c] = d->kind[c] >= least;
    }
}

static void count_halves(struct network *n, const struct arcs *a) {
    unsigned all = n->groups + n->rows;
    memset(n->first, 0, sizeof n->first);
    for (unsigned e = 0; e < all; e++) {
        n->first[a->from[e] + 1]++;
        n->first[a->to[e] + 1]++;
    }
    for (unsigned v = 0; v < n->nodes; v++) n->first[v + 1] = (uint16_t)(n->first[v + 1] + n->first[v]);
}

/* Places the two halves of an arc next in their nodes. */
static void place(struct network *n, const struct arcs *a, unsigned e, uint16_t *next) {
    unsigned forth = next[a->from[e]]++, back = next[a->to[e]]++;
    n->to[forth] = a->to[e];
    n->to[back] = a->from[e];
    n->back[forth] = (uint16_t)back;
    n->back[back] = (uint16_t)forth;
    n->left[forth] = a->capacity[e];
    n->left[back] = 0;
    n->half[e] = (uint16_t)forth;
}

/* At a shop the arc up comes first, then those down, then rows; at a card first rows, then the arcs down, then up. */
void build_network(struct network *n, const struct day *d, unsigned least) {
    struct arcs a;
    uint16_t next[MOST_NODES];
    n->groups = d->groups[0] + d->groups[1];
    n->rows = d->rows;
    n->source = n->groups;
    n->sink = n->groups + 1;
    n->nodes = n->groups + 2;
    list_arcs(&a, n, d, least);
    count_halves(n, &a);
    memcpy(next, n->first, n->nodes * sizeof *next);
    for (unsigned v = d->groups[0]; v < n->groups; v++) place(n, &a, v, next);
    for (unsigned c = 0; c < n->rows; c++) place(n, &a, n->groups + c, next);
    for (unsigned v = d->groups[0]; v-- > 0;) place(n, &a, v, next);
    memset(n->mark, 0, sizeof n->mark);
    n->stamp = 1;
}

void clear_marks(struct network *n) { n->stamp++; }

void freeze_border(struct network *n) {
    for (unsigned u = 0; u < n->nodes; u++) {
        int inside = n->mark[u] == n->stamp;
        for (unsigned e = n->first[u]; e < n->first[u + 1]; e++)
            if ((n->mark[n->to[e]] == n->stamp) != inside) n->left[e] = 0;
    }
}

/* Whether the target can be reached from the start; n->by leads back. The newest node is looked at first. */
static int reach(struct network *n, unsigned start, unsigned target) {
    unsigned depth = 1;
    n->stamp++;
    n->mark[start] = n->stamp;
    n->stack[0] = (uint16_t)start;
    while (depth) {
        unsigned u = n->stack[--depth];
        for (unsigned e = n->first[u]; e < n->first[u + 1]; e++) {
            unsigned v = n->to[e];
            if (!n->left[e] || n->mark[v] == n->stamp) continue;
            n->by[v] = (uint16_t)e;
            if (v == target) return 1;
            n->mark[v] = n->stamp;
            n->stack[depth++] = (uint16_t)v;
        }
    }
    return 0;
}

/* Moves one unit along the path from the start to the target. */
static void turn(struct network *n, unsigned start, unsigned target) {
    for (unsigned v = target; v != start;) {
        unsigned e = n->by[v];
        n->left[e]--;
        n->left[n->back[e]]++;
        v = n->to[n->back[e]];
    }
}

/* Puts row c in where its shop leads back to its card. */
static void place_row(struct network *n, unsigned c, uint8_t *choice) {
    unsigned forth = n->half[n->groups + c];
    unsigned card = n->to[n->back[forth]], shop = n->to[forth];
    n->left[forth] = 0;
    if (!reach(n, shop, card)) return;
    turn(n, shop, card);
    choice[c] = 1;
}

/* Of the rows that are still free, one that holds a unit is kept, and one that could hold it is tried. Then it is free no longer. */
void order_rows(struct network *n, uint8_t *choice) {
    for (unsigned c = 0; c < n->rows; c++) {
        unsigned forth = n->half[n->groups + c], back = n->back[forth];
        if (n->left[forth]) {
            place_row(n, c, choice);
        } else if (n->left[back]) {
            n->left[back] = 0;
            choice[c] = 1;
        }
    }
}
