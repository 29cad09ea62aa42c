/*
 * Network simplex by hand. The first basis is the day's own two trees, joined by an arc from the sink back to the source, so no
 * artificial arc is needed: a row that comes in with a place in all its groups only changes its bound. The first eligible arc enters,
 * looked for where the last search ended. Nothing here rules out that pivots without flow go in a circle; on these days none does.
 */
#include <string.h>
#include "network.h"

enum { MOST_ARCS = 2 * MOST_GROUPS + MOST_ROWS + 1, NO_NODE = MOST_NODES };
enum { LOWER, UPPER, TREE };

/* Arc g is group g's, arc groups + c is row c's, and the last one leads back. The root is the sink. */
struct simplex {
    unsigned groups, arcs, root;
    uint16_t from[MOST_ARCS], to[MOST_ARCS];
    int capacity[MOST_ARCS], flow[MOST_ARCS];
    cost costs[MOST_ARCS];
    uint8_t state[MOST_ARCS];
    uint16_t parent[MOST_NODES], up[MOST_NODES], depth[MOST_NODES]; /* the tree: up is the arc to the parent */
    uint16_t child[MOST_NODES + 1], next[MOST_NODES + 1], previous[MOST_NODES + 1];
    cost price[MOST_NODES];
};

static void set_arc(struct simplex *s, unsigned e, unsigned from, unsigned to, int capacity, cost costs) {
    s->from[e] = (uint16_t)from;
    s->to[e] = (uint16_t)to;
    s->capacity[e] = capacity;
    s->costs[e] = costs;
    s->flow[e] = 0;
    s->state[e] = LOWER;
}

/* Hangs node v under p by arc e. */
static void hang(struct simplex *s, unsigned v, unsigned p, unsigned e) {
    s->parent[v] = (uint16_t)p;
    s->up[v] = (uint16_t)e;
    s->state[e] = TREE;
    s->next[v] = s->child[p];
    s->previous[s->child[p]] = (uint16_t)v;
    s->previous[v] = NO_NODE;
    s->child[p] = (uint16_t)v;
}

static void unhang(struct simplex *s, unsigned v) {
    unsigned before = s->previous[v];
    if (before == NO_NODE)
        s->child[s->parent[v]] = s->next[v];
    else
        s->next[before] = s->next[v];
    s->previous[s->next[v]] = (uint16_t)before;
}

/* The arcs of the groups and of the rows, and the one that leads back. */
static void list_arcs(struct simplex *s, const struct day *d) {
    unsigned cards = d->groups[0], source = s->groups, sink = s->root;
    cost costs[KINDS];
    list_costs(d, costs);
    for (unsigned g = 0; g < cards; g++)
        set_arc(s, g, d->parent[0][g] == TOP ? source : d->parent[0][g], g, d->limit[0][g], 0);
    for (unsigned h = 0; h < d->groups[1]; h++)
        set_arc(s, cards + h, cards + h, d->parent[1][h] == TOP ? sink : cards + d->parent[1][h], d->limit[1][h], 0);
    for (unsigned c = 0; c < d->rows; c++) {
        unsigned card = counts_from(d, 0, c);
        set_arc(s, s->groups + c, card == TOP ? source : card, cards + d->group[1][c], 1, costs[d->kind[c]]);
    }
    set_arc(s, s->arcs - 1, sink, source, (int)d->rows, 0);
}

static void first_basis(struct simplex *s, const struct day *d) {
    unsigned cards = d->groups[0], source = s->groups;
    for (unsigned v = 0; v <= NO_NODE; v++) s->child[v] = NO_NODE;
    memset(s->price, 0, sizeof s->price);
    s->depth[s->root] = 0;
    hang(s, source, s->root, s->arcs - 1);
    s->depth[source] = 1;
    for (unsigned v = 0; v < s->groups; v++) {
        unsigned p = v < cards ? s->from[v] : s->to[v];
        hang(s, v, p, v);
        s->depth[v] = (uint16_t)(s->depth[p] + 1);
    }
}

static cost reduced_cost(const struct simplex *s, unsigned e) { return s->costs[e] + s->price[s->from[e]] - s->price[s->to[e]]; }

/* The next arc that may enter, or the number of arcs where there is none. */
static unsigned entering(const struct simplex *s, unsigned *at) {
    for (unsigned k = 0; k < s->arcs; k++) {
        unsigned e = *at;
        *at = e + 1 == s->arcs ? 0 : e + 1;
        if (s->state[e] == TREE) continue;
        cost reduced = reduced_cost(s, e);
        if (s->state[e] == LOWER ? reduced < 0 : reduced > 0) return e;
    }
    return s->arcs;
}

/* The circle that an entering arc closes: flow comes down the tree to `tail` and goes up from `head`. */
struct circle {
    unsigned enters, tail, head, join, leaves; /* `leaves` is the node whose arc up leaves, or NO_NODE for the entering arc itself */
    int amount, by_tail;
};

static unsigned join_of(const struct simplex *s, unsigned u, unsigned v) {
    while (u != v) {
        if (s->depth[u] >= s->depth[v])
            u = s->parent[u];
        else
            v = s->parent[v];
    }
    return u;
}

/* How much more can go from node v to its parent, or from its parent to it. */
static int room_up(const struct simplex *s, unsigned v) {
    unsigned e = s->up[v];
    return s->from[e] == v ? s->capacity[e] - s->flow[e] : s->flow[e];
}
static int room_down(const struct simplex *s, unsigned v) {
    unsigned e = s->up[v];
    return s->to[e] == v ? s->capacity[e] - s->flow[e] : s->flow[e];
}

/* Finds the circle and its last blocking arc, counted from the join in the direction of the flow. */
static struct circle circle_of(const struct simplex *s, unsigned e) {
    struct circle c = {.enters = e, .leaves = NO_NODE};
    int rises = s->state[e] == LOWER;
    c.tail = rises ? s->from[e] : s->to[e];
    c.head = rises ? s->to[e] : s->from[e];
    c.amount = s->capacity[e];
    c.join = join_of(s, c.tail, c.head);
    for (unsigned v = c.tail; v != c.join; v = s->parent[v])
        if (room_down(s, v) < c.amount) {
            c.amount = room_down(s, v);
            c.leaves = v;
            c.by_tail = 1;
        }
    for (unsigned v = c.head; v != c.join; v = s->parent[v])
        if (room_up(s, v) <= c.amount) {
            c.amount = room_up(s, v);
            c.leaves = v;
            c.by_tail = 0;
        }
    return c;
}

static void change_flow(struct simplex *s, const struct circle *c) {
    if (c->amount == 0) return;
    s->flow[c->enters] += s->state[c->enters] == LOWER ? c->amount : -c->amount;
    for (unsigned v = c->tail; v != c->join; v = s->parent[v]) s->flow[s->up[v]] += s->to[s->up[v]] == v ? c->amount : -c->amount;
    for (unsigned v = c->head; v != c->join; v = s->parent[v]) s->flow[s->up[v]] += s->from[s->up[v]] == v ? c->amount : -c->amount;
}

/* Adds to the prices below v, and sets the depths there. */
static void reprice(struct simplex *s, unsigned top, cost more) {
    unsigned v = top;
    for (;;) {
        s->price[v] += more;
        s->depth[v] = (uint16_t)(s->depth[s->parent[v]] + 1);
        if (s->child[v] != NO_NODE) {
            v = s->child[v];
            continue;
        }
        while (v != top && s->next[v] == NO_NODE) v = s->parent[v];
        if (v == top) return;
        v = s->next[v];
    }
}

/* The part of the tree below the leaving arc is turned round and hung by the entering arc. */
static void change_tree(struct simplex *s, const struct circle *c) {
    unsigned inner = c->by_tail ? c->tail : c->head, outer = c->by_tail ? c->head : c->tail;
    unsigned leaves = s->up[c->leaves], v = inner, p = outer, e = c->enters;
    cost reduced = reduced_cost(s, c->enters);
    for (;;) {
        unsigned above = s->parent[v], arc = s->up[v];
        int last = v == c->leaves;
        unhang(s, v);
        hang(s, v, p, e);
        if (last) break;
        p = v;
        v = above;
        e = arc;
    }
    s->state[leaves] = s->flow[leaves] ? UPPER : LOWER;
    reprice(s, inner, s->from[c->enters] == inner ? -reduced : reduced);
}

static void run(struct simplex *s) {
    unsigned at = s->groups, e;
    while ((e = entering(s, &at)) < s->arcs) {
        struct circle c = circle_of(s, e);
        change_flow(s, &c);
        if (c.leaves == NO_NODE)
            s->state[e] = s->state[e] == LOWER ? UPPER : LOWER;
        else
            change_tree(s, &c);
    }
}

/* What is left along tight arcs; an arc that is not tight stays as it is. */
static void take_over(struct network *n, const struct simplex *s, uint8_t *choice) {
    for (unsigned e = 0; e + 1 < s->arcs; e++) {
        unsigned forth = n->half[e], back = n->back[forth];
        int tight = reduced_cost(s, e) == 0;
        n->left[forth] = (uint16_t)(tight ? s->capacity[e] - s->flow[e] : 0);
        n->left[back] = (uint16_t)(tight ? s->flow[e] : 0);
        if (e >= s->groups) choice[e - s->groups] = !tight && s->flow[e];
    }
}

void simplex_settle(const uint8_t *file, size_t length, struct outcome *out) {
    struct day d;
    struct simplex s;
    struct network n;
    out->refusal = read_day(file, length, week_file, &d);
    if (out->refusal) return;
    s.groups = d.groups[0] + d.groups[1];
    s.arcs = s.groups + d.rows + 1;
    s.root = s.groups + 1;
    list_arcs(&s, &d);
    first_basis(&s, &d);
    run(&s);
    build_network(&n, &d, 0);
    take_over(&n, &s, out->choice);
    memset(out->of_kind, 0, sizeof out->of_kind);
    out->total = 0;
    for (unsigned c = 0; c < d.rows; c++) {
        out->of_kind[d.kind[c]] += (unsigned)s.flow[s.groups + c];
        out->total += (uint64_t)(-s.costs[s.groups + c] * s.flow[s.groups + c]);
    }
    out->kept = (unsigned)s.flow[s.arcs - 1];
    order_rows(&n, out->choice);
}
