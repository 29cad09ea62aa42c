/*
 * The primal-dual method by hand. The dual prices change once for each kind, so it comes to as many greatest flows: of the rows of the
 * highest kind, and then, kind by kind, with the rows of the next lower one, along the arcs that are still tight. A greatest flow is found
 * in rounds, each one walk through the network that turns every path it comes upon. What the last walk reached is the border where prices
 * change: no arc across it is tight from then on, since all later changes together are no greater than this one.
 */
#include <string.h>
#include "network.h"

enum { NO_KIND = UINT8_MAX };

struct walk {
    uint16_t at[MOST_NODES];   /* the half arc next looked at, of each node */
    uint16_t path[MOST_NODES]; /* the half arcs from the source to the present node */
    unsigned depth;
};

/* Moves a unit along the path, and goes back to where the first half arc ran full. */
static unsigned push(struct network *n, struct walk *w) {
    unsigned keep = w->depth;
    for (unsigned k = w->depth; k-- > 0;) {
        unsigned e = w->path[k];
        n->left[n->back[e]]++;
        if (--n->left[e] == 0) keep = k;
    }
    for (unsigned k = keep; k < w->depth; k++) n->mark[n->to[w->path[k]]] = 0;
    w->depth = keep;
    return n->to[n->back[w->path[keep]]];
}

/* One walk through the network from the source. Answers how many paths were turned. */
static unsigned round_of_paths(struct network *n, struct walk *w) {
    unsigned found = 0, u = n->source;
    memcpy(w->at, n->first, n->nodes * sizeof *w->at);
    clear_marks(n);
    n->mark[u] = n->stamp;
    w->depth = 0;
    for (;;) {
        unsigned e = w->at[u], end = n->first[u + 1];
        while (e < end && (!n->left[e] || n->mark[n->to[e]] == n->stamp)) e++;
        w->at[u] = (uint16_t)e;
        if (e < end) {
            w->path[w->depth++] = (uint16_t)e;
            u = n->to[e];
            n->mark[u] = n->stamp;
            if (u != n->sink) continue;
            u = push(n, w);
            found++;
        } else {
            if (w->depth == 0) return found;
            u = n->to[n->back[w->path[--w->depth]]];
        }
    }
}

static unsigned greatest_flow(struct network *n) {
    struct walk w;
    unsigned all = 0, found;
    while ((found = round_of_paths(n, &w))) all += found;
    return all;
}

/*
 * The rows of a kind that are tight once those of the higher kinds are settled: at each border so far, from a reached card to a shop not
 * reached. A row of this kind or a lower one that is not across the present border is tight no more, and loses its kind.
 */
static void open_rows(struct network *n, struct day *d, unsigned kind) {
    for (unsigned c = 0; c < d->rows; c++) {
        unsigned e = n->half[n->groups + c];
        if (d->kind[c] > kind) continue;
        if (n->mark[n->to[n->back[e]]] != n->stamp || n->mark[n->to[e]] == n->stamp)
            d->kind[c] = NO_KIND;
        else if (d->kind[c] == kind)
            n->left[e] = 1;
    }
}

/* A kept row across the border of the reached nodes stays kept. */
static void keep_across(const struct network *n, uint8_t *choice) {
    for (unsigned c = 0; c < n->rows; c++) {
        unsigned e = n->half[n->groups + c], back = n->back[e];
        if (n->left[back] && (n->mark[n->to[e]] == n->stamp) != (n->mark[n->to[back]] == n->stamp)) choice[c] = 1;
    }
}

void flow_settle(const uint8_t *file, size_t length, struct outcome *out) {
    struct day d;
    struct network n;
    out->refusal = read_day(file, length, week_file, &d);
    if (out->refusal) return;
    build_network(&n, &d, KINDS - 1);
    memset(out->choice, 0, d.rows);
    out->kept = 0;
    out->total = 0;
    for (unsigned kind = KINDS; kind-- > 0;) {
        if (kind < KINDS - 1) open_rows(&n, &d, kind);
        out->of_kind[kind] = greatest_flow(&n);
        out->kept += out->of_kind[kind];
        out->total += out->of_kind[kind] * weight_of(&d, kind);
        keep_across(&n, out->choice);
        freeze_border(&n);
    }
    order_rows(&n, out->choice);
}
