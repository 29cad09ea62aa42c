// LEMON's NetworkSimplex on a day: the heaviest rows, and from their weight how many of each kind. It knows no row order.
//
// Every arc leads from the source down the cards, along a row and up the shops to the sink; one arc back from the sink closes the
// circle. A row that counts in no card group starts at the source. A row costs minus its weight, all else is free, and the cheapest
// circulation is a heaviest choice.
#include <lemon/network_simplex.h>
#include <lemon/static_graph.h>
#include <utility>
#include <vector>
#include "contest.h"

namespace {

typedef lemon::StaticDigraph Graph;
typedef lemon::NetworkSimplex<Graph, int, cost> Simplex;

#ifndef PIVOT
#define PIVOT FIRST_ELIGIBLE  // the fastest of its pivot rules on these days
#endif

// An arc with what belongs to it. StaticDigraph takes the arcs ordered by where they come from.
struct Arc {
    int from, to, capacity;
    cost costs;
};

void list_arcs(const struct day &d, std::vector<Arc> &arcs) {
    int cards = d.groups[0], groups = cards + d.groups[1];
    cost costs[KINDS];
    list_costs(&d, costs);
    for (int g = 0; g < cards; g++) arcs.push_back({d.parent[0][g] == TOP ? groups : d.parent[0][g], g, d.limit[0][g], 0});
    for (unsigned h = 0; h < d.groups[1]; h++)
        arcs.push_back({cards + (int)h, d.parent[1][h] == TOP ? groups + 1 : cards + d.parent[1][h], d.limit[1][h], 0});
    for (unsigned c = 0; c < d.rows; c++) {
        int card = (int)counts_from(&d, 0, c);
        arcs.push_back({card == TOP ? groups : card, cards + d.group[1][c], 1, costs[d.kind[c]]});
    }
    arcs.push_back({groups + 1, groups, (int)d.rows, 0});
}

// Orders the arcs by where they come from, by counting.
void order_arcs(int nodes, const std::vector<Arc> &arcs, std::vector<Arc> &ordered, std::vector<std::pair<int, int>> &ends) {
    std::vector<int> next(nodes + 1);
    for (const Arc &a : arcs) next[a.from + 1]++;
    for (int v = 0; v < nodes; v++) next[v + 1] += next[v];
    for (const Arc &a : arcs) ordered[next[a.from]++] = a;
    for (const Arc &a : ordered) ends.push_back({a.from, a.to});
}

}  // namespace

extern "C" void lemon_settle(const uint8_t *file, size_t length, struct outcome *out) {
    struct day d;
    out->refusal = read_day(file, length, week_file, &d);
    if (out->refusal) return;
    int nodes = d.groups[0] + d.groups[1] + 2;
    std::vector<Arc> arcs;
    arcs.reserve(nodes + d.rows);
    list_arcs(d, arcs);
    std::vector<Arc> ordered(arcs.size());
    std::vector<std::pair<int, int>> ends;
    ends.reserve(arcs.size());
    order_arcs(nodes, arcs, ordered, ends);
    Graph graph;
    graph.build(nodes, ends.begin(), ends.end());
    Graph::ArcMap<int> capacity(graph);
    Graph::ArcMap<cost> costs(graph);
    for (size_t e = 0; e < ordered.size(); e++) {
        capacity[graph.arc(e)] = ordered[e].capacity;
        costs[graph.arc(e)] = ordered[e].costs;
    }
    Simplex simplex(graph, false);
    simplex.upperMap(capacity).costMap(costs).run(Simplex::PIVOT);
    out->total = (uint64_t)-simplex.totalCost<cost>();
    out->kept = 0;
    uint64_t rest = out->total;
    for (unsigned kind = 0; kind < KINDS; kind++, rest /= d.rows + 1) {
        out->of_kind[kind] = rest % (d.rows + 1);
        out->kept += out->of_kind[kind];
    }
}
