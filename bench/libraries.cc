// The libraries' side of the benchmark: the price by a maximal flow, with LEMON
// and with Boost. Each is given its graph in the form that it takes fastest: a
// static graph of the jobs of X alone, built from sorted arcs.
#include "libraries.h"
#include "rows.h"

#include <lemon/preflow.h>
#include <lemon/static_graph.h>

#include <boost/graph/boykov_kolmogorov_max_flow.hpp>
#include <boost/graph/compressed_sparse_row_graph.hpp>

#include <algorithm>
#include <utility>
#include <vector>

namespace {

// The jobs of X, numbered anew from 0: job i has the in-node 2i and the out-node
// 2i + 1.
struct Rings {
    unsigned jobs = 0, t = 0;
    int64_t wide = 1;           // S + 1, the capacity of a wait
    uint64_t own_cost = 0;      // T's
    int64_t costs[MOST_JOBS];
    uint64_t waits[MOST_JOBS];  // masks over the new numbers
};

Rings read(const uint8_t *row_bytes, const uint8_t *cost_bytes, unsigned n,
           unsigned t)
{
    uint64_t rows[MOST_JOBS];
    for (unsigned u = 0; u < n; u++) {
        rows[u] = get_number(row_bytes + 8 * u);
    }
    uint64_t x = jobs_on_rings(rows, t);
    unsigned number[MOST_JOBS];
    Rings r;
    for (uint64_t rest = x; rest != 0; rest = without_lowest(rest)) {
        number[lowest(rest)] = r.jobs++;
    }
    for (uint64_t rest = x; rest != 0; rest = without_lowest(rest)) {
        unsigned u = lowest(rest), i = number[u];
        r.costs[i] = static_cast<int64_t>(get_number(cost_bytes + 8 * u));
        r.wide += r.costs[i];
        r.waits[i] = 0;
        for (uint64_t to = rows[u] & x; to != 0; to = without_lowest(to)) {
            r.waits[i] |= only(number[lowest(to)]);
        }
    }
    r.t = number[t];
    r.own_cost = static_cast<uint64_t>(r.costs[r.t]);
    return r;
}

uint64_t price(const Rings &r, int64_t flow)
{
    return std::min(r.own_cost, static_cast<uint64_t>(flow));
}

} // namespace

uint64_t lemon_price(const uint8_t *rows, const uint8_t *costs, unsigned n,
                     unsigned t)
{
    Rings r = read(rows, costs, n, t);
    if (r.jobs == 1) {
        return 0;
    }
    static std::vector<std::pair<int, int>> arcs;
    static std::vector<int64_t> capacities;
    arcs.clear();
    capacities.clear();
    for (unsigned i = 0; i < r.jobs; i++) {
        if (i != r.t) {
            arcs.emplace_back(2 * i, 2 * i + 1);
            capacities.push_back(r.costs[i]);
        }
        for (uint64_t to = r.waits[i]; to != 0; to = without_lowest(to)) {
            arcs.emplace_back(2 * i + 1, 2 * lowest(to));
            capacities.push_back(r.wide);
        }
    }
    static lemon::StaticDigraph graph;
    graph.build(static_cast<int>(2 * r.jobs), arcs.begin(), arcs.end());
    lemon::StaticDigraph::ArcMap<int64_t> capacity(graph);
    for (int i = 0; i < graph.arcNum(); i++) {
        capacity[graph.arc(i)] = capacities[static_cast<size_t>(i)];
    }
    lemon::Preflow<lemon::StaticDigraph,
                   lemon::StaticDigraph::ArcMap<int64_t>>
        flow(graph, capacity, graph.node(static_cast<int>(2 * r.t + 1)),
             graph.node(static_cast<int>(2 * r.t)));
    flow.runMinCut();
    return price(r, flow.flowValue());
}

uint64_t boost_price(const uint8_t *rows, const uint8_t *costs, unsigned n,
                     unsigned t)
{
    using Graph =
        boost::compressed_sparse_row_graph<boost::directedS, boost::no_property,
                                           boost::no_property>;
    using Edge = boost::graph_traits<Graph>::edge_descriptor;
    Rings r = read(rows, costs, n, t);
    if (r.jobs == 1) {
        return 0;
    }
    // From each node the arcs and the arcs back, both sorted; no two arcs join
    // the same nodes.
    uint64_t beside[2 * MOST_JOBS] = {0};
    for (unsigned i = 0; i < r.jobs; i++) {
        uint64_t own = i == r.t ? 0 : only(i);
        beside[2 * i] |= own;
        beside[2 * i + 1] = r.waits[i] | own;
        for (uint64_t to = r.waits[i]; to != 0; to = without_lowest(to)) {
            beside[2 * lowest(to)] |= only(i);
        }
    }
    static std::vector<std::pair<size_t, size_t>> ends;
    static std::vector<int64_t> capacity, residual;
    size_t first[2 * MOST_JOBS];
    ends.clear();
    capacity.clear();
    for (unsigned a = 0; a < 2 * r.jobs; a++) {
        first[a] = ends.size();
        for (uint64_t to = beside[a]; to != 0; to = without_lowest(to)) {
            unsigned j = lowest(to), b = 2 * j + (1 - a % 2);
            ends.emplace_back(a, b);
            capacity.push_back(j == a / 2 ? (a % 2 == 0 ? r.costs[j] : 0)
                                          : (a % 2 == 1 ? r.wide : 0));
        }
    }
    // An arc back is the next unused one of its node: the arcs come sorted.
    static std::vector<Edge> back;
    back.resize(ends.size());
    size_t next[2 * MOST_JOBS];
    std::copy(first, first + 2 * r.jobs, next);
    for (size_t i = 0; i < ends.size(); i++) {
        size_t b = ends[i].second;
        back[i] = Edge(b, next[b]++);
    }
    residual.assign(ends.size(), 0);
    size_t nodes = 2 * r.jobs;
    Graph graph(boost::edges_are_sorted, ends.begin(), ends.end(), nodes,
                ends.size());
    auto by_edge = get(boost::edge_index, graph);
    int64_t flow = boost::boykov_kolmogorov_max_flow(
        graph, boost::make_iterator_property_map(capacity.begin(), by_edge),
        boost::make_iterator_property_map(residual.begin(), by_edge),
        boost::make_iterator_property_map(back.begin(), by_edge),
        get(boost::vertex_index, graph), 2 * r.t + 1, 2 * r.t);
    return price(r, flow);
}
