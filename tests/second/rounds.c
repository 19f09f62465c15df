/* The network of X and its rounds.
 *
 * Every arc stands in a list with its capacity and its flow. A round works out
 * each node's distance to the sink by relaxing the whole list until nothing
 * changes, and then walks from the source, always to the lowest-numbered node
 * that is one step nearer. All shortest paths go one step nearer at a time, so
 * that walk is the first of them, compared node number by node number. */
#include "parts.h"
#include "second.h"

enum {
    NODES = 2 * SECOND_MOST_JOBS,
    ARCS = SECOND_MOST_JOBS * SECOND_MOST_JOBS,
    FAR = NODES /* farther than any node from which the sink is reached */
};

struct arc {
    unsigned tail, head;
    uint64_t capacity, flow;
};

struct network {
    unsigned source, sink;
    unsigned arcs;
    struct arc arc[ARCS];
};

/* A step of a path: along an arc, or back along it. */
struct step {
    unsigned arc;
    bool back;
};

static unsigned in_node(unsigned job)
{
    return 2 * job;
}

static unsigned out_node(unsigned job)
{
    return 2 * job + 1;
}

static void add_arc(struct network *net, unsigned tail, unsigned head,
                    uint64_t capacity)
{
    net->arc[net->arcs++] = (struct arc){tail, head, capacity, 0};
}

static void lay_out(struct network *net, const uint64_t *rows,
                    const uint64_t *costs, unsigned n, unsigned t, uint64_t x)
{
    uint64_t s = total_cost(costs, n, x);
    net->source = out_node(t);
    net->sink = in_node(t);
    net->arcs = 0;
    for (unsigned u = 0; u < n; u++) {
        if (has(x, u) && u != t) {
            add_arc(net, in_node(u), out_node(u), costs[u]);
        }
    }
    for (unsigned u = 0; u < n; u++) {
        for (unsigned v = 0; v < n; v++) {
            if (has(x, u) && has(x, v) && has(rows[u], v)) {
                add_arc(net, out_node(u), in_node(v), s + 1);
            }
        }
    }
}

/* What a step allows; 0 where it may not be taken. */
static uint64_t allows(const struct network *net, struct step step)
{
    const struct arc *arc = &net->arc[step.arc];
    return step.back ? arc->flow : arc->capacity - arc->flow;
}

static unsigned from_node(const struct network *net, struct step step)
{
    const struct arc *arc = &net->arc[step.arc];
    return step.back ? arc->head : arc->tail;
}

static unsigned to_node(const struct network *net, struct step step)
{
    const struct arc *arc = &net->arc[step.arc];
    return step.back ? arc->tail : arc->head;
}

/* Each node's distance to the sink in steps, FAR where there is no path. */
static void measure(const struct network *net, unsigned distance[NODES])
{
    for (unsigned node = 0; node < NODES; node++) {
        distance[node] = FAR;
    }
    distance[net->sink] = 0;
    for (bool changed = true; changed;) {
        changed = false;
        for (unsigned i = 0; i < 2 * net->arcs; i++) {
            struct step step = {i / 2, i % 2 == 1};
            unsigned from = from_node(net, step);
            unsigned to = to_node(net, step);
            if (distance[to] + 1 < distance[from] && allows(net, step) > 0) {
                distance[from] = distance[to] + 1;
                changed = true;
            }
        }
    }
}

/* The step from `node` to the lowest-numbered node that is one nearer. */
static struct step next_step(const struct network *net,
                             const unsigned distance[NODES], unsigned node)
{
    struct step best = {0, false};
    bool found = false;
    for (unsigned i = 0; i < 2 * net->arcs; i++) {
        struct step step = {i / 2, i % 2 == 1};
        unsigned to = to_node(net, step);
        if (from_node(net, step) == node && allows(net, step) > 0 &&
            distance[to] + 1 == distance[node] &&
            (!found || to < to_node(net, best))) {
            best = step;
            found = true;
        }
    }
    must(found, "from a node with a distance a step leads one nearer");
    return best;
}

/* One round: walks the first shortest path and pushes all that it allows. */
static void push_along(struct network *net, const unsigned distance[NODES])
{
    struct step path[NODES];
    unsigned steps = 0;
    uint64_t amount = UINT64_MAX;
    for (unsigned node = net->source; node != net->sink;) {
        struct step step = next_step(net, distance, node);
        uint64_t room = allows(net, step);
        amount = room < amount ? room : amount;
        path[steps++] = step;
        node = to_node(net, step);
    }
    for (unsigned i = 0; i < steps; i++) {
        struct arc *arc = &net->arc[path[i].arc];
        arc->flow = path[i].back ? arc->flow - amount : arc->flow + amount;
    }
}

/* The wait arcs' flows, each at its place u * n + v. */
static void write_flows(const struct network *net, unsigned n, uint64_t *flows)
{
    for (unsigned place = 0; place < n * n; place++) {
        flows[place] = 0;
    }
    for (unsigned i = 0; i < net->arcs; i++) {
        const struct arc *arc = &net->arc[i];
        if (arc->tail % 2 == 1) { /* leaves an out-node: a wait */
            flows[arc->tail / 2 * n + arc->head / 2] = arc->flow;
        }
    }
}

struct rounds make_rounds(const uint64_t *rows, const uint64_t *costs,
                          unsigned n, unsigned t, uint64_t x,
                          uint32_t allowance, uint64_t *flows)
{
    struct network net;
    struct rounds rounds = {0, false, 0};
    unsigned distance[NODES];
    lay_out(&net, rows, costs, n, t, x);
    measure(&net, distance);
    while (distance[net.source] < FAR && rounds.made < allowance) {
        push_along(&net, distance);
        rounds.made++;
        measure(&net, distance);
    }
    rounds.path_left = distance[net.source] < FAR;
    write_flows(&net, n, flows);
    for (unsigned i = 0; i < net.arcs; i++) {
        if (net.arc[i].head == net.sink) {
            rounds.into_sink += net.arc[i].flow;
        }
    }
    return rounds;
}
