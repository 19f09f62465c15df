/* The set of jobs that document 01 names, in two ways that share no step with
 * the rounds: by trying every set, and by forced cuts. */
#include "parts.h"
#include "second.h"

#include <string.h>

/* ---- By trying every set ---- */

/* The jobs outside `set` from which T is reached along one or more waits
 * without passing through the set. T is among them where a ring is open. */
static uint64_t still_reach_t(const uint64_t *rows, unsigned n, unsigned t,
                              uint64_t set)
{
    uint64_t known = 0;
    for (bool changed = true; changed;) {
        changed = false;
        for (unsigned job = 0; job < n; job++) {
            if (!has(set, job) && !has(known, job) &&
                (rows[job] & (known | only(t))) != 0) {
                known |= only(job);
                changed = true;
            }
        }
    }
    return known;
}

bool opens_every_ring(const uint64_t *rows, unsigned n, unsigned t,
                      uint64_t set)
{
    return !has(still_reach_t(rows, n, t, set), t);
}

static unsigned count_jobs(uint64_t set)
{
    unsigned count = 0;
    for (unsigned job = 0; job < SECOND_MOST_JOBS; job++) {
        count += has(set, job);
    }
    return count;
}

/* The jobs of X other than T, in order; returns how many. */
static unsigned list_others(uint64_t x, unsigned t,
                            unsigned others[SECOND_MOST_JOBS])
{
    unsigned count = 0;
    for (unsigned job = 0; job < SECOND_MOST_JOBS; job++) {
        if (has(x, job) && job != t) {
            others[count++] = job;
        }
    }
    return count;
}

/* The set of others that the binary digits of `choice` pick. */
static uint64_t picked(const unsigned *others, unsigned count, uint64_t choice)
{
    uint64_t set = 0;
    for (unsigned i = 0; i < count; i++) {
        if (has(choice, i)) {
            set |= only(others[i]);
        }
    }
    return set;
}

uint64_t best_set_by_trying(const uint64_t *rows, const uint64_t *costs,
                            unsigned n, unsigned t, uint64_t x)
{
    unsigned others[SECOND_MOST_JOBS];
    unsigned count = list_others(x, t, others);
    uint64_t best = 0, least_cost = UINT64_MAX;
    unsigned fewest_left = 0, equals = 0;
    must(count < MOST_TO_TRY, "X is small enough to try every set");
    for (uint64_t choice = 0; choice < only(count); choice++) {
        uint64_t set = picked(others, count, choice);
        uint64_t cost = total_cost(costs, n, set);
        if (cost > least_cost || !opens_every_ring(rows, n, t, set)) {
            continue;
        }
        unsigned left =
            count_jobs(still_reach_t(rows, n, t, set) & x & ~set & ~only(t));
        if (cost < least_cost || left < fewest_left) {
            best = set;
            least_cost = cost;
            fewest_left = left;
            equals = 1;
        } else if (left == fewest_left) {
            equals++;
        }
    }
    must(equals == 1, "there is exactly one best set");
    return best;
}

/* ---- By forced cuts ---- */

enum { NODES = 2 * SECOND_MOST_JOBS };

/* More than all costs together; 128 times it still fits into 64 bits. */
#define ENDLESS ((uint64_t)1 << 56)

/* A network as a table of capacities, over X alone: the i-th job of X other
 * than T has the in-node 2i and the out-node 2i + 1, then come source and
 * sink. */
struct pipes {
    unsigned nodes, source, sink;
    uint64_t capacity[NODES][NODES];
};

static void lay_pipes(struct pipes *pipes, const uint64_t *rows,
                      const uint64_t *costs, unsigned t,
                      const unsigned *others, unsigned count)
{
    memset(pipes, 0, sizeof *pipes);
    pipes->nodes = 2 * count + 2;
    pipes->source = 2 * count;
    pipes->sink = 2 * count + 1;
    for (unsigned i = 0; i < count; i++) {
        unsigned u = others[i];
        pipes->capacity[2 * i][2 * i + 1] = costs[u];
        if (has(rows[t], u)) {
            pipes->capacity[pipes->source][2 * i] = ENDLESS;
        }
        if (has(rows[u], t)) {
            pipes->capacity[2 * i + 1][pipes->sink] = ENDLESS;
        }
        for (unsigned j = 0; j < count; j++) {
            if (has(rows[u], others[j])) {
                pipes->capacity[2 * i + 1][2 * j] = ENDLESS;
            }
        }
    }
}

/* The state of a push-relabel run: what each pipe has left, what waits at each
 * node, and each node's height. A node as high as there are nodes reaches the
 * sink no more; what waits there would flow back and is let be. */
struct preflow {
    unsigned nodes, source, sink;
    uint64_t left[NODES][NODES];
    uint64_t waiting[NODES];
    unsigned height[NODES];
    unsigned at_height[2 * NODES]; /* how many nodes stand that high */
};

static void push(struct preflow *run, unsigned from, unsigned to,
                 uint64_t amount)
{
    run->left[from][to] -= amount;
    run->left[to][from] += amount;
    run->waiting[from] -= amount;
    run->waiting[to] += amount;
}

static void set_height(struct preflow *run, unsigned node, unsigned height)
{
    run->at_height[run->height[node]]--;
    run->height[node] = height;
    run->at_height[height]++;
}

/* Lifts a node just above the lowest node that it can still push to. Where it
 * leaves its height empty, nothing above that height reaches the sink. */
static void lift(struct preflow *run, unsigned node)
{
    unsigned old = run->height[node], height = run->nodes;
    for (unsigned to = 0; to < run->nodes; to++) {
        if (run->left[node][to] > 0 && run->height[to] + 1 < height) {
            height = run->height[to] + 1;
        }
    }
    set_height(run, node, height);
    if (run->at_height[old] == 0) {
        for (unsigned other = 0; other < run->nodes; other++) {
            if (run->height[other] > old && run->height[other] < run->nodes) {
                set_height(run, other, run->nodes);
            }
        }
    }
}

/* The highest node at which something waits that may still reach the sink;
 * the sink itself where there is none. */
static unsigned busiest(const struct preflow *run)
{
    unsigned best = run->sink;
    for (unsigned node = 0; node < run->nodes; node++) {
        if (run->waiting[node] > 0 && node != run->source &&
            node != run->sink && run->height[node] < run->nodes &&
            (best == run->sink || run->height[node] > run->height[best])) {
            best = node;
        }
    }
    return best;
}

static void discharge(struct preflow *run, unsigned node)
{
    for (unsigned to = 0; to < run->nodes && run->waiting[node] > 0; to++) {
        uint64_t room = run->left[node][to];
        if (room > 0 && run->height[node] == run->height[to] + 1) {
            uint64_t amount = run->waiting[node];
            push(run, node, to, amount < room ? amount : room);
        }
    }
    if (run->waiting[node] > 0) {
        lift(run, node);
    }
}

/* The most that flows from source to sink. The run may end as soon as more
 * than `enough` has arrived. */
static uint64_t most_flow(const struct pipes *pipes, uint64_t enough)
{
    struct preflow run;
    memset(&run, 0, sizeof run);
    run.nodes = pipes->nodes;
    run.source = pipes->source;
    run.sink = pipes->sink;
    memcpy(run.left, pipes->capacity, sizeof run.left);
    run.at_height[0] = run.nodes;
    set_height(&run, run.source, run.nodes);
    for (unsigned to = 0; to < run.nodes; to++) {
        uint64_t amount = run.left[run.source][to];
        run.waiting[run.source] += amount;
        push(&run, run.source, to, amount);
    }
    for (unsigned node = busiest(&run); node != run.sink;
         node = busiest(&run)) {
        discharge(&run, node);
        if (run.waiting[run.sink] > enough) {
            break;
        }
    }
    return run.waiting[run.sink];
}

/* A node lies on the sink's side of every cheapest cut exactly when forcing it
 * to the source's side makes every cut dearer, so that more flows. */
static bool always_at_sink(struct pipes *pipes, unsigned node, uint64_t price)
{
    uint64_t kept = pipes->capacity[pipes->source][node];
    pipes->capacity[pipes->source][node] = ENDLESS;
    bool dearer = most_flow(pipes, price) > price;
    pipes->capacity[pipes->source][node] = kept;
    return dearer;
}

uint64_t best_set_by_cuts(const uint64_t *rows, const uint64_t *costs,
                          unsigned n, unsigned t, uint64_t x)
{
    struct pipes pipes;
    unsigned others[SECOND_MOST_JOBS];
    unsigned count = list_others(x, t, others);
    lay_pipes(&pipes, rows, costs, t, others, count);
    uint64_t price = most_flow(&pipes, UINT64_MAX);
    uint64_t set = 0;
    for (unsigned i = 0; i < count; i++) {
        if (always_at_sink(&pipes, 2 * i + 1, price) &&
            !always_at_sink(&pipes, 2 * i, price)) {
            set |= only(others[i]);
        }
    }
    must(total_cost(costs, n, set) == price, "the cut costs what flows");
    return set;
}
