#include "workloads.h"
#include "hardest.h"
#include "rows.h"

#include <stdbool.h>
#include <stdio.h>
#include <stdlib.h>

enum { POOLS = 16, DESK_POOLS = 4 };

/* More rounds than any snapshot takes. */
#define AMPLE 0xFFFFFFFFu

/* ---- Dice: the xorshift64* generator ---- */

static uint64_t state;

static void seed(uint64_t number)
{
    state = (number + 1) * 0x9E3779B97F4A7C15u;
}

static unsigned below(unsigned bound)
{
    state ^= state >> 12;
    state ^= state << 25;
    state ^= state >> 27;
    return (unsigned)((state * 0x2545F4914F6CDD1Du >> 32) % bound);
}

static bool chance(unsigned count, unsigned of)
{
    return below(of) < count;
}

/* ---- Waits ---- */

/* A snapshot in numbers, before it is written as bytes. */
struct draft {
    unsigned n, t;
    uint64_t rows[MOST_JOBS], costs[MOST_JOBS];
};

static void wait_for(struct draft *d, unsigned u, unsigned v)
{
    if (u != v) {
        d->rows[u] |= only(v);
    }
}

/* Each job is active at one to three pools; seven of eight jobs wait at one more.
 * T, a job that timed out, waits. */
static void from_pools(struct draft *d, unsigned pools)
{
    uint64_t active[POOLS] = {0};
    unsigned waits_at[MOST_JOBS];
    for (unsigned job = 0; job < d->n; job++) {
        waits_at[job] = job == d->t || chance(7, 8) ? below(pools) : pools;
        for (unsigned held = 1 + below(3); held > 0; held--) {
            unsigned pool = below(pools);
            if (pool != waits_at[job]) {
                active[pool] |= only(job);
            }
        }
    }
    for (unsigned job = 0; job < d->n; job++) {
        d->rows[job] = waits_at[job] == pools ? 0 : active[waits_at[job]];
    }
}

/* Each possible wait is there `count` times in `of`. */
static void scatter(struct draft *d, unsigned count, unsigned of)
{
    for (unsigned u = 0; u < d->n; u++) {
        for (unsigned v = 0; v < d->n; v++) {
            if (chance(count, of)) {
                wait_for(d, u, v);
            }
        }
    }
}

/* T waits for the first of five to nine layers, each layer's jobs for about half
 * of the next, the last for T; a few waits lead anywhere. */
static void in_layers(struct draft *d)
{
    unsigned layers = 5 + below(5), layer[MOST_JOBS];
    for (unsigned job = 0; job < d->n; job++) {
        layer[job] = below(layers);
    }
    for (unsigned u = 0; u < d->n; u++) {
        if (u != d->t && layer[u] == 0) {
            wait_for(d, d->t, u);
        }
        if (u != d->t && layer[u] == layers - 1) {
            wait_for(d, u, d->t);
        }
        for (unsigned v = 0; v < d->n; v++) {
            bool onward = layer[v] == layer[u] + 1;
            if (u != d->t && v != d->t && chance(onward ? 20 : 1, 40)) {
                wait_for(d, u, v);
            }
        }
    }
}

/* A job waits for every third of the jobs behind it in a random order. */
static void without_ring(struct draft *d)
{
    unsigned order[MOST_JOBS];
    for (unsigned i = 0; i < d->n; i++) {
        unsigned j = below(i + 1);
        order[i] = order[j];
        order[j] = i;
    }
    for (unsigned i = 0; i < d->n; i++) {
        for (unsigned j = i + 1; j < d->n; j++) {
            if (chance(1, 3)) {
                wait_for(d, order[i], order[j]);
            }
        }
    }
}

/* One of the snapshots that were found to take the most rounds, each cost made
 * four times as high and then up to a 32nd higher: hardly a round is lost. */
static void hardest(struct draft *d, const struct hardest *found)
{
    d->t = 0;
    for (unsigned job = 0; job < d->n; job++) {
        d->rows[job] = found->rows[job];
        uint64_t cost = 4 * found->costs[job];
        d->costs[job] = cost + cost / 32 * below(1001) / 1000;
    }
    d->costs[d->t] = chance(1, 2) ? 1 : (uint64_t)1 << 42;
}

/* ---- Costs ---- */

/* 100 × operations submitted + 1 × age in milliseconds, up to an hour. T is older,
 * often by so much that the others go. */
static void set_costs(struct draft *d)
{
    for (unsigned job = 0; job < d->n; job++) {
        d->costs[job] = 100 * (1 + below(20000)) + below(3600000);
    }
    d->costs[d->t] += (uint64_t)3600000 * below(32);
}

/* ---- Workloads ---- */

enum kind { DESK, POOL_TABLES, SPARSE, DENSE, LAYERED, NO_RING, MANY_ROUNDS, MOST_ROUNDS, KINDS };

static const struct {
    const char *name, *about;
} listed[KINDS] = {
    {"desk", "4 to 8 jobs at 4 pools"},
    {"pools", "33 to 64 jobs at 16 pools"},
    {"sparse", "64 jobs, each waits for about 3"},
    {"dense", "64 jobs, half of all waits"},
    {"layered", "64 jobs in 5 to 9 layers"},
    {"no-ring", "64 jobs, waits in one direction"},
    {"many-rounds", "64 jobs, some 160 rounds"},
    {"most-rounds", "64 jobs, the most rounds that were found"},
};

enum { SMALLEST = 4, STEP = 4, SIZES = MOST_JOBS / STEP };

static const char size_name[SIZES][9] = {
    "pools-4",  "pools-8",  "pools-12", "pools-16", "pools-20", "pools-24",
    "pools-28", "pools-32", "pools-36", "pools-40", "pools-44", "pools-48",
    "pools-52", "pools-56", "pools-60", "pools-64",
};

const char *workload_name(unsigned index)
{
    return index < KINDS           ? listed[index].name
           : index - KINDS < SIZES ? size_name[index - KINDS]
                                   : NULL;
}

const char *workload_about(unsigned index)
{
    return index < KINDS ? listed[index].about : "pool tables of that many jobs";
}

static void make_draft(unsigned index, struct draft *d)
{
    memset(d, 0, sizeof *d);
    d->n = index == DESK          ? 4 + below(5)
           : index == POOL_TABLES ? 33 + below(32)
           : index < KINDS        ? MOST_JOBS
                                  : SMALLEST + STEP * (index - KINDS);
    d->t = below(d->n);
    set_costs(d);
    switch (index) {
    case DESK: from_pools(d, DESK_POOLS); break;
    case SPARSE: scatter(d, 3, MOST_JOBS); break;
    case DENSE: scatter(d, 1, 2); break;
    case LAYERED: in_layers(d); break;
    case NO_RING: without_ring(d); break;
    case MANY_ROUNDS: hardest(d, &many_found[below(MANY_FOUND)]); break;
    case MOST_ROUNDS: hardest(d, &most_found[below(MOST_FOUND)]); break;
    default: from_pools(d, POOLS); break;
    }
}

/* Small calls are so many that the processor does not learn them by heart. */
static unsigned calls_of(unsigned index)
{
    bool small = index == DESK || (index >= KINDS && index < KINDS + 6);
    return small ? 1000 : index == MOST_ROUNDS ? 200 : 300;
}

struct workload make_workload(unsigned index)
{
    struct workload w;
    struct draft d;
    w.count = calls_of(index);
    w.calls = malloc(w.count * sizeof *w.calls);
    if (w.calls == NULL) {
        fputs("no memory\n", stderr);
        exit(2);
    }
    seed(index);
    for (unsigned i = 0; i < w.count; i++) {
        struct call *c = &w.calls[i];
        make_draft(index, &d);
        c->n = d.n;
        c->t = d.t;
        c->allowance = AMPLE;
        for (unsigned u = 0; u < d.n; u++) {
            put_number(c->rows + 8 * u, d.rows[u]);
            put_number(c->costs + 8 * u, d.costs[u]);
        }
    }
    return w;
}
