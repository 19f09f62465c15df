/* Seeded verdict calls. */
#include "generate.h"
#include "parts.h"
#include "second.h"

/* ---- Waits of several shapes ---- */

static void wait_for(struct call *call, unsigned u, unsigned v)
{
    if (u != v) {
        call->rows[u] |= only(v);
    }
}

static unsigned some_job(struct dice *dice, const struct call *call)
{
    return (unsigned)below(dice, call->n_rows);
}

/* Each possible wait is there `count` times in `of`. */
static void scatter(struct dice *dice, struct call *call, unsigned count,
                    unsigned of)
{
    for (unsigned u = 0; u < call->n_rows; u++) {
        for (unsigned v = 0; v < call->n_rows; v++) {
            if (chance(dice, count, of)) {
                wait_for(call, u, v);
            }
        }
    }
}

/* The waits of a random pool table: each job waits at one pool at most. */
static void from_pools(struct dice *dice, struct call *call)
{
    unsigned pools = 1 + (unsigned)below(dice, 16);
    uint64_t active[16] = {0};
    int waits_at[MOST_LISTED];
    unsigned density = 2 + (unsigned)below(dice, 8);
    for (unsigned job = 0; job < call->n_rows; job++) {
        waits_at[job] = chance(dice, 5, 6) ? (int)below(dice, pools) : -1;
        for (unsigned pool = 0; pool < pools; pool++) {
            if ((int)pool != waits_at[job] && chance(dice, 1, density)) {
                active[pool] |= only(job);
            }
        }
    }
    for (unsigned job = 0; job < call->n_rows; job++) {
        call->rows[job] = waits_at[job] < 0 ? 0 : active[waits_at[job]];
    }
}

/* The jobs but T stand in layers; T waits for some of the first, each layer
 * for the next, the last for T. Waits back and within a layer are strewn in,
 * so that flow has to be taken back. */
static void in_layers(struct dice *dice, struct call *call)
{
    unsigned n = (unsigned)call->n_rows, t = (unsigned)call->t;
    unsigned layers = 1 + (unsigned)below(dice, n > 24 ? 8 : 4);
    unsigned of = 2 + (unsigned)below(dice, 3);
    unsigned layer[MOST_LISTED];
    for (unsigned job = 0; job < n; job++) {
        layer[job] = (unsigned)below(dice, layers);
    }
    for (unsigned u = 0; u < n; u++) {
        if (u == t) {
            continue;
        }
        if (layer[u] == 0 && chance(dice, 4, 5)) {
            wait_for(call, t, u);
        }
        if (layer[u] == layers - 1 && chance(dice, 4, 5)) {
            wait_for(call, u, t);
        }
        for (unsigned v = 0; v < n; v++) {
            bool onward = v != t && layer[v] == layer[u] + 1;
            if (v != t && (onward ? chance(dice, 1, of) : chance(dice, 1, 25))) {
                wait_for(call, u, v);
            }
        }
    }
}

/* T waits for each job of one half, each job of that half for few of the other
 * half, all of those for T: like case J, flow has to be taken back often. */
static void in_halves(struct dice *dice, struct call *call)
{
    unsigned n = (unsigned)call->n_rows, t = (unsigned)call->t;
    unsigned most = 1 + (unsigned)below(dice, 3);
    for (unsigned u = 0; u < n; u++) {
        if (u % 2 == 0) {
            wait_for(call, t, u);
        } else {
            wait_for(call, u, t);
        }
        for (unsigned i = 0; i < most && u % 2 == 0 && u != t; i++) {
            unsigned v = some_job(dice, call) | 1;
            wait_for(call, u, v < n ? v : t);
        }
    }
}

/* Waits lead from a job to later ones of a random order: no ring at all. */
static void without_ring(struct dice *dice, struct call *call)
{
    uint64_t rank[MOST_LISTED];
    for (unsigned job = 0; job < call->n_rows; job++) {
        rank[job] = roll(dice);
    }
    for (unsigned u = 0; u < call->n_rows; u++) {
        for (unsigned v = 0; v < call->n_rows; v++) {
            if (rank[u] < rank[v] && chance(dice, 1, 3)) {
                wait_for(call, u, v);
            }
        }
    }
}

/* One ring through all jobs, and a few waits across it. */
static void one_long_ring(struct dice *dice, struct call *call)
{
    unsigned n = (unsigned)call->n_rows;
    unsigned chords = (unsigned)below(dice, n + 1);
    for (unsigned job = 0; job < n; job++) {
        wait_for(call, job, (job + 1) % n);
    }
    for (unsigned i = 0; i < chords; i++) {
        unsigned u = some_job(dice, call), v = some_job(dice, call);
        wait_for(call, u, v);
    }
}

/* Rings that miss T, and T waiting for one of their jobs. */
static void rings_beside_t(struct dice *dice, struct call *call)
{
    unsigned t = (unsigned)call->t;
    scatter(dice, call, 2, (unsigned)call->n_rows + 2);
    for (unsigned job = 0; job < call->n_rows; job++) {
        call->rows[job] &= ~only(t);
    }
    wait_for(call, t, some_job(dice, call));
}

static void make_waits(struct dice *dice, struct call *call)
{
    unsigned n = (unsigned)call->n_rows;
    for (unsigned job = 0; job < MOST_LISTED; job++) {
        call->rows[job] = 0;
    }
    switch (below(dice, 13)) {
    case 0: scatter(dice, call, 3, 2 * n); break;
    case 1: scatter(dice, call, 3, n + 2); break;
    case 2: scatter(dice, call, 1, 2); break;
    case 3: scatter(dice, call, chance(dice, 1, 2) ? 9 : 10, 10); break;
    case 4:
    case 5: from_pools(dice, call); break;
    case 6:
    case 7: in_layers(dice, call); break;
    case 8:
    case 12: in_halves(dice, call); break;
    case 9: one_long_ring(dice, call); break;
    case 10: without_ring(dice, call); break;
    default: rings_beside_t(dice, call); break;
    }
}

/* Looks a few times for a T that lies on a ring. */
static void prefer_ring(struct dice *dice, struct call *call)
{
    for (unsigned tries = 0; tries < 8; tries++) {
        if (second_on_rings(call->rows, call->n_rows, call->t) !=
            only((unsigned)call->t)) {
            return;
        }
        call->t = some_job(dice, call);
    }
}

/* ---- Costs, T's cost near the price, and the allowance ---- */

static void make_costs(struct dice *dice, struct call *call)
{
    uint64_t kind = below(dice, 8);
    for (unsigned job = 0; job < MOST_LISTED; job++) {
        uint64_t *cost = &call->costs[job];
        switch (kind) {
        case 0: *cost = 1; break;
        case 1: *cost = 1 + below(dice, 2); break;
        case 2: *cost = 1 + below(dice, 5); break;
        case 3: *cost = 1 + below(dice, 1000); break;
        case 4: *cost = only((unsigned)below(dice, 43)); break;
        case 5: *cost = 1 + below(dice, HIGHEST_COST); break;
        case 6: *cost = HIGHEST_COST; break;
        default: *cost = chance(dice, 1, 3) ? HIGHEST_COST : 1; break;
        }
    }
}

/* Often sets T's cost just below, at, or just above the best set's cost, and
 * the allowance somewhere from 0 to beyond the rounds that are needed. */
static void tune(struct dice *dice, struct call *call)
{
    uint64_t work[SECOND_MOST_JOBS * SECOND_MOST_JOBS];
    unsigned n = (unsigned)call->n_rows, t = (unsigned)call->t;
    uint64_t x = second_on_rings(call->rows, n, t);
    struct rounds full = make_rounds(call->rows, call->costs, n, t, x,
                                     UINT32_MAX, work);
    if (chance(dice, 1, 2) && full.into_sink > 0) {
        uint64_t near = full.into_sink - 1 + below(dice, 3);
        call->costs[t] = near < 1 ? 1
                         : near > HIGHEST_COST ? HIGHEST_COST : near;
    } else if (chance(dice, 1, 2)) {
        call->costs[t] = HIGHEST_COST;
    }
    uint32_t made = full.made;
    switch (below(dice, 8)) {
    case 0: call->allowance = (uint32_t)below(dice, 3); break;
    case 1: call->allowance = (uint32_t)below(dice, (uint64_t)made + 1); break;
    case 2: call->allowance = made == 0 ? 0 : made - 1; break;
    case 3: call->allowance = made; break;
    case 4: call->allowance = made + 1; break;
    case 5: call->allowance = 100; break;
    default: call->allowance = UINT32_MAX; break;
    }
}

void make_whole_call(struct dice *dice, unsigned most_jobs, struct call *call)
{
    unsigned small = most_jobs < MOST_TO_TRY ? most_jobs : MOST_TO_TRY;
    unsigned most = chance(dice, 1, 2) ? small : most_jobs;
    call->n_rows = 1 + below(dice, most);
    call->n_costs = call->n_rows;
    call->t = below(dice, call->n_rows);
    call->n_work = call->n_rows * call->n_rows;
    if (chance(dice, 1, 4)) {
        call->n_work += 1 + below(dice, 20);
    }
    make_waits(dice, call);
    if (chance(dice, 3, 4)) {
        prefer_ring(dice, call);
    }
    make_costs(dice, call);
    tune(dice, call);
}

void make_call(struct dice *dice, struct call *call)
{
    make_whole_call(dice, SECOND_MOST_JOBS, call);
    if (chance(dice, 1, 6)) {
        damage_call(dice, call);
    }
}
