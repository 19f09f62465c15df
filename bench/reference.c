/* The reference: the method of the proved code, in C, as one writes it by hand:
 * masks of jobs, a breadth-first search with a queue of bytes, parents by place,
 * behind the first rounds the levels of a search for all paths of one length,
 * two walks up the parents in a round. Job u has the in-node 2u and the out-node
 * 2u + 1. */
#include "reference.h"
#include "rows.h"

#include <stdbool.h>

enum { MOST_NODES = 2 * MOST_JOBS, ANSWER_BYTES = 22, ANSWER_KIND = 0x03 };
enum { FEW = 12 }; /* rounds that are found by a search each */
enum outcome { WAIT, ABORT_T, ABORT_OTHERS, NOT_YET };

#define HIGHEST_COST ((uint64_t)1 << 42)
#define HIGHEST_SUM ((uint64_t)1 << 63)

struct snapshot {
    unsigned n, t;
    uint64_t x; /* T and the jobs on rings through it */
    uint64_t rows[MOST_JOBS], costs[MOST_JOBS];
};

/* The rounds' state. A step leads from an in-node to an out-node or the other
 * way, so that the jobs of steps[a] say to which nodes one may step from node a.
 * A wait never fills up: its capacity is more than all costs together, and of
 * the steps of a path one is always narrower. So its room is not looked at. */
struct flow {
    uint64_t steps[MOST_NODES];
    uint64_t through[MOST_JOBS]; /* the flow through each job */
    uint8_t queue[MOST_NODES];   /* nodes in the order in which they are met */
    uint8_t parent[MOST_NODES];  /* for each place of the queue its parent's */
    uint64_t levels[MOST_NODES]; /* the jobs that a path can have behind k steps */
    uint64_t on_wait[MOST_PLACES]; /* the flow on the wait u to v at u × n + v */
};

struct verdict {
    enum outcome outcome;
    uint32_t rounds;
    uint64_t price, victims;
};

/* ---- What is refused ---- */

static uint8_t refuse_lengths(size_t rows_len, size_t costs_len,
                              size_t work_len, size_t answer_len)
{
    size_t n = rows_len / 8;
    if (rows_len % 8 != 0 || n == 0 || n > MOST_JOBS) {
        return 1;
    }
    if (costs_len != rows_len) {
        return 2;
    }
    if (answer_len < ANSWER_BYTES || work_len / 8 < n * n) {
        return 3;
    }
    return 0;
}

static uint8_t refuse_numbers(const struct snapshot *s, uint64_t t)
{
    uint64_t named = 0, own = 0, sum = 0;
    bool stray = false;
    for (unsigned u = 0; u < s->n; u++) {
        named |= s->rows[u];
        own |= s->rows[u] & only(u);
        stray |= s->costs[u] - 1 >= HIGHEST_COST;
        sum += s->costs[u];
    }
    if (named >> (s->n - 1) >> 1 != 0) {
        return 4;
    }
    if (own != 0) {
        return 5;
    }
    if (t >= s->n) {
        return 6;
    }
    if (stray) {
        return 7;
    }
    return sum + 1 > HIGHEST_SUM ? 8 : 0;
}

/* ---- Rounds ---- */

static void begin(const struct snapshot *s, struct flow *f)
{
    memset(f->on_wait, 0, (size_t)s->n * s->n * sizeof f->on_wait[0]);
    for (uint64_t rest = s->x; rest != 0; rest = without_lowest(rest)) {
        unsigned u = lowest(rest);
        f->steps[2 * u] = u == s->t ? 0 : only(u);
        f->steps[2 * u + 1] = s->rows[u] & s->x;
        f->through[u] = 0;
    }
}

/* The place of T's in-node in the queue, or 0 where no path is left. The nodes of
 * a level lie on one side, and their neighbours on the other. */
static unsigned search(const struct snapshot *s, struct flow *f)
{
    unsigned source = 2 * s->t + 1, sink = 2 * s->t;
    uint64_t unmet[2] = {~(uint64_t)0, ~only(s->t)};
    unsigned met = 1, head = 0, side = 0;
    f->queue[0] = (uint8_t)source;
    while (head < met) {
        unsigned end = met;
        uint64_t open = unmet[side];
        for (; head < end; head++) {
            uint64_t rest = f->steps[f->queue[head]] & open;
            open ^= rest;
            while (rest != 0) {
                unsigned b = 2 * lowest(rest) + side;
                f->queue[met] = (uint8_t)b;
                f->parent[met] = (uint8_t)head;
                if (b == sink) {
                    return met;
                }
                met++;
                rest = without_lowest(rest);
            }
        }
        unmet[side] = open;
        side = 1 - side;
    }
    return 0;
}

/* The levels of the queue up to T's in-node, which is alone in the last. The nodes
 * of a level lie on one side. */
static void layer(struct flow *f, unsigned place)
{
    unsigned k = 0, side = f->queue[0] % 2;
    uint64_t met = 0;
    for (unsigned i = 0; i <= place; i++) {
        unsigned b = f->queue[i];
        if (b % 2 != side) {
            f->levels[k++] = met;
            met = 0;
            side = 1 - side;
        }
        met |= only(b / 2);
    }
    f->levels[k] = only(f->queue[place] / 2);
}

/* A further path down the levels, lowest nodes first: the place of T's in-node, or
 * 0 where there is none. Nodes that lead nowhere leave their level. */
static unsigned descend(const struct snapshot *s, struct flow *f)
{
    unsigned sink = 2 * s->t, a = sink + 1, k = 0;
    f->queue[0] = (uint8_t)a;
    while (a != sink) {
        uint64_t rest = f->steps[a] & f->levels[k + 1];
        if (rest != 0) {
            a = 2 * lowest(rest) + 1 - a % 2;
            f->parent[k + 1] = (uint8_t)k;
            f->queue[++k] = (uint8_t)a;
        } else if (k != 0) {
            f->levels[k] ^= only(a / 2);
            a = f->queue[--k];
        } else {
            return 0;
        }
    }
    return k;
}

/* The largest amount that every step up to `place` allows. */
static uint64_t amount(const struct snapshot *s, const struct flow *f,
                       unsigned place)
{
    uint64_t least = UINT64_MAX;
    while (place != 0) {
        unsigned up = f->parent[place], a = f->queue[up], b = f->queue[place];
        unsigned u = a / 2, v = b / 2;
        uint64_t room = UINT64_MAX;
        if (u == v) {
            room = a % 2 == 0 ? s->costs[u] - f->through[u] : f->through[u];
        } else if (a % 2 == 0) {
            room = f->on_wait[v * s->n + u];
        }
        least = room < least ? room : least;
        place = up;
    }
    return least;
}

static void push(const struct snapshot *s, struct flow *f, unsigned place,
                 uint64_t pushed)
{
    while (place != 0) {
        unsigned up = f->parent[place], a = f->queue[up], b = f->queue[place];
        unsigned u = a / 2, v = b / 2;
        bool full = false;
        if (u != v && a % 2 == 1) {
            f->on_wait[u * s->n + v] += pushed;
        } else if (u != v) {
            full = (f->on_wait[v * s->n + u] -= pushed) == 0;
        } else if (a % 2 == 0) {
            full = (f->through[u] += pushed) == s->costs[u];
        } else {
            full = (f->through[u] -= pushed) == 0;
        }
        f->steps[a] ^= (uint64_t)full << v;
        f->steps[b] |= only(u);
        place = up;
    }
}

/* ---- Verdict ---- */

/* The jobs of X whose out-node lies on the sink's side, and whose in-node does
 * not: T's in-node can still be reached from the one, not from the other. */
static uint64_t cheapest_set(const struct snapshot *s, const struct flow *f)
{
    uint64_t ins = only(s->t), outs = 0, old;
    do {
        old = ins;
        for (uint64_t rest = s->x & ~outs; rest != 0;
             rest = without_lowest(rest)) {
            unsigned u = lowest(rest);
            outs |= (uint64_t)((f->steps[2 * u + 1] & ins) != 0) << u;
        }
        for (uint64_t rest = s->x & ~ins; rest != 0;
             rest = without_lowest(rest)) {
            unsigned u = lowest(rest);
            ins |= (uint64_t)((f->steps[2 * u] & outs) != 0) << u;
        }
    } while (ins != old);
    return outs & ~ins;
}

static struct verdict decide(const struct snapshot *s, struct flow *f,
                             uint32_t allowance)
{
    struct verdict v = {NOT_YET, 0, 0, 0};
    uint64_t price = 0;
    begin(s, f);
    unsigned place = search(s, f);
    while (place != 0) {
        bool levels = v.rounds >= FEW;
        if (levels) {
            layer(f, place);
        }
        do {
            if (v.rounds == allowance) {
                return v;
            }
            uint64_t pushed = amount(s, f, place);
            push(s, f, place, pushed);
            price += pushed;
            v.rounds++;
            place = levels ? descend(s, f) : 0;
        } while (place != 0);
        place = search(s, f);
    }
    if (s->costs[s->t] < price) {
        v.outcome = ABORT_T;
        v.price = s->costs[s->t];
        v.victims = only(s->t);
    } else {
        v.outcome = ABORT_OTHERS;
        v.price = price;
        v.victims = cheapest_set(s, f);
    }
    return v;
}

/* One number at a time: swapping several at once takes twice as long on the
 * plain x86-64 that all is built for. */
static void put_flows(uint8_t *work, const uint64_t *flows, size_t places)
{
#ifdef __clang__
#pragma clang loop vectorize(disable)
#endif
    for (size_t i = 0; i < places; i++) {
        put_number(work + 8 * i, flows[i]);
    }
}

static void put_answer(uint8_t *answer, const struct verdict *v)
{
    answer[0] = ANSWER_KIND;
    answer[1] = (uint8_t)v->outcome;
    put_number(answer + 2, v->price);
    answer[10] = (uint8_t)(v->rounds >> 24);
    answer[11] = (uint8_t)(v->rounds >> 16);
    answer[12] = (uint8_t)(v->rounds >> 8);
    answer[13] = (uint8_t)v->rounds;
    put_number(answer + 14, v->victims);
}

uint8_t reference_verdict(const uint8_t *rows, size_t rows_len,
                          const uint8_t *costs, size_t costs_len,
                          uint64_t t, uint32_t allowance,
                          uint8_t *work, size_t work_len,
                          uint8_t *answer, size_t answer_len)
{
    uint8_t refusal = refuse_lengths(rows_len, costs_len, work_len, answer_len);
    if (refusal != 0) {
        return refusal;
    }
    struct snapshot s;
    s.n = (unsigned)(rows_len / 8);
    for (unsigned u = 0; u < s.n; u++) {
        s.rows[u] = get_number(rows + 8 * u);
        s.costs[u] = get_number(costs + 8 * u);
    }
    refusal = refuse_numbers(&s, t);
    if (refusal != 0) {
        return refusal;
    }
    s.t = (unsigned)t;
    s.x = jobs_on_rings(s.rows, s.t);
    size_t places = (size_t)s.n * s.n;
    struct verdict v = {WAIT, 0, 0, 0};
    if (s.x == only(s.t)) {
        memset(work, 0, 8 * places);
    } else {
        struct flow f;
        v = decide(&s, &f, allowance);
        put_flows(work, f.on_wait, places);
    }
    put_answer(answer, &v);
    return 0;
}
