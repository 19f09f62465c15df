/* Searches for snapshots of 64 jobs that take many rounds, by simulated annealing,
 * and writes the best one in the form of hardest.c.
 *
 *   cc -std=c11 -O2 -o find_hardest find_hardest.c reference.c -lm
 *   ./find_hardest SEED TRIES
 *
 * A million tries take some minutes and find 500 to 600 rounds. */
#include "reference.h"
#include "rows.h"

#include <math.h>
#include <stdbool.h>
#include <stdio.h>
#include <stdlib.h>

enum { JOBS = MOST_JOBS, T = 0, LAYERS = 4, COST_BITS = 39 };

struct snapshot {
    uint64_t rows[JOBS], costs[JOBS];
};

static uint64_t state;

static uint64_t roll(void)
{
    state ^= state >> 12;
    state ^= state << 25;
    state ^= state >> 27;
    return state * 0x2545F4914F6CDD1Du >> 8;
}

static unsigned below(unsigned bound)
{
    return (unsigned)(roll() % bound);
}

/* A cost of some random number of bits. */
static uint64_t some_cost(void)
{
    return 1 + roll() % ((uint64_t)1 << (1 + below(COST_BITS)));
}

/* T waits for a first layer, each layer for half of the next, the last for T. */
static void start(struct snapshot *s)
{
    memset(s, 0, sizeof *s);
    for (unsigned u = 0; u < JOBS; u++) {
        unsigned layer = u * LAYERS / JOBS;
        s->costs[u] = some_cost();
        for (unsigned v = 1; v < JOBS; v++) {
            bool onward = v * LAYERS / JOBS == layer + 1;
            if (u == T ? v * LAYERS / JOBS == 0 : below(40) < (onward ? 20 : 1)) {
                s->rows[u] |= only(v);
            }
        }
        s->rows[u] |= layer == LAYERS - 1 ? only(T) : 0;
        s->rows[u] &= ~only(u);
    }
}

/* The other jobs u and v change their numbers. */
static void swap_jobs(struct snapshot *s, unsigned u, unsigned v)
{
    struct snapshot old = *s;
    s->rows[u] = old.rows[v];
    s->rows[v] = old.rows[u];
    s->costs[u] = old.costs[v];
    s->costs[v] = old.costs[u];
    for (unsigned job = 0; job < JOBS; job++) {
        uint64_t differ = (s->rows[job] >> u ^ s->rows[job] >> v) & 1;
        s->rows[job] ^= differ << u | differ << v;
        s->rows[job] &= ~only(job);
    }
}

static void change(struct snapshot *s)
{
    unsigned u = below(JOBS), v = below(JOBS), other = 1 + below(JOBS - 1);
    switch (below(6)) {
    case 0:
    case 1:
    case 2: s->rows[u] ^= u == v ? 0 : only(v); break;
    case 3: s->costs[other] = some_cost(); break;
    case 4:
        s->costs[other] -= s->costs[other] / 8;
        s->costs[other] += roll() % (s->costs[other] / 4 + 2);
        break;
    default:
        if (v != T && other != v) {
            swap_jobs(s, other, v);
        }
        break;
    }
}

static unsigned rounds_of(const struct snapshot *s)
{
    static uint8_t rows[8 * JOBS], costs[8 * JOBS], work[8 * JOBS * JOBS];
    uint8_t answer[22];
    for (unsigned u = 0; u < JOBS; u++) {
        put_number(rows + 8 * u, s->rows[u]);
        put_number(costs + 8 * u, s->costs[u]);
    }
    if (reference_verdict(rows, sizeof rows, costs, sizeof costs, T, 0xFFFFFFFF,
                          work, sizeof work, answer, sizeof answer) != 0) {
        return 0;
    }
    return (unsigned)answer[12] << 8 | answer[13];
}

/* So many numbers a line, each of so many digits at least. */
static void write_list(const uint64_t *list, unsigned a_line, int digits)
{
    printf("        {");
    for (unsigned u = 0; u < JOBS; u++) {
        printf("%s0x%0*llX,", u % a_line == 0 ? "\n            " : " ", digits,
               (unsigned long long)list[u]);
    }
    printf("\n        },\n");
}

int main(int argc, char **argv)
{
    struct snapshot now, old, best;
    state = ((argc > 1 ? strtoull(argv[1], NULL, 10) : 1) << 1 | 1) *
            0x9E3779B97F4A7C15u;
    long tries = argc > 2 ? atol(argv[2]) : 100000;
    start(&now);
    best = now;
    unsigned made = rounds_of(&now), most = made;
    for (long i = 0; i < tries; i++) {
        double heat = 2.0 * pow(0.075, (double)i / (double)tries);
        old = now;
        for (unsigned changes = 1 + below(8) / 6; changes > 0; changes--) {
            change(&now);
        }
        unsigned found = rounds_of(&now);
        double fall = (double)made - (double)found;
        if (fall > 0 && below(1000000) >= 1e6 * exp(-fall / heat)) {
            now = old;
            continue;
        }
        made = found;
        if (found > most) {
            most = found;
            best = now;
        }
    }
    printf("    {\n        /* %u rounds */\n", most);
    write_list(best.rows, 3, 16);
    write_list(best.costs, 5, 1);
    printf("    },\n");
    return 0;
}
