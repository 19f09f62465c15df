/* Snapshots that take many rounds, found by a search; see hardest.c. T is job 0. */
#ifndef BENCH_HARDEST_H
#define BENCH_HARDEST_H

#include <stdint.h>

enum { MANY_FOUND = 4, MOST_FOUND = 2 };

struct hardest {
    uint64_t rows[64], costs[64];
};

/* Some 160 rounds each, and the most that were found. */
extern const struct hardest many_found[MANY_FOUND], most_found[MOST_FOUND];

#endif
