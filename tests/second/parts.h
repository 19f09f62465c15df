/* The parts of the second program's library that its own files and its
 * self-check share. Everything here takes an accepted call: n jobs, T below n,
 * no job waiting for itself, costs from 1 to 2^42. */
#ifndef PARTS_H
#define PARTS_H

#include <stdbool.h>
#include <stdint.h>

/* The highest cost that a call takes. */
#define HIGHEST_COST ((uint64_t)1 << 42)

/* Ends the program with a message where something that document 01 promises
 * does not hold. It is a check of this program by itself, never a refusal. */
void must(bool holds, const char *promise);

static inline bool has(uint64_t set, unsigned job)
{
    return (set >> job & 1) != 0;
}

static inline uint64_t only(unsigned job)
{
    return (uint64_t)1 << job;
}

/* The total cost of a set of jobs. */
uint64_t total_cost(const uint64_t *costs, unsigned n, uint64_t set);

/* How the rounds ended. */
struct rounds {
    uint32_t made;
    bool path_left;      /* a path is left although the allowance is used up */
    uint64_t into_sink;  /* the flow that arrives at T's in-node */
};

/* Makes the rounds of the network of X and puts the flow on the wait u to v
 * into flows[u * n + v], 0 where there is no such wait within X. */
struct rounds make_rounds(const uint64_t *rows, const uint64_t *costs,
                          unsigned n, unsigned t, uint64_t x,
                          uint32_t allowance, uint64_t *flows);

/* Whether the abort of `set` opens every ring through T. */
bool opens_every_ring(const uint64_t *rows, unsigned n, unsigned t,
                      uint64_t set);

enum { MOST_TO_TRY = 14 }; /* the largest X whose sets are all tried */

/* The set of jobs of X without T that document 01 names, in two ways: by
 * trying every set (X of at most MOST_TO_TRY jobs), and by forced cuts. */
uint64_t best_set_by_trying(const uint64_t *rows, const uint64_t *costs,
                            unsigned n, unsigned t, uint64_t x);
uint64_t best_set_by_cuts(const uint64_t *rows, const uint64_t *costs,
                          unsigned n, unsigned t, uint64_t x);

#endif
