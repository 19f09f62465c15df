/* Those that are measured: the proved code, the reference, the libraries. */
#ifndef BENCH_CONTENDERS_H
#define BENCH_CONTENDERS_H

#include "rows.h"
#include "workloads.h"

#include <stdbool.h>

enum { ANSWER_BYTES = 22, WORK_BYTES = 8 * MOST_PLACES };

/* The lists that a call is lent. */
struct lent {
    uint8_t answer[ANSWER_BYTES], work[WORK_BYTES];
};

struct contender {
    const char *name;
    bool price_only;
    /* Makes one call and returns the refusal; where only the price is worked out
     * it is put where an answer frame has it. */
    uint8_t (*make)(const struct call *call, struct lent *lent);
};

enum { REFERENCE, PROVED };

extern const struct contender contenders[];
extern const unsigned contender_count;

#endif
