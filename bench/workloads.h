/* Seeded workloads: lists of accepted verdict calls as bytes. The same name gives
 * the same calls on every machine. */
#ifndef BENCH_WORKLOADS_H
#define BENCH_WORKLOADS_H

#include <stddef.h>
#include <stdint.h>

/* One call of n jobs: rows and costs have 8n bytes. */
struct call {
    unsigned n, t;
    uint32_t allowance;
    uint8_t rows[512], costs[512];
};

struct workload {
    unsigned count;
    struct call *calls;
};

/* The workloads' names: first those of the table, then pool tables of n jobs for
 * n = 4, 8, .., 64, named `pools-4` and on. NULL past the last. */
const char *workload_name(unsigned index);

/* What a workload is, in a few words. */
const char *workload_about(unsigned index);

/* Makes a workload; what it allocates is kept to the end of the program. */
struct workload make_workload(unsigned index);

#endif
