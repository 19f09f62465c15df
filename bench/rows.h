/* Numbers out of bytes, and the jobs on rings: what the reference and the
 * libraries' side of the benchmark share. A row is a mask of the jobs that a job
 * waits for, job k as 2^k. */
#ifndef BENCH_ROWS_H
#define BENCH_ROWS_H

#include <stddef.h>
#include <stdint.h>
#include <string.h>

enum { MOST_JOBS = 64, MOST_PLACES = MOST_JOBS * MOST_JOBS };

/* The number whose eight bytes stand in memory with the most significant first,
 * from the number that the machine reads there; and the other way round. */
static inline uint64_t big_endian(uint64_t number)
{
#if __BYTE_ORDER__ == __ORDER_LITTLE_ENDIAN__
    return __builtin_bswap64(number);
#else
    return number;
#endif
}

static inline uint64_t get_number(const uint8_t *bytes)
{
    uint64_t number;
    memcpy(&number, bytes, sizeof number);
    return big_endian(number);
}

static inline void put_number(uint8_t *bytes, uint64_t number)
{
    number = big_endian(number);
    memcpy(bytes, &number, sizeof number);
}

static inline uint64_t only(unsigned job)
{
    return (uint64_t)1 << job;
}

static inline unsigned lowest(uint64_t jobs)
{
    return (unsigned)__builtin_ctzll(jobs);
}

static inline uint64_t without_lowest(uint64_t jobs)
{
    return jobs & (jobs - 1);
}

/* The jobs that `from` reaches along no or more waits. */
static inline uint64_t reach(const uint64_t *rows, unsigned from)
{
    uint64_t seen = only(from), done = 0;
    while (seen != done) {
        unsigned u = lowest(seen ^ done);
        done |= only(u);
        seen |= rows[u];
    }
    return seen;
}

/* Those of the jobs that wait for a marked one. */
static inline uint64_t gather(const uint64_t *rows, uint64_t jobs,
                              uint64_t marked)
{
    uint64_t hits = 0;
    for (uint64_t rest = jobs; rest != 0; rest = without_lowest(rest)) {
        unsigned u = lowest(rest);
        hits |= (uint64_t)((rows[u] & marked) != 0) << u;
    }
    return hits;
}

/* X: T with all jobs that lie on a ring through it. */
static inline uint64_t jobs_on_rings(const uint64_t *rows, unsigned t)
{
    uint64_t away = reach(rows, t), x = only(t), fresh;
    while ((fresh = gather(rows, away ^ x, x)) != 0) {
        x |= fresh;
    }
    return x;
}

#endif
