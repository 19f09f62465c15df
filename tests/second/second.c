/* Waits, refusals 1 to 8, the verdict call and its C entry. */
#include "second.h"
#include "parts.h"

#include <stdio.h>
#include <stdlib.h>

void must(bool holds, const char *promise)
{
    if (!holds) {
        fprintf(stderr, "second: does not hold: %s\n", promise);
        abort();
    }
}

uint64_t total_cost(const uint64_t *costs, unsigned n, uint64_t set)
{
    uint64_t total = 0;
    for (unsigned job = 0; job < n; job++) {
        if (has(set, job)) {
            total += costs[job];
        }
    }
    return total;
}

/* ---- Reach, by Warshall's closure of the table of waits ---- */

struct table {
    bool leads[SECOND_MOST_JOBS][SECOND_MOST_JOBS];
};

/* leads[u][v]: one or more waits lead from job u to job v. */
static void close_waits(const uint64_t *rows, size_t n, struct table *table)
{
    for (unsigned u = 0; u < n; u++) {
        for (unsigned v = 0; v < n; v++) {
            table->leads[u][v] = has(rows[u], v);
        }
    }
    for (unsigned by = 0; by < n; by++) {
        for (unsigned u = 0; u < n; u++) {
            for (unsigned v = 0; v < n; v++) {
                if (table->leads[u][by] && table->leads[by][v]) {
                    table->leads[u][v] = true;
                }
            }
        }
    }
}

/* The jobs that `from` reaches along no or more waits; where `and_back`, only
 * those that also reach it. */
static uint64_t reached(const uint64_t *rows, size_t n, size_t from,
                        bool and_back)
{
    struct table table;
    if (n > SECOND_MOST_JOBS || from >= n) {
        return 0;
    }
    close_waits(rows, n, &table);
    uint64_t jobs = only((unsigned)from);
    for (unsigned job = 0; job < n; job++) {
        if (table.leads[from][job] && (!and_back || table.leads[job][from])) {
            jobs |= only(job);
        }
    }
    return jobs;
}

uint64_t second_reach(const uint64_t *rows, size_t n, size_t from)
{
    return reached(rows, n, from, false);
}

uint64_t second_on_rings(const uint64_t *rows, size_t n, size_t t)
{
    return reached(rows, n, t, true);
}

/* ---- The verdict call ---- */

static bool a_row_names_no_job(const uint64_t *rows, size_t n)
{
    for (size_t u = 0; u < n; u++) {
        if (n < SECOND_MOST_JOBS && rows[u] >> n != 0) {
            return true;
        }
    }
    return false;
}

static bool a_job_waits_for_itself(const uint64_t *rows, size_t n)
{
    for (unsigned u = 0; u < n; u++) {
        if (has(rows[u], u)) {
            return true;
        }
    }
    return false;
}

static bool a_cost_is_out_of_range(const uint64_t *costs, size_t n)
{
    for (size_t u = 0; u < n; u++) {
        if (costs[u] == 0 || costs[u] > HIGHEST_COST) {
            return true;
        }
    }
    return false;
}

/* Costs were found to be at most 2^42 and at most 64 of them, so that this
 * sum is exact and refusal 8 is never met; it is tested all the same. */
static bool the_costs_are_too_many(const uint64_t *costs, size_t n)
{
    uint64_t sum = 0;
    for (size_t u = 0; u < n; u++) {
        sum += costs[u];
    }
    return sum + 1 > (uint64_t)1 << 63;
}

/* Refusals 1 to 8 in that order, each over the whole input. */
static int refusal_of_call(const uint64_t *rows, size_t n_rows,
                           const uint64_t *costs, size_t n_costs,
                           uint64_t t, size_t n_work)
{
    if (n_rows == 0 || n_rows > SECOND_MOST_JOBS) {
        return 1;
    }
    if (n_costs != n_rows) {
        return 2;
    }
    if (n_work < n_rows * n_rows) {
        return 3;
    }
    if (a_row_names_no_job(rows, n_rows)) {
        return 4;
    }
    if (a_job_waits_for_itself(rows, n_rows)) {
        return 5;
    }
    if (t >= n_rows) {
        return 6;
    }
    if (a_cost_is_out_of_range(costs, n_costs)) {
        return 7;
    }
    if (the_costs_are_too_many(costs, n_costs)) {
        return 8;
    }
    return 0;
}

/* Step 2, once no path is left: the best set against T. Its cost is held
 * against the flow that the rounds brought to the sink. */
static void choose(const uint64_t *rows, const uint64_t *costs, unsigned n,
                   unsigned t, uint64_t x, uint64_t into_sink,
                   struct answer *out)
{
    unsigned jobs = 0;
    for (unsigned job = 0; job < n; job++) {
        jobs += has(x, job);
    }
    uint64_t set = jobs <= MOST_TO_TRY
                       ? best_set_by_trying(rows, costs, n, t, x)
                       : best_set_by_cuts(rows, costs, n, t, x);
    uint64_t price = total_cost(costs, n, set);
    must((set & ~(x & ~only(t))) == 0, "the set holds jobs of X without T");
    must(opens_every_ring(rows, n, t, set), "the set opens every ring");
    must(price == into_sink, "the best set costs what the rounds brought");
    if (costs[t] < price) {
        out->outcome = SECOND_ABORT_T;
        out->price = costs[t];
        out->victims = only(t);
    } else {
        out->outcome = SECOND_ABORT_OTHERS;
        out->price = price;
        out->victims = set;
    }
}

int second_verdict(const uint64_t *rows, size_t n_rows,
                   const uint64_t *costs, size_t n_costs,
                   uint64_t t, uint32_t allowance,
                   uint64_t *work, size_t n_work, struct answer *out)
{
    int refusal = refusal_of_call(rows, n_rows, costs, n_costs, t, n_work);
    if (refusal != 0) {
        return refusal;
    }
    unsigned n = (unsigned)n_rows;
    unsigned timed_out = (unsigned)t;
    uint64_t x = second_on_rings(rows, n, timed_out);
    *out = (struct answer){.outcome = SECOND_WAIT};
    if (x == only(timed_out)) { /* no ring passes through T */
        for (size_t place = 0; place < (size_t)n * n; place++) {
            work[place] = 0;
        }
        return 0;
    }
    struct rounds rounds =
        make_rounds(rows, costs, n, timed_out, x, allowance, work);
    out->rounds = rounds.made;
    if (rounds.path_left) {
        out->outcome = SECOND_NOT_YET;
    } else {
        choose(rows, costs, n, timed_out, x, rounds.into_sink, out);
    }
    return 0;
}

/* ---- The C entry ---- */

static uint64_t number_at(const uint8_t *bytes, size_t place)
{
    uint64_t number = 0;
    for (size_t i = 0; i < 8; i++) {
        number = number << 8 | bytes[8 * place + i];
    }
    return number;
}

/* Puts the lowest `count` bytes of a number down, most significant first. */
static uint8_t *put_number(uint8_t *to, uint64_t number, unsigned count)
{
    for (unsigned left = count; left > 0; left--) {
        *to++ = (uint8_t)(number >> 8 * (left - 1));
    }
    return to;
}

int second_call_bytes(const uint8_t *rows, size_t rows_len,
                      const uint8_t *costs, size_t costs_len,
                      uint64_t t, uint32_t allowance,
                      uint8_t *work, size_t work_len,
                      uint8_t *answer, size_t answer_len)
{
    uint64_t row_list[SECOND_MOST_JOBS], cost_list[SECOND_MOST_JOBS];
    uint64_t flows[SECOND_MOST_JOBS * SECOND_MOST_JOBS];
    struct answer found;
    size_t n = rows_len / 8;
    if (rows_len % 8 != 0 || n == 0 || n > SECOND_MOST_JOBS) {
        return 1;
    }
    if (costs_len % 8 != 0 || costs_len / 8 != n) {
        return 2;
    }
    if (answer_len < SECOND_ANSWER_BYTES || work_len / 8 < n * n) {
        return 3;
    }
    for (size_t job = 0; job < n; job++) {
        row_list[job] = number_at(rows, job);
        cost_list[job] = number_at(costs, job);
    }
    int refusal = second_verdict(row_list, n, cost_list, n, t, allowance,
                                 flows, n * n, &found);
    if (refusal != 0) {
        return refusal;
    }
    for (size_t place = 0; place < n * n; place++) {
        put_number(work + 8 * place, flows[place], 8);
    }
    answer = put_number(answer, 0x03, 1);
    answer = put_number(answer, found.outcome, 1);
    answer = put_number(answer, found.price, 8);
    answer = put_number(answer, found.rounds, 4);
    put_number(answer, found.victims, 8);
    return 0;
}
