/* The self-check: small random calls, each looked at in several ways. */
#include "generate.h"
#include "main.h"
#include "parts.h"
#include "second.h"

#include <inttypes.h>
#include <stdio.h>
#include <stdlib.h>
#include <string.h>

/* Both ways to the best set agree, and the rounds bring what it costs. */
static void check_victims(const struct call *call)
{
    uint64_t flows[SECOND_MOST_JOBS * SECOND_MOST_JOBS];
    unsigned n = (unsigned)call->n_rows, t = (unsigned)call->t;
    uint64_t x = second_on_rings(call->rows, n, t);
    if (x == only(t)) {
        return;
    }
    uint64_t tried = best_set_by_trying(call->rows, call->costs, n, t, x);
    uint64_t cut = best_set_by_cuts(call->rows, call->costs, n, t, x);
    struct rounds full = make_rounds(call->rows, call->costs, n, t, x,
                                     UINT32_MAX, flows);
    must(tried == cut, "both ways to the best set agree");
    must(!full.path_left, "with all rounds allowed no path is left");
    must(full.into_sink == total_cost(call->costs, n, tried),
         "the rounds bring what the best set costs");
    must(full.made == 0 ||
             make_rounds(call->rows, call->costs, n, t, x, full.made - 1,
                         flows).path_left,
         "one round fewer leaves a path");
}

static void put_big_endian(uint8_t *bytes, uint64_t number)
{
    for (unsigned i = 0; i < 8; i++) {
        bytes[i] = (uint8_t)(number >> 8 * (7 - i));
    }
}

/* The C entry says and writes what the verdict call says and writes, and what
 * neither may write is kept. */
static void check_bytes(const struct call *call)
{
    static const size_t spare = 11;
    size_t n = call->n_rows;
    uint8_t rows[8 * MOST_LISTED], costs[8 * MOST_LISTED], answer[30], place[8];
    size_t work_len = 8 * call->n_work + 7;
    uint64_t *work = malloc((call->n_work + spare) * sizeof *work);
    uint8_t *work_bytes = malloc(work_len);
    struct answer found = {9, 9, 9, 9};
    if (work == NULL || work_bytes == NULL) {
        give_up("no memory");
    }
    for (size_t i = 0; i < MOST_LISTED; i++) {
        put_big_endian(rows + 8 * i, call->rows[i]);
        put_big_endian(costs + 8 * i, call->costs[i]);
    }
    memset(work, 0x5A, (call->n_work + spare) * sizeof *work);
    memset(work_bytes, 0x5A, work_len);
    memset(answer, 0x5A, sizeof answer);
    int refusal = second_verdict(call->rows, n, call->costs, call->n_costs,
                                 call->t, call->allowance, work, call->n_work,
                                 &found);
    int by_bytes = second_call_bytes(rows, 8 * n, costs, 8 * call->n_costs,
                                     call->t, call->allowance, work_bytes,
                                     work_len, answer, sizeof answer);
    must(refusal == by_bytes, "the C entry refuses alike");
    for (size_t i = 0; i < call->n_work; i++) {
        put_big_endian(place, work[i]);
        must(memcmp(place, work_bytes + 8 * i, 8) == 0, "the flows are alike");
        must((refusal == 0 && i < n * n) || work[i] == 0x5A5A5A5A5A5A5A5A,
             "a place past the flows keeps its value");
    }
    must(work[call->n_work] == 0x5A5A5A5A5A5A5A5A &&
             work_bytes[work_len - 1] == 0x5A && answer[22] == 0x5A,
         "bytes past the lists' places are kept");
    put_big_endian(place, found.victims);
    must(refusal != 0 ? answer[0] == 0x5A && found.outcome == 9
                      : answer[0] == 0x03 && answer[1] == found.outcome &&
                            memcmp(answer + 14, place, 8) == 0,
         "the answer frames are alike");
    free(work);
    free(work_bytes);
}

int check_self(uint64_t seed, uint64_t count)
{
    struct dice dice = dice_of_seed(seed);
    struct call call;
    for (uint64_t made = 0; made < count; made++) {
        make_whole_call(&dice, 11, &call);
        check_victims(&call);
        make_call(&dice, &call);
        check_bytes(&call);
    }
    printf("ok %" PRIu64 "\n", count);
    return 0;
}
