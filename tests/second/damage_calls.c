/* Damage to a verdict call: the faults of refusals 1 to 7, alone or joined. */
#include "generate.h"
#include "parts.h"
#include "second.h"

/* Puts the fault of one refusal, 1 to 7, into a call. Refusal 8 cannot be met:
 * 64 costs of 2^42 make 2^48. With 64 jobs no row can name a job above. */
static void damage(struct dice *dice, struct call *call, unsigned refusal)
{
    unsigned n = (unsigned)call->n_rows;
    unsigned job = n == 0 ? 0 : (unsigned)below(dice, n);
    switch (refusal) {
    case 1:
        call->n_rows = ONE_OF(dice, 0, 65, 65, 66, MOST_LISTED - 1);
        call->n_costs = call->n_rows;
        call->n_work = call->n_rows * call->n_rows;
        break;
    case 2:
        call->n_costs = ONE_OF(dice, n + 1, n + 1, n == 0 ? 1 : n - 1,
                               n == 0 ? 1 : 0, n == 64 ? 65 : 64);
        call->n_costs += call->n_costs == n;
        break;
    case 3:
        call->n_work = n == 0 ? 0 : chance(dice, 1, 2)
                           ? (size_t)n * n - 1 : below(dice, (uint64_t)n * n);
        break;
    case 4:
        if (n < SECOND_MOST_JOBS) {
            call->rows[job] |= only(
                (unsigned)ONE_OF(dice, n, 63, n + below(dice, 64 - n)));
        }
        break;
    case 5:
        call->rows[job] |= only(job % 64);
        break;
    case 6:
        call->t = ONE_OF(dice, n, n + 1, n + 64, n + 255, 256 + call->t,
                         ((uint64_t)1 << 32) + call->t,
                         ((uint64_t)1 << 63) + call->t, UINT64_MAX);
        break;
    default:
        call->costs[job] = ONE_OF(dice, 0, 0, HIGHEST_COST + 1,
                                  HIGHEST_COST + 1 + below(dice, HIGHEST_COST),
                                  (uint64_t)1 << 63, UINT64_MAX);
        break;
    }
}

/* One fault, or often two or three at once. The faults inside the lists come
 * first, then those of the lists' lengths. */
void damage_call(struct dice *dice, struct call *call)
{
    static const unsigned order[] = {7, 5, 4, 6, 1, 2, 3};
    unsigned faults = chance(dice, 1, 2) ? 1 : chance(dice, 2, 3) ? 2 : 3;
    bool chosen[8] = {false};
    for (unsigned i = 0; i < faults; i++) {
        chosen[1 + below(dice, 7)] = true;
    }
    for (unsigned i = 0; i < sizeof order / sizeof order[0]; i++) {
        if (chosen[order[i]]) {
            damage(dice, call, order[i]);
        }
    }
}
