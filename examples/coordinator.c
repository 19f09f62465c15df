/* A small coordinator: it keeps a table of who holds and who waits at each
 * pool, when each job was issued and how many operations it has submitted. When
 * a job times out it works out what each job would cost, turns all of it into a
 * call of pasagumdil_verdict(), and says in words what to do. */
#include "pasagumdil.h"

#include <inttypes.h>
#include <stdbool.h>
#include <stdio.h>

enum { JOBS = 5, POOLS = 4 };

/* What an operation and a tick of age weigh in a cost. */
enum { OPERATION_WEIGHT = 2, TICK_WEIGHT = 1 };

/* What a job does at a pool. */
enum state { NONE, HOLDS, WAITS };

struct job {
    uint32_t issued;     /* the tick at which its present run was issued */
    uint32_t operations; /* submitted since, 1 or more */
};

/* Ticks are milliseconds on a counter of 32 bits, which wraps every 49 days. */
struct farm {
    uint32_t now; /* the present tick */
    struct job job[JOBS];
    enum state at[JOBS][POOLS];
};

/* ---- What a job costs ---- */

/* The age in ticks. The subtraction is made in 32 bits, so that it is right
 * across a wrap of the counter; in 64 bits it would not be. */
static uint32_t age_of(const struct farm *farm, unsigned j)
{
    return (uint32_t)(farm->now - farm->job[j].issued);
}

/* An age of 2^31 or more is a clock that went back: it gives no cost. */
static bool clock_went_back(const struct farm *farm, unsigned j)
{
    return age_of(farm, j) >= UINT32_C(0x80000000);
}

static uint64_t cost_of(const struct farm *farm, unsigned j)
{
    return (uint64_t)OPERATION_WEIGHT * farm->job[j].operations +
           (uint64_t)TICK_WEIGHT * age_of(farm, j);
}

/* ---- Numbers as bytes, the most significant first ---- */

static void put_number(uint8_t *bytes, uint64_t number)
{
    for (int i = PASAGUMDIL_NUMBER_BYTES - 1; i >= 0; i--) {
        bytes[i] = (uint8_t)number;
        number >>= 8;
    }
}

static uint64_t get_number(const uint8_t *bytes, unsigned count)
{
    uint64_t number = 0;
    for (unsigned i = 0; i < count; i++) {
        number = number << 8 | bytes[i];
    }
    return number;
}

/* ---- The call ---- */

/* Job j waits for job i where j waits and i holds at one pool. */
static bool waits_for(const struct farm *farm, unsigned j, unsigned i)
{
    for (unsigned pool = 0; pool < POOLS; pool++) {
        if (farm->at[j][pool] == WAITS && farm->at[i][pool] == HOLDS) {
            return true;
        }
    }
    return false;
}

struct verdict {
    enum pasagumdil_refusal refusal;
    unsigned job; /* whose age is wrong, where the clock went back */
    enum pasagumdil_outcome outcome;
    uint64_t price, victims;
    uint32_t rounds;
};

static struct verdict ask(const struct farm *farm, uint64_t t,
                          uint32_t allowance)
{
    uint8_t rows[JOBS * PASAGUMDIL_NUMBER_BYTES];
    uint8_t costs[JOBS * PASAGUMDIL_NUMBER_BYTES];
    uint8_t work[JOBS * JOBS * PASAGUMDIL_NUMBER_BYTES];
    uint8_t answer[PASAGUMDIL_ANSWER_BYTES];
    struct verdict verdict = {0};
    for (unsigned j = 0; j < JOBS; j++) {
        if (clock_went_back(farm, j)) {
            verdict.refusal = PASAGUMDIL_CLOCK_WENT_BACK;
            verdict.job = j;
            return verdict;
        }
        uint64_t row = 0;
        for (unsigned i = 0; i < JOBS; i++) {
            if (waits_for(farm, j, i)) {
                row |= (uint64_t)1 << i;
            }
        }
        put_number(rows + j * PASAGUMDIL_NUMBER_BYTES, row);
        put_number(costs + j * PASAGUMDIL_NUMBER_BYTES, cost_of(farm, j));
    }
    verdict.refusal = pasagumdil_verdict(rows, sizeof rows, costs, sizeof costs,
                                         t, allowance, work, sizeof work,
                                         answer, sizeof answer);
    if (verdict.refusal == PASAGUMDIL_ANSWERED) {
        verdict.outcome = answer[1];
        verdict.price = get_number(answer + 2, 8);
        verdict.rounds = (uint32_t)get_number(answer + 10, 4);
        verdict.victims = get_number(answer + 14, 8);
    }
    return verdict;
}

/* ---- In words ---- */

static void say_jobs(uint64_t jobs)
{
    const char *before = "";
    for (unsigned job = 0; job < PASAGUMDIL_MOST_JOBS; job++) {
        if (jobs >> job & 1) {
            printf("%sjob %u", before, job);
            before = jobs >> job >> 1 & ((jobs >> job >> 1) - 1) ? ", " : " and ";
        }
    }
}

static void say(const char *night, const struct farm *farm, uint64_t t,
                uint32_t allowance)
{
    struct verdict verdict = ask(farm, t, allowance);
    printf("%s: job %" PRIu64 " has timed out. ", night, t);
    if (verdict.refusal == PASAGUMDIL_CLOCK_WENT_BACK) {
        printf("The clock went back: job %u was issued at tick %" PRIu32
               ", and it is tick %" PRIu32 ". Nothing is aborted.\n",
               verdict.job, farm->job[verdict.job].issued, farm->now);
        return;
    }
    if (verdict.refusal != PASAGUMDIL_ANSWERED) {
        printf("The call was refused, number %d.\n", (int)verdict.refusal);
        return;
    }
    switch (verdict.outcome) {
    case PASAGUMDIL_WAIT:
        printf("No ring passes through it: let it wait.\n");
        break;
    case PASAGUMDIL_ABORT_T:
        printf("Abort it: that costs %" PRIu64
               ", less than any others that would free it.\n", verdict.price);
        break;
    case PASAGUMDIL_ABORT_OTHERS:
        printf("Abort ");
        say_jobs(verdict.victims);
        printf(": that costs %" PRIu64 ".\n", verdict.price);
        break;
    case PASAGUMDIL_NOT_YET:
        printf("Not known yet, rounds made: %" PRIu32
               ". Ask again with a larger allowance.\n", verdict.rounds);
        break;
    }
}

int main(void)
{
    /* Job 0 waits at pool 0 for jobs 1 and 2, both wait at pool 1 for job 3,
     * and job 3 waits at pool 2 for job 0. Job 4 waits at pool 3, which nobody
     * holds. */
    struct farm farm = {
        .at = {
            {WAITS, NONE, HOLDS, NONE},
            {HOLDS, WAITS, NONE, NONE},
            {HOLDS, WAITS, NONE, NONE},
            {NONE, HOLDS, WAITS, NONE},
            {NONE, NONE, NONE, WAITS},
        },
    };
    /* The counter wraps on Wednesday: jobs 2 and 3 were issued before the wrap,
     * the others at the present tick 0. On Thursday job 0 is 2^31 - 1 ticks
     * old, as old as a job can be. On Sunday somebody has set the clock back, by
     * so much that job 2 looks a tick older than that. */
    static const struct {
        const char *name;
        uint64_t t;
        uint32_t allowance, now;
        struct job job[JOBS];
    } nights[] = {
        {"Monday", 0, UINT32_MAX, 4100000020,
         {{4100000004, 2}, {4100000020, 1}, {4100000019, 1}, {4100000017, 3},
          {4100000010, 1}}},
        {"Tuesday", 0, UINT32_MAX, 4200000020,
         {{4200000004, 2}, {4200000020, 1}, {4200000019, 1}, {4200000017, 1},
          {4200000010, 1}}},
        {"Wednesday", 0, UINT32_MAX, 0,
         {{0, 2}, {0, 1}, {4294967295, 1}, {4294967291, 2}, {0, 1}}},
        {"Thursday", 4, UINT32_MAX, 90000000,
         {{2237483649, 2}, {90000000, 1}, {89999999, 1}, {89999997, 3},
          {89999990, 1}}},
        {"Friday", 0, 1, 180000000,
         {{179999984, 2}, {180000000, 1}, {179999999, 1}, {179999997, 3},
          {179999990, 1}}},
        {"Saturday", 300, UINT32_MAX, 260000000,
         {{259999984, 2}, {260000000, 1}, {259999999, 1}, {259999997, 3},
          {259999990, 1}}},
        {"Sunday", 0, UINT32_MAX, 349999995,
         {{349999984, 2}, {349999990, 1}, {2497483643, 1}, {349999992, 3},
          {349999990, 1}}},
    };
    for (size_t i = 0; i < sizeof nights / sizeof nights[0]; i++) {
        farm.now = nights[i].now;
        for (unsigned j = 0; j < JOBS; j++) {
            farm.job[j] = nights[i].job[j];
        }
        say(nights[i].name, &farm, nights[i].t, nights[i].allowance);
    }
    return 0;
}
