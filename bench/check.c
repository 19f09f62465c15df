/* Holds the reference against the independent second program: seeded calls through
 * bytes, and after each the refusal, the answer bytes and every byte of the work
 * list are compared. The calls come from the second program's own generators;
 * lengths that are not in full eights and short answer lists are thrown in here.
 *
 *   check [SEED [COUNT]] */
#include "generate.h"
#include "reference.h"
#include "second.h"

#include <stdio.h>
#include <stdlib.h>
#include <string.h>

enum {
    ANSWER_PLACES = 40,
    WORK_BYTES = 8 * (MOST_LISTED * MOST_LISTED + 32),
    UNWRITTEN = 0x5A
};

/* A call as bytes, with room behind each list. */
struct bytes {
    uint8_t rows[8 * MOST_LISTED], costs[8 * MOST_LISTED];
    size_t rows_len, costs_len, work_len, answer_len;
};

struct written {
    uint8_t returned, answer[ANSWER_PLACES], work[WORK_BYTES];
};

static void put(uint8_t *bytes, uint64_t number)
{
    for (unsigned i = 0; i < 8; i++) {
        bytes[i] = (uint8_t)(number >> 8 * (7 - i));
    }
}

static void to_bytes(struct dice *dice, const struct call *call,
                     struct bytes *b)
{
    for (size_t i = 0; i < MOST_LISTED; i++) {
        put(b->rows + 8 * i, call->rows[i]);
        put(b->costs + 8 * i, call->costs[i]);
    }
    b->rows_len = 8 * call->n_rows;
    b->costs_len = 8 * call->n_costs;
    b->work_len = 8 * call->n_work + below(dice, 8);
    b->answer_len = 22 + (chance(dice, 1, 4) ? below(dice, 10) : 0);
    if (chance(dice, 1, 20)) {
        b->rows_len -= b->rows_len == 0 ? 0 : 1 + below(dice, 7);
    }
    if (chance(dice, 1, 20)) {
        b->costs_len -= b->costs_len == 0 ? 0 : 1 + below(dice, 7);
    }
    if (chance(dice, 1, 20)) {
        b->answer_len = below(dice, 22);
    }
}

static void ask_second(const struct call *call, const struct bytes *b,
                       struct written *w)
{
    memset(w, UNWRITTEN, sizeof *w);
    w->returned = (uint8_t)second_call_bytes(
        b->rows, b->rows_len, b->costs, b->costs_len, call->t, call->allowance,
        w->work, b->work_len, w->answer, b->answer_len);
}

static void ask_reference(const struct call *call, const struct bytes *b,
                          struct written *w)
{
    memset(w, UNWRITTEN, sizeof *w);
    w->returned = reference_verdict(
        b->rows, b->rows_len, b->costs, b->costs_len, call->t, call->allowance,
        w->work, b->work_len, w->answer, b->answer_len);
}

int main(int argc, char **argv)
{
    static struct written by_second, by_reference;
    static struct call call;
    static struct bytes bytes;
    unsigned returned[9] = {0}, outcome[4] = {0};
    struct dice dice = dice_of_seed(argc > 1 ? strtoull(argv[1], NULL, 10) : 1);
    unsigned long count = argc > 2 ? strtoul(argv[2], NULL, 10) : 20000;
    for (unsigned long i = 0; i < count; i++) {
        make_call(&dice, &call);
        to_bytes(&dice, &call, &bytes);
        ask_second(&call, &bytes, &by_second);
        ask_reference(&call, &bytes, &by_reference);
        if (memcmp(&by_second, &by_reference, sizeof by_second) != 0) {
            printf("call %lu differs: the second program returned %u, the "
                   "reference %u\n",
                   i, by_second.returned, by_reference.returned);
            return 1;
        }
        returned[by_second.returned]++;
        if (by_second.returned == 0) {
            outcome[by_second.answer[1]]++;
        }
    }
    printf("%lu calls, none differs: wait %u, abort T %u, abort others %u, "
           "not yet %u; refused with 1 to 8:",
           count, outcome[0], outcome[1], outcome[2], outcome[3]);
    for (unsigned refusal = 1; refusal <= 8; refusal++) {
        printf(" %u", returned[refusal]);
    }
    printf("\n");
    return 0;
}
