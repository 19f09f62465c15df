/* Differential run of the C entry: seeded calls, each made through
 * pasagumdil_verdict() and through the second program, on equal copies of all
 * lists. What both return and every byte of every list afterwards must be the
 * same, with the bytes around the lists.
 *
 *   calls [COUNT [SEED]]     20000 calls with seed 1 unless given */
#include "generate.h"
#include "pasagumdil.h"
#include "second.h"

#include <inttypes.h>
#include <stdio.h>
#include <stdlib.h>
#include <string.h>

enum {
    GUARD = 64, /* bytes that are watched before and behind a list */
    MOST_ROWS = 8 * MOST_LISTED + 8,
    MOST_WORK = 8 * (MOST_LISTED * MOST_LISTED + 24),
    MOST_ANSWER = 40
};

/* All lists of a call, each between two guards. */
struct lists {
    uint8_t rows[GUARD + MOST_ROWS + GUARD];
    uint8_t costs[GUARD + MOST_ROWS + GUARD];
    uint8_t work[GUARD + MOST_WORK + GUARD];
    uint8_t answer[GUARD + MOST_ANSWER + GUARD];
};

/* A call in bytes. */
struct byte_call {
    size_t rows_len, costs_len, work_len, answer_len;
    uint64_t t;
    uint32_t allowance;
};

static struct lists given, ours, theirs;

/* ---- One call ---- */

static void put_number(uint8_t *bytes, uint64_t number)
{
    for (unsigned i = 0; i < 8; i++) {
        bytes[i] = (uint8_t)(number >> (56 - 8 * i));
    }
}

static void fill(struct dice *dice, uint8_t *bytes, size_t count)
{
    for (size_t i = 0; i < count; i += 8) {
        uint64_t number = roll(dice);
        memcpy(bytes + i, &number, count - i < 8 ? count - i : 8);
    }
}

/* A length that is off by some bytes, up to 7 either way. */
static size_t broken(struct dice *dice, size_t length)
{
    size_t off = 1 + below(dice, 7);
    return length >= off && chance(dice, 1, 2) ? length - off : length + off;
}

/* Lengths in bytes; about one call in eight has a fault there. */
static void lengths(struct dice *dice, const struct call *call,
                    struct byte_call *bytes)
{
    bytes->rows_len = 8 * call->n_rows;
    bytes->costs_len = 8 * call->n_costs;
    bytes->work_len = 8 * call->n_work + below(dice, 8);
    bytes->answer_len = PASAGUMDIL_ANSWER_BYTES + below(dice, 9);
    if (!chance(dice, 1, 8)) {
        return;
    }
    unsigned faults = chance(dice, 3, 4) ? 1 : 2;
    for (unsigned i = 0; i < faults; i++) {
        switch (below(dice, 5)) {
        case 0: bytes->rows_len = broken(dice, bytes->rows_len); break;
        case 1: bytes->costs_len = broken(dice, bytes->costs_len); break;
        case 2: bytes->answer_len = below(dice, 22); break;
        case 3:
            bytes->work_len = 8 * call->n_rows * call->n_rows;
            bytes->work_len -= bytes->work_len > 0;
            break;
        default:
            bytes->work_len = 8 * call->n_rows * call->n_rows;
            bytes->work_len = below(dice, bytes->work_len + 1);
            break;
        }
    }
}

/* Most calls are small: the second program tries every set of jobs. */
static void throw_call(struct dice *dice, struct byte_call *bytes)
{
    struct call call;
    uint64_t size = below(dice, 20);
    make_whole_call(dice, size < 12 ? 8 : size < 18 ? 20 : 64, &call);
    if (chance(dice, 1, 6)) {
        damage_call(dice, &call);
    }
    fill(dice, (uint8_t *)&given, sizeof given);
    for (size_t i = 0; i < MOST_LISTED; i++) {
        put_number(given.rows + GUARD + 8 * i, call.rows[i]);
        put_number(given.costs + GUARD + 8 * i, call.costs[i]);
    }
    bytes->t = call.t;
    bytes->allowance = call.allowance;
    lengths(dice, &call, bytes);
}

static int answer_ours(const struct byte_call *bytes)
{
    return pasagumdil_verdict(
        ours.rows + GUARD, bytes->rows_len, ours.costs + GUARD,
        bytes->costs_len, bytes->t, bytes->allowance, ours.work + GUARD,
        bytes->work_len, ours.answer + GUARD, bytes->answer_len);
}

static int answer_theirs(const struct byte_call *bytes)
{
    return second_call_bytes(
        theirs.rows + GUARD, bytes->rows_len, theirs.costs + GUARD,
        bytes->costs_len, bytes->t, bytes->allowance, theirs.work + GUARD,
        bytes->work_len, theirs.answer + GUARD, bytes->answer_len);
}

/* ---- What a call did ---- */

static void show(const char *name, const uint8_t *bytes, size_t count)
{
    printf("  %s", name);
    for (size_t i = 0; i < count; i++) {
        printf("%s%02X", i % 8 == 0 ? " " : "", bytes[i]);
    }
    printf("\n");
}

static void differs(uint64_t number, const struct byte_call *bytes,
                    const char *what)
{
    printf("call %" PRIu64 ": %s\n  t %" PRIu64 " allowance %" PRIu32
           " lengths %zu %zu %zu %zu\n", number, what, bytes->t,
           bytes->allowance, bytes->rows_len, bytes->costs_len,
           bytes->work_len, bytes->answer_len);
    show("rows", given.rows + GUARD, bytes->rows_len);
    show("costs", given.costs + GUARD, bytes->costs_len);
    show("answer of the entry", ours.answer + GUARD, bytes->answer_len);
    show("answer of the second program", theirs.answer + GUARD,
         bytes->answer_len);
    exit(1);
}

/* Ends the program where `number` is not answered as it must be. */
static int compare(uint64_t number, const struct byte_call *bytes)
{
    ours = given;
    theirs = given;
    int refusal = answer_ours(bytes);
    if (refusal != answer_theirs(bytes)) {
        differs(number, bytes, "the two return different numbers");
    }
    if (refusal != 0 && memcmp(&ours, &given, sizeof ours) != 0) {
        differs(number, bytes, "something was written on a refusal");
    }
    if (memcmp(ours.rows, given.rows, sizeof ours.rows) != 0 ||
        memcmp(ours.costs, given.costs, sizeof ours.costs) != 0) {
        differs(number, bytes, "the rows or costs were written");
    }
    if (memcmp(ours.answer, theirs.answer, sizeof ours.answer) != 0) {
        differs(number, bytes, "the two answers differ");
    }
    if (memcmp(ours.work, theirs.work, sizeof ours.work) != 0) {
        differs(number, bytes, "the two work lists differ");
    }
    size_t n = bytes->rows_len / 8, written = refusal != 0 ? 0 : 8 * n * n;
    if (memcmp(ours.work, given.work, GUARD) != 0 ||
        memcmp(ours.work + GUARD + written, given.work + GUARD + written,
               sizeof ours.work - GUARD - written) != 0) {
        differs(number, bytes, "work was written beyond n x n places");
    }
    return refusal;
}

/* ---- The run ---- */

static uint64_t decimal(const char *word)
{
    char *end;
    unsigned long long number = strtoull(word, &end, 10);
    if (*word < '0' || *word > '9' || *end != 0) {
        fprintf(stderr, "calls [COUNT [SEED]], both decimal\n");
        exit(2);
    }
    return number;
}

int main(int words, char **word)
{
    uint64_t count = words > 1 ? decimal(word[1]) : 20000;
    uint64_t seed = words > 2 ? decimal(word[2]) : 1;
    uint64_t refused[9] = {0}, outcome[4] = {0};
    struct dice dice = dice_of_seed(seed);
    for (uint64_t number = 1; number <= count; number++) {
        struct byte_call bytes;
        throw_call(&dice, &bytes);
        int refusal = compare(number, &bytes);
        refused[refusal]++;
        if (refusal == 0) {
            outcome[ours.answer[GUARD + 1]]++;
        }
        if (number % 10000 == 0 && number < count) {
            fprintf(stderr, "calls: %" PRIu64 " of %" PRIu64 "\n", number,
                    count);
        }
    }
    printf("calls: %" PRIu64 " answered alike; wait %" PRIu64 ", abort T %"
           PRIu64 ", abort others %" PRIu64 ", not yet %" PRIu64
           "; refused as", count, outcome[0], outcome[1], outcome[2],
           outcome[3]);
    for (unsigned i = 1; i <= 7; i++) {
        printf(" %u: %" PRIu64 "%s", i, refused[i], i < 7 ? "," : "\n");
    }
    for (unsigned i = 0; i < 7 && count >= 5000; i++) {
        if (refused[i + 1] == 0 || outcome[i % 4] == 0) {
            printf("calls: an outcome or a refusal was never met\n");
            return 1;
        }
    }
    return 0;
}
