/* Bytes of all kinds over both functions of the C entry, each list in a block of
 * memory of just its size: a byte read or written beside it is seen where this
 * runs under valgrind. What is answered is compared elsewhere (calls.c, texts.c);
 * here a refused call must leave its lists as they were.
 *
 *   fuzz COUNT SEED     so many calls and so many texts */
#include "generate.h"
#include "pasagumdil.h"

#include <stdio.h>
#include <stdlib.h>
#include <string.h>

/* A block of `len` bytes with a copy of `bytes`, or random ones where that is NULL. */
static uint8_t *block(struct dice *dice, const void *bytes, size_t len)
{
    uint8_t *made = malloc(len == 0 ? 1 : len);
    if (made == NULL) {
        abort();
    }
    for (size_t i = 0; i < len; i++) {
        made[i] = bytes != NULL ? ((const uint8_t *)bytes)[i] : (uint8_t)roll(dice);
    }
    return made;
}

/* The bytes of a list of numbers, most significant first. */
static uint8_t *numbers(struct dice *dice, const uint64_t *list, size_t count)
{
    uint8_t *made = block(dice, NULL, 8 * count);
    for (size_t i = 0; i < 8 * count; i++) {
        made[i] = (uint8_t)(list[i / 8] >> (56 - 8 * (i % 8)));
    }
    return made;
}

/* The outcomes and refusals that were met: 0 to 3, and 4 + the number of a refusal. */
static unsigned long met[4 + 9];

static void one_call(struct dice *dice)
{
    struct call call;
    size_t rows_len, costs_len, work_len, answer_len = below(dice, 40);
    uint8_t *rows, *costs;
    make_call(dice, &call);
    if (chance(dice, 1, 2)) { /* lists as calls have them, */
        rows_len = 8 * call.n_rows;
        costs_len = 8 * call.n_costs;
        rows = numbers(dice, call.rows, call.n_rows);
        costs = numbers(dice, call.costs, call.n_costs);
    } else { /* or any bytes */
        rows_len = below(dice, 600);
        costs_len = chance(dice, 3, 4) ? rows_len : below(dice, 600);
        rows = block(dice, NULL, rows_len);
        costs = block(dice, NULL, costs_len);
    }
    work_len = chance(dice, 3, 4) ? 8 * call.n_work + below(dice, 8) : below(dice, 40000);
    uint8_t *work = block(dice, NULL, work_len), *answer = block(dice, NULL, answer_len);
    uint8_t *old_work = block(dice, work, work_len), *old_answer = block(dice, answer, answer_len);
    uint64_t t = chance(dice, 7, 8) ? call.t : roll(dice);
    uint8_t refusal = pasagumdil_verdict(rows, rows_len, costs, costs_len, t, call.allowance, work, work_len, answer, answer_len);
    if (refusal > 8 || (refusal != 0 && (memcmp(work, old_work, work_len) != 0 || memcmp(answer, old_answer, answer_len) != 0))) {
        printf("fuzz: a call returned %u, or wrote to a list and refused\n", refusal);
        exit(1);
    }
    met[refusal != 0 ? 4 + refusal : answer[1]]++;
    free(rows), free(costs), free(work), free(answer), free(old_work), free(old_answer);
}

static void one_text(struct dice *dice, unsigned long *answered)
{
    static struct text made;
    uint8_t *text;
    size_t len, line_len = below(dice, 64);
    if (chance(dice, 1, 2)) {
        make_text(dice, &made);
        len = made.len;
        text = block(dice, made.byte, len);
    } else {
        len = below(dice, 5000);
        text = block(dice, NULL, len);
    }
    uint8_t *line = block(dice, NULL, line_len);
    size_t written = pasagumdil_answer(text, len, line, line_len);
    if ((written != 0 && written != 9 && written != 45) || (written == 0) != (line_len < 45)) {
        printf("fuzz: a text got a line of %lu bytes\n", (unsigned long)written);
        exit(1);
    }
    *answered += written == 45;
    free(text), free(line);
}

int main(int count, char **words)
{
    if (count != 3) {
        fputs("fuzz COUNT SEED\n", stderr);
        return 2;
    }
    unsigned long all = strtoul(words[1], NULL, 10), answered = 0;
    struct dice dice = dice_of_seed(strtoul(words[2], NULL, 10));
    for (unsigned long i = 0; i < all; i++) {
        one_call(&dice);
        one_text(&dice, &answered);
    }
    printf("fuzz: %lu calls; outcomes 00 to 03: %lu, %lu, %lu, %lu; refused by 1 to 8:", all, met[0], met[1], met[2], met[3]);
    for (unsigned k = 1; k <= 8; k++) {
        printf(" %lu", met[4 + k]);
    }
    printf("\nfuzz: %lu texts, %lu of them answered\n", all, answered);
    return 0;
}
