/* The text function for C beside the second program, in one process: seeded
 * texts of all kinds, whole and damaged, and lines that are too short. Both get
 * the same bytes and a list filled alike, with bytes behind it that nobody may
 * touch: what they return and every byte they leave must be the same, and it
 * must be one line.
 *
 *   texts COUNT SEED */
#include "generate.h"
#include "pasagumdil.h"
#include "second.h"

#include <stdio.h>
#include <stdlib.h>
#include <string.h>

enum { GUARD = 64, LINE = 64, OFTEN = 100000 };

static void fill(struct dice *dice, uint8_t *bytes, size_t count)
{
    for (size_t i = 0; i < count; i++) {
        bytes[i] = (uint8_t)roll(dice);
    }
}

static int one_text(struct dice *dice)
{
    static struct text text;
    uint8_t before[LINE + GUARD], ours[LINE + GUARD], theirs[LINE + GUARD];
    make_text(dice, &text);
    size_t line_len = chance(dice, 1, 20) ? below(dice, LINE) : 45;
    fill(dice, before, sizeof before);
    memcpy(ours, before, sizeof before);
    memcpy(theirs, before, sizeof before);
    size_t mine = pasagumdil_answer(text.byte, text.len, ours, line_len);
    size_t yours = second_answer(text.byte, text.len, theirs, line_len);
    int whole = mine == 0 ? line_len < 45 : ours[mine - 1] == '\n' && memchr(ours, '\n', mine) == ours + mine - 1;
    return mine == yours && whole && memcmp(ours, theirs, sizeof ours) == 0;
}

int main(int count, char **words)
{
    if (count != 3) {
        fputs("texts COUNT SEED\n", stderr);
        return 2;
    }
    unsigned long all = strtoul(words[1], NULL, 10);
    struct dice dice = dice_of_seed(strtoul(words[2], NULL, 10));
    for (unsigned long i = 1; i <= all; i++) {
        if (!one_text(&dice)) {
            printf("texts: number %lu of seed %s differs\n", i, words[2]);
            return 1;
        }
        if (i % OFTEN == 0 && i < all) {
            printf("texts: %lu through the C entry\n", i);
            fflush(stdout);
        }
    }
    printf("texts: %lu through the C entry, all alike\n", all);
    return 0;
}
