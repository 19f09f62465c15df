/* Dice: the xorshift64* generator. */
#include "generate.h"

struct dice dice_of_seed(uint64_t seed)
{
    struct dice dice = {seed * 0x9E3779B97F4A7C15u ^ 0x5DEECE66D1234567u};
    if (dice.state == 0) {
        dice.state = 1;
    }
    for (int i = 0; i < 16; i++) {
        roll(&dice);
    }
    return dice;
}

uint64_t roll(struct dice *dice)
{
    dice->state ^= dice->state >> 12;
    dice->state ^= dice->state << 25;
    dice->state ^= dice->state >> 27;
    return dice->state * 0x2545F4914F6CDD1Du;
}

uint64_t below(struct dice *dice, uint64_t bound)
{
    return (roll(dice) >> 8) % bound;
}

bool chance(struct dice *dice, unsigned count, unsigned of)
{
    return below(dice, of) < count;
}

uint64_t one_of(struct dice *dice, const uint64_t *list, size_t count)
{
    return list[below(dice, count)];
}
