#include "contenders.h"
#include "../include/pasagumdil.h"
#include "reference.h"
#ifdef LIBRARIES
#include "libraries.h"
#endif

static uint8_t make_reference(const struct call *c, struct lent *lent)
{
    return reference_verdict(c->rows, 8 * c->n, c->costs, 8 * c->n, c->t,
                             c->allowance, lent->work, WORK_BYTES,
                             lent->answer, ANSWER_BYTES);
}

static uint8_t make_proved(const struct call *c, struct lent *lent)
{
    return pasagumdil_verdict(c->rows, 8 * c->n, c->costs, 8 * c->n, c->t,
                              c->allowance, lent->work, WORK_BYTES,
                              lent->answer, ANSWER_BYTES);
}

#ifdef LIBRARIES
static uint8_t make_lemon(const struct call *c, struct lent *lent)
{
    put_number(lent->answer + 2, lemon_price(c->rows, c->costs, c->n, c->t));
    return 0;
}

static uint8_t make_boost(const struct call *c, struct lent *lent)
{
    put_number(lent->answer + 2, boost_price(c->rows, c->costs, c->n, c->t));
    return 0;
}
#endif

const struct contender contenders[] = {
    [REFERENCE] = {"reference", false, make_reference},
    [PROVED] = {"proved", false, make_proved},
#ifdef LIBRARIES
    {"lemon", true, make_lemon},
    {"boost", true, make_boost},
#endif
};

const unsigned contender_count = sizeof contenders / sizeof contenders[0];
