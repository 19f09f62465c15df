/* The fields of a seeded snapshot, and faults in them. */
#include "generate.h"

static void throw_job(struct dice *dice, struct fields *f, unsigned j)
{
    uint64_t any = roll(dice) >> 16;
    uint64_t age = ONE_OF(dice, 0, 1, 8, 32, any % 100, any % 100000, any,
                          0x7FFFFFFF, f->present, f->present + 1);
    uint64_t density = 2 + below(dice, 3);
    if (f->tame) {
        age = j == f->t ? 0x7FFFFFFF : any % 3;
    }
    f->job[j].kind = 0x02;
    f->job[j].number = j;
    f->job[j].issued = (f->present - age % 0x80000000u) & 0xFFFFFFFF;
    f->job[j].operations = ONE_OF(dice, 1, 2, 1u << 20, 1 + any % 10,
                                  1 + any % 10, 1 + any % 1000,
                                  1 + any % (1u << 20));
    if (f->tame) {
        f->job[j].operations = 1 + any % 4;
    }
    for (unsigned pool = 0; pool < MOST_POOLS; pool++) {
        f->job[j].state[pool] = below(dice, density) == 0;
    }
    if (j == f->t || chance(dice, 5, 6)) {
        f->job[j].state[below(dice, f->s)] = 2;
    }
}

/* Lets some jobs hold what T waits for and wait for what T holds. */
static void close_rings(struct dice *dice, struct fields *f)
{
    uint64_t at, held, others = 1 + below(dice, f->n / 2 + 1);
    for (at = 0; f->job[f->t].state[at] != 2; at++) {
    }
    held = (at + 1 + below(dice, f->s - 1)) % f->s;
    f->job[f->t].state[held] = 1;
    for (; others > 0; others--) {
        uint64_t j = below(dice, f->n);
        for (unsigned pool = 0; pool < f->s && j != f->t; pool++) {
            uint64_t *state = &f->job[j].state[pool];
            *state = pool == at ? 1 : pool == held ? 2 : *state % 2;
        }
    }
}

void throw_fields(struct dice *dice, struct fields *f)
{
    bool few = chance(dice, 1, 2);
    uint64_t any = roll(dice) >> 16;
    f->kind = 0x01;
    f->present = ONE_OF(dice, 0, 1, 0x10, 0x7FFFFFFF, 0x80000000, 0xFFFFFFFF,
                        any % 1000, any & 0xFFFFFFFF);
    f->a = ONE_OF(dice, 1, 1, 2, 1000, 1 + below(dice, 1000));
    f->b = ONE_OF(dice, 0, 1, 1, 1000, below(dice, 1001));
    any = roll(dice) >> 16;
    f->n = ONE_OF(dice, 1, 2, 64, 1 + any % (few ? 8 : 64),
                  1 + any % (few ? 8 : 64), 1 + any % 64);
    f->s = few ? 1 + below(dice, 3) : ONE_OF(dice, 1, 16, 1 + below(dice, 16));
    any = below(dice, f->n);
    f->t = ONE_OF(dice, 0, f->n - 1, any, any);
    f->allowance = ONE_OF(dice, 0, 1, 2, below(dice, 10), 100, 100,
                          0x7FFFFFFF, 0x80000000, 0xFFFFFFFF, 0xFFFFFFFF);
    f->jobs = (unsigned)f->n;
    f->pools = (unsigned)f->s;
    f->tame = chance(dice, 1, 2);
    for (unsigned j = 0; j < MOST_JOB_LINES; j++) {
        throw_job(dice, f, j);
    }
    if (f->s > 1 && chance(dice, 3, 4)) {
        close_rings(dice, f);
    }
}

void damage_header(struct dice *dice, struct fields *f)
{
    switch (below(dice, 6)) {
    case 0: f->kind = ONE_OF(dice, 0, 2, 3, 0x0F, 0x11, 0xFF); break;
    case 1: f->a = ONE_OF(dice, 0, 1001, 0xFFFF); break;
    case 2: f->b = ONE_OF(dice, 1001, 0x8000, 0xFFFF); break;
    case 3: f->n = ONE_OF(dice, 0, 65, 0x80, 0xFF); break;
    case 4: f->s = ONE_OF(dice, 0, 17, 0xFF); break;
    default: f->t = ONE_OF(dice, f->n, f->n, 0xFF); break;
    }
}

void damage_job(struct dice *dice, struct fields *f, unsigned j)
{
    unsigned pool = (unsigned)below(dice, f->pools);
    uint64_t age = ONE_OF(dice, 0x80000000, 0x80000001, 0xFFFFFFFF,
                          0x80000000 + below(dice, 1u << 31));
    switch (below(dice, 8)) {
    case 0: f->job[j].kind = ONE_OF(dice, 0, 1, 3, 0x20, 0xFF); break;
    case 1:
        f->job[j].number = ONE_OF(dice, j + 1, (j - 1) & 0xFF, 0x80 | j, 0xFF);
        break;
    case 2:
    case 3: f->job[j].issued = (f->present - age) & 0xFFFFFFFF; break;
    case 4:
        f->job[j].operations =
            ONE_OF(dice, 0, 0, (1u << 20) + 1, 0x80000000, 0xFFFFFFFF);
        break;
    case 5:
        f->job[j].state[pool] = ONE_OF(dice, 3, 3, 4, 0x10, 0x20, 0x82, 0xFF);
        break;
    case 6: /* waits at two pools, or at all */
        for (unsigned i = 0; i < f->pools; i++) {
            if (i == pool || i == 0 || chance(dice, 1, 8)) {
                f->job[j].state[i] = 2;
            }
        }
        break;
    default: /* waits nowhere: 18 where it is T */
        for (unsigned i = 0; i < f->pools; i++) {
            f->job[j].state[i] = below(dice, 2);
        }
        break;
    }
}
