/* Seeded inputs for differential runs: verdict calls and snapshot texts,
 * whole ones and damaged ones. The same seed gives the same inputs on every
 * machine. */
#ifndef GENERATE_H
#define GENERATE_H

#include <stdbool.h>
#include <stddef.h>
#include <stdint.h>

/* ---- Dice (an xorshift generator) ---- */

struct dice {
    uint64_t state;
};

struct dice dice_of_seed(uint64_t seed);

/* A number of 64 bits. */
uint64_t roll(struct dice *dice);

/* A number below `bound`, which is above 0. */
uint64_t below(struct dice *dice, uint64_t bound);

/* True `count` times in `of`. */
bool chance(struct dice *dice, unsigned count, unsigned of);

/* One of the `count` numbers of a list. So that the order of rolls is the same
 * under every compiler, a list given to ONE_OF holds one roll at most. */
uint64_t one_of(struct dice *dice, const uint64_t *list, size_t count);

#define ONE_OF(dice, ...)                                                      \
    one_of((dice), (const uint64_t[]){__VA_ARGS__},                            \
           sizeof((const uint64_t[]){__VA_ARGS__}) / sizeof(uint64_t))

/* ---- Verdict calls ---- */

enum { MOST_LISTED = 80 }; /* rows or costs that a call hands over here */

struct call {
    size_t n_rows, n_costs, n_work;
    uint64_t t;
    uint32_t allowance;
    uint64_t rows[MOST_LISTED], costs[MOST_LISTED];
};

/* Some call; about one in six is damaged. */
void make_call(struct dice *dice, struct call *call);

/* Puts one fault or several into a call. */
void damage_call(struct dice *dice, struct call *call);

/* A call that is accepted, of at most `most_jobs` jobs. */
void make_whole_call(struct dice *dice, unsigned most_jobs, struct call *call);

/* ---- Snapshot texts ---- */

enum { MOST_JOB_LINES = 64, MOST_POOLS = 16 };

/* A snapshot by its fields, in range or not. */
struct fields {
    uint64_t kind, present, a, b, n, s, t, allowance;
    unsigned jobs, pools; /* job lines and pool bytes that are written */
    bool tame;            /* low costs that are often equal; T is dear */
    struct {
        uint64_t kind, number, issued, operations, state[MOST_POOLS];
    } job[MOST_JOB_LINES];
};

/* Fields of a text that is accepted. */
void throw_fields(struct dice *dice, struct fields *f);

/* Puts a fault into the header, or into job j. */
void damage_header(struct dice *dice, struct fields *f);
void damage_job(struct dice *dice, struct fields *f, unsigned j);

enum { MOST_MADE = 8192 }; /* bytes of a text that is made here */

struct text {
    size_t len;
    uint8_t byte[MOST_MADE];
};

/* Some text; about half of them are damaged. */
void make_text(struct dice *dice, struct text *text);

#endif
