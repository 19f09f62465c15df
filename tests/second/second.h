/* The second program's library: the waits, the verdict call, its C entry, the
 * reader of snapshot text and the program's answer line, written from
 * document 01 alone. No function keeps anything between two calls.
 *
 * A row is a job's waits: value 2^k set says that the job waits for job k.
 * A list lent with a length of 0 may be a null pointer. Lent lists must not
 * overlap. */
#ifndef SECOND_H
#define SECOND_H

#include <stddef.h>
#include <stdint.h>

enum {
    SECOND_MOST_JOBS = 64,    /* jobs in a snapshot */
    SECOND_MOST_TEXT = 4096,  /* bytes of a snapshot text */
    SECOND_ANSWER_BYTES = 22, /* bytes of an answer frame */
    SECOND_LINE_BYTES = 45    /* the longest line: an answer and its feed */
};

/* Outcomes by their number in an answer frame. */
enum {
    SECOND_WAIT = 0,
    SECOND_ABORT_T = 1,
    SECOND_ABORT_OTHERS = 2,
    SECOND_NOT_YET = 3
};

struct answer {
    unsigned outcome;
    uint64_t price;
    uint32_t rounds;
    uint64_t victims; /* job k as 2^k */
};

/* What the reader says. After a refusal only `line` tells something; after
 * success `line` is 0. */
struct snapshot {
    unsigned jobs; /* n */
    unsigned t;
    uint32_t allowance;
    unsigned line;
};

/* The verdict call. Returns the refusal 1 to 8 and writes nothing, or returns
 * 0, fills `out`, and puts the flow on the wait u to v into work[u * n + v]. */
int second_verdict(const uint64_t *rows, size_t n_rows,
                   const uint64_t *costs, size_t n_costs,
                   uint64_t t, uint32_t allowance,
                   uint64_t *work, size_t n_work, struct answer *out);

/* The C entry: the same call with lists of bytes, 8 a number, the most
 * significant first; lengths are in bytes. The answer is an answer frame. */
int second_call_bytes(const uint8_t *rows, size_t rows_len,
                      const uint8_t *costs, size_t costs_len,
                      uint64_t t, uint32_t allowance,
                      uint8_t *work, size_t work_len,
                      uint8_t *answer, size_t answer_len);

/* The reader. Returns 0 or the refusal (3 or 9 to 18) and always fills `out`.
 * Writes the first n places of both lists, and only on success. */
int second_read(const uint8_t *text, size_t len,
                uint64_t *rows, size_t n_rows,
                uint64_t *costs, size_t n_costs, struct snapshot *out);

/* The program's text function: puts the answer line or the refusal line, with
 * its feed, into `line` and returns its length. Where fewer than 45 places are
 * lent it returns 0 and writes nothing. */
size_t second_answer(const uint8_t *text, size_t len,
                     uint8_t *line, size_t line_len);

/* The jobs that `from` reaches along no or more waits, among jobs below n.
 * 0 where n is above 64 or `from` is not below n. */
uint64_t second_reach(const uint64_t *rows, size_t n, size_t from);

/* X: T with all jobs that lie on a ring through T. 0 as above. */
uint64_t second_on_rings(const uint64_t *rows, size_t n, size_t t);

#endif
