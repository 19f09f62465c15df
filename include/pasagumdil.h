/* Pasagumdil for C and C++.
 *
 * A job of a render farm has timed out. pasagumdil_verdict() says whether it is
 * caught in a ring of jobs that wait for each other, and if so, which jobs are
 * the cheapest to abort so that every ring through it opens.
 * pasagumdil_answer() does the same for a snapshot as text.
 *
 * Linking. `./pasagumdil library` proves and builds the static library,
 * build/libentry.a. `./pasagumdil install PREFIX` installs it as
 * libpasagumdil: link with -lpasagumdil, or by `pkg-config --cflags --libs
 * pasagumdil`. It is for x86-64 Linux. It needs memset() from the C library,
 * and nothing else.
 *
 * Every call is answered: the functions look at all that they are given. The
 * caller has to keep to C's own rules: each pointer leads to as many bytes as
 * its length says, and lists that are written overlap no other list. All lists
 * must stay unchanged by others, another thread for example, during a call.
 *
 * Proved, on all inputs, as far as the caller keeps to these rules: the result
 * of each function and every byte of each lent list after the call, as they are
 * described below, and that the call ends. Tested, not proved: the stack that a
 * call takes; that a null pointer may stand for a list of length 0; that a call
 * allocates no memory, shares nothing and keeps nothing, so that any number of
 * threads may call at the same time. */
#ifndef PASAGUMDIL_H
#define PASAGUMDIL_H

#include <stddef.h>
#include <stdint.h>

#ifdef __cplusplus
extern "C" {
#endif

/* The version of this header and of the library that it describes. */
#define PASAGUMDIL_VERSION "1.0.0"
#define PASAGUMDIL_VERSION_MAJOR 1
#define PASAGUMDIL_VERSION_MINOR 0
#define PASAGUMDIL_VERSION_PATCH 0

/* Sizes. */
enum {
    PASAGUMDIL_MOST_JOBS = 64,    /* jobs in a call */
    PASAGUMDIL_NUMBER_BYTES = 8,  /* bytes of a number in a list */
    PASAGUMDIL_ANSWER_BYTES = 22, /* bytes of an answer */
    PASAGUMDIL_TEXT_BYTES = 4096, /* bytes of the longest text that is read */
    PASAGUMDIL_LINE_BYTES = 45,   /* bytes of the longest line, with its feed */

    /* Stack to keep free for a call, whatever it is given. It takes less: up to
     * 4,500 bytes for 8 jobs, 6,000 for 16, 12,500 for 32, 23,000 for 48,
     * 37,500 for 64, and 38,500 for a text. */
    PASAGUMDIL_STACK_BYTES = 40960
};

/* Why a call or a text is refused. n is the number of jobs, T the job that has
 * timed out. */
enum pasagumdil_refusal {
    PASAGUMDIL_ANSWERED = 0,

    /* Returned by pasagumdil_verdict(). Where several apply, the smallest. */

    /* rows_len is 0, not a multiple of 8, or above 512. */
    PASAGUMDIL_BAD_ROWS = 1,
    /* costs_len is not rows_len. */
    PASAGUMDIL_BAD_COSTS = 2,
    /* answer_len is below 22, or work_len is below 8 x n x n. */
    PASAGUMDIL_TOO_FEW_PLACES = 3,
    /* A row names a job n or above. */
    PASAGUMDIL_STRAY_JOB = 4,
    /* A job waits for itself. */
    PASAGUMDIL_WAITS_FOR_ITSELF = 5,
    /* t is n or above. */
    PASAGUMDIL_NO_SUCH_JOB = 6,
    /* A cost is 0 or above 2^42. */
    PASAGUMDIL_BAD_COST = 7,
    /* The sum of all costs plus one is above 2^63. With costs of at most 2^42
     * and at most 64 jobs it cannot be, so no call returns this today. */
    PASAGUMDIL_COSTS_TOO_HIGH = 8,

    /* Named by a refusal line of pasagumdil_answer(), with the line of the
     * text, counted from 1. The text is read line by line: 10, 11, then the
     * fields from left to right; the first refusal that is met is named. */

    /* The text is longer than 4,096 bytes. Line 0. */
    PASAGUMDIL_TEXT_TOO_LONG = 9,
    /* A byte other than 0-9 and A-F, an odd number of digits, no line feed. */
    PASAGUMDIL_BAD_LINE = 10,
    /* Not the frame that is due here, by kind or length; or the text ends where
     * this line is due; or a line follows the last frame. */
    PASAGUMDIL_WRONG_FRAME = 11,
    /* A header field is out of range. */
    PASAGUMDIL_BAD_HEADER = 12,
    /* A job number is not the next one. */
    PASAGUMDIL_NOT_THE_NEXT_JOB = 13,
    /* The number of operations is 0 or above 2^20. Looked at after 15. */
    PASAGUMDIL_BAD_OPERATIONS = 14,
    /* The age is 2^31 or more: the clock went back. */
    PASAGUMDIL_CLOCK_WENT_BACK = 15,
    /* A pool state is above 02. */
    PASAGUMDIL_BAD_STATE = 16,
    /* A job waits at two pools. */
    PASAGUMDIL_WAITS_TWICE = 17,
    /* T waits nowhere. Looked at last; the line is T's, T + 2. */
    PASAGUMDIL_T_WAITS_NOWHERE = 18
};

/* Outcomes, as the second byte of an answer has them. */
enum pasagumdil_outcome {
    /* No ring passes through the timed-out job: let it wait. */
    PASAGUMDIL_WAIT = 0,
    /* Abort the timed-out job itself: it is cheaper than the others. */
    PASAGUMDIL_ABORT_T = 1,
    /* Abort these other jobs. */
    PASAGUMDIL_ABORT_OTHERS = 2,
    /* The allowance of rounds is used up and the work is not done: no job is
     * named. Call again with a larger allowance. */
    PASAGUMDIL_NOT_YET = 3
};

/* The verdict on n jobs, numbered 0 to n - 1, of which job t has timed out.
 *
 * Every list is handed over as bytes and their count. A number of a list takes
 * 8 bytes, the most significant first.
 *
 *   rows, rows_len      read: n numbers. Number j has the value 2^k set where
 *                       job j waits for job k: where j is waiting and k is
 *                       active at one pool.
 *   costs, costs_len    read: n numbers, the cost of aborting each job, from 1
 *                       to 2^42.
 *   t                   the timed-out job.
 *   allowance           how many rounds of the search may be made. 2n(m + n)
 *                       are always enough, for m waits in all; 0xFFFFFFFF sets
 *                       no bound.
 *   work, work_len      written, never read: at least 8 x n x n bytes. After an
 *                       answer number u x n + v is the flow on the wait from
 *                       job u to job v after the rounds made, 0 where there is
 *                       none. Bytes after the n x n numbers keep their values.
 *   answer, answer_len  written, never read: at least 22 bytes. After an answer
 *                       the first 22 are
 *                         byte 0           3
 *                         byte 1           enum pasagumdil_outcome
 *                         bytes 2 to 9     the price: the victims' total cost
 *                         bytes 10 to 13   the rounds made
 *                         bytes 14 to 21   the victims, job k as 2^k
 *                       each number with its most significant byte first. Price
 *                       and victims are 0 for PASAGUMDIL_WAIT and
 *                       PASAGUMDIL_NOT_YET. Bytes from the 23rd on keep their
 *                       values.
 *
 * Costs. The cost of a job is a x N + b x age, for N operations submitted, an
 * age in ticks (milliseconds) and two weights a and b. The age is a subtraction
 * in 32 bits, (uint32_t)(now - issued): an age of 2^31 or more means that the
 * clock went back, and must be refused; never subtract ticks as wider numbers,
 * since the counter wraps. examples/coordinator.c does it.
 *
 * Returns PASAGUMDIL_ANSWERED, or a refusal from 1 to 8; then no byte of work
 * and answer is written. */
uint8_t pasagumdil_verdict(const uint8_t *rows, size_t rows_len,
                           const uint8_t *costs, size_t costs_len,
                           uint64_t t, uint32_t allowance,
                           uint8_t *work, size_t work_len,
                           uint8_t *answer, size_t answer_len);

/* The line that answers a snapshot text, as `./pasagumdil answer` writes it.
 *
 *   text, text_len      read: any bytes at all.
 *   line, line_len      written, never read: at least 45 bytes. The line, an
 *                       answer or a refusal with its line feed, stands at the
 *                       front; bytes after it keep their values.
 *
 * Returns the length of the line, 9 for a refusal and 45 for an answer; or 0
 * where line_len is below 45, and then no byte of line is written.
 *
 * A snapshot is a header and then n job frames, each a line of hexadecimal
 * digits, 0-9 and A-F, with a line feed, at most 4,096 bytes in all. Numbers
 * have their most significant digit first. docs/FORMAT.md has examples.
 *
 *   Header, 32 digits: 01; present tick (8 digits); weight a (4; 1 to 1,000);
 *   weight b (4; 0 to 1,000); jobs n (2; 1 to 64); pools s (2; 1 to 16); the
 *   timed-out job T (2; below n); allowance (8).
 *
 *   Job, 20 + 2s digits: 02; job number (2; 0, 1, 2 and on); the tick at which
 *   it was issued (8); operations N (8; 1 to 2^20); for each pool its state
 *   there (2; 00 none, 01 active, 02 waiting, at one pool at most). T waits at
 *   one.
 *
 *   Answer, 44 digits: 03; outcome (2); price (16); rounds (8); victims (16,
 *   job k as 2^k): the 22 bytes of an answer of pasagumdil_verdict().
 *
 *   Refusal, 8 digits: 0F; number (2; 9 to 18); line of the text (4). No job is
 *   named then. */
size_t pasagumdil_answer(const uint8_t *text, size_t text_len,
                         uint8_t *line, size_t line_len);

#ifdef __cplusplus
}
#endif

#endif
