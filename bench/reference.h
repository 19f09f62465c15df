/* The reference: the verdict call through bytes, written by hand in C. */
#ifndef BENCH_REFERENCE_H
#define BENCH_REFERENCE_H

#include <stddef.h>
#include <stdint.h>

/* Takes and gives what the C entry `pasagumdil_verdict` takes and gives: lists
 * of numbers as bytes, 8 a number, the most significant first; lengths are in
 * bytes. Returns the refusal 1 to 8 and writes nothing, or returns 0, puts an
 * answer frame into the first 22 places of `answer` and the flows into the first
 * n × n numbers of `work`. Lent lists must not overlap. */
uint8_t reference_verdict(const uint8_t *rows, size_t rows_len,
                          const uint8_t *costs, size_t costs_len,
                          uint64_t t, uint32_t allowance,
                          uint8_t *work, size_t work_len,
                          uint8_t *answer, size_t answer_len);

#endif
