/* Stands in for the proved library where none is given: the reference under the
 * C entry's name. */
#include "../include/pasagumdil.h"
#include "reference.h"

uint8_t pasagumdil_verdict(const uint8_t *rows, size_t rows_len,
                           const uint8_t *costs, size_t costs_len,
                           uint64_t t, uint32_t allowance,
                           uint8_t *work, size_t work_len,
                           uint8_t *answer, size_t answer_len)
{
    return reference_verdict(rows, rows_len, costs, costs_len, t, allowance,
                             work, work_len, answer, answer_len);
}
