/* What the libraries' side gives: the price alone, on the same network, out of
 * the same bytes. The call must be one that is accepted; 0 says wait. */
#ifndef BENCH_LIBRARIES_H
#define BENCH_LIBRARIES_H

#include <stdint.h>

#ifdef __cplusplus
extern "C" {
#endif

/* LEMON's push-relabel (`Preflow`), its first phase only. */
uint64_t lemon_price(const uint8_t *rows, const uint8_t *costs, unsigned n,
                     unsigned t);

/* Boost's search-tree flow after Boykov and Kolmogorov. */
uint64_t boost_price(const uint8_t *rows, const uint8_t *costs, unsigned n,
                     unsigned t);

#ifdef __cplusplus
}
#endif

#endif
