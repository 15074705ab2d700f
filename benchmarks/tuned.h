/* What the tuned forms share: distances by formula in 16 bits, of which eight fit a packed
 * instruction, and a choice in two passes. */
#ifndef TUNED_H
#define TUNED_H

#include "dial.h"

#include <stddef.h>
#include <stdint.h>

/* n rounded up to whole blocks of eight. */
static inline size_t blocks(size_t n)
{
    return (n + 7) / 8 * 8;
}

/* For every cycle; two of them can be added. */
static inline uint16_t narrow_distance(uint16_t cycle, uint16_t a, uint16_t b)
{
    uint16_t e = (uint16_t)(a < b ? b - a : a - b), f = (uint16_t)(cycle - e);
    return e < f ? e : f;
}

/* For cycles up to 4,096, with fewer instructions; four of them can be added and taken off. */
static inline int16_t short_distance(int16_t cycle, int16_t a, int16_t b)
{
    int16_t back = (int16_t)(a - b), ahead = (int16_t)(b - a), e = back > ahead ? back : ahead;
    int16_t f = (int16_t)(cycle - e);
    return e < f ? e : f;
}

/* The reading with the least sum, and among equals the first in rank. */
static inline uint16_t best_reading(int32_t cycle, int32_t centre, const uint16_t *restrict readings,
                                    const int32_t *restrict sums, size_t size)
{
    int32_t least = INT32_MAX, first = INT32_MAX;
    uint16_t best = 0;
    for (size_t i = 0; i < size; i++)
        least = sums[i] < least ? sums[i] : least;
    for (size_t i = 0; i < size; i++)
        if (sums[i] == least && rank(cycle, centre, readings[i]) < first) {
            best = readings[i];
            first = rank(cycle, centre, best);
        }
    return best;
}

#endif
