/* Distances and ranks by formula, for the candidates that are not the library. Sums of distances
 * stay below 2^31. */
#ifndef DIAL_H
#define DIAL_H

#include <stdint.h>

static inline int32_t distance(int32_t cycle, int32_t a, int32_t b)
{
    int32_t e = a < b ? b - a : a - b;
    return e < cycle - e ? e : cycle - e;
}

/* The place of tick q in the order centre, one ahead, one behind, two ahead, ...: the choice among
 * equals. */
static inline int32_t rank(int32_t cycle, int32_t centre, int32_t q)
{
    int32_t ahead = q < centre ? q - centre + cycle : q - centre;
    return ahead <= cycle - ahead ? 2 * ahead : 2 * (cycle - ahead) + 1;
}

#endif
