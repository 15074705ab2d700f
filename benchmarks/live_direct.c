/* The live window by direct sums: a push moves the readings on by one, takes out those that are
 * heard, and sums the distances of each to all of them. One loop over them keeps the best so far,
 * among equals as in SPECIFICATION, "Equals". */
#include "live_direct.h"
#include "dial.h"

#include <string.h>

void live_direct_new(struct live_direct *w, int32_t cycle, int32_t length)
{
    w->cycle = cycle;
    w->length = length;
    w->filled = 0;
    for (int32_t k = 0; k < LIVE_MOST; k++)
        w->readings[k] = LIVE_SILENT;
}

static void enter(struct live_direct *w, uint16_t reading)
{
    size_t last = (size_t)w->length - 1;
    memmove(w->readings, w->readings + 1, last * sizeof *w->readings);
    w->readings[last] = reading;
    if (w->filled < w->length)
        w->filled++;
}

static int32_t sum_at(int32_t cycle, int32_t a, const int32_t *heard, int32_t count)
{
    int32_t sum = 0;
    for (int32_t l = 0; l < count; l++)
        sum += distance(cycle, a, heard[l]);
    return sum;
}

static int32_t chosen(int32_t cycle, int32_t centre, const int32_t *heard, int32_t count)
{
    int32_t least = INT32_MAX, best = 0;
    for (int32_t k = 0; k < count; k++) {
        int32_t sum = sum_at(cycle, heard[k], heard, count);
        if (sum < least || (sum == least && rank(cycle, centre, heard[k]) < rank(cycle, centre, best))) {
            least = sum;
            best = heard[k];
        }
    }
    return best;
}

int32_t live_direct_push(struct live_direct *w, uint16_t reading)
{
    int32_t heard[LIVE_MOST], count = 0;
    if (reading >= w->cycle && reading != LIVE_SILENT)
        return LIVE_REFUSED;
    enter(w, reading);
    if (w->filled < w->length)
        return LIVE_FILLING;
    for (int32_t k = 0; k < w->length; k++)
        if (w->readings[k] != LIVE_SILENT)
            heard[count++] = w->readings[k];
    if (count == 0)
        return LIVE_SILENT;
    int32_t centre = w->readings[w->length / 2];
    return chosen(w->cycle, centre == LIVE_SILENT ? heard[0] : centre, heard, count);
}
