/* The direct sum as written: the sum of equation 1 of Storath and Weinmann at each reading of the
 * window, by a double loop over the window. One loop over the readings keeps the best so far, among
 * equals as in SPECIFICATION, "Equals". */
#include "listing.h"

static size_t need(const struct task *task)
{
    (void)task;
    return 1;
}

static inline int32_t sum_at(struct listing x, int32_t m, int32_t n, int32_t k, int32_t l)
{
    int32_t sum = 0;
    for (int32_t i = -x.r; i <= x.r; i++)
        for (int32_t j = -x.t; j <= x.t; j++)
            sum += d(x, y(x, m + k, n + l), y(x, m + i, n + j));
    return sum;
}

static int32_t median(struct listing x, int32_t m, int32_t n)
{
    int32_t least = INT32_MAX, best = 0;
    for (int32_t k = -x.r; k <= x.r; k++)
        for (int32_t l = -x.t; l <= x.t; l++) {
            int32_t sum = sum_at(x, m, n, k, l);
            if (sum < least
                || (sum == least
                    && rank(x.cycle, y(x, m, n), y(x, m + k, n + l)) < rank(x.cycle, y(x, m, n), best))) {
                least = sum;
                best = y(x, m + k, n + l);
            }
        }
    return best;
}

static void filter(const struct task *task, const struct part *part, uint16_t *output, uint32_t *work)
{
    struct listing x = listing_of(task);
    (void)work;
    for (int32_t m = part->first_row; m < part->end_row; m++)
        for (int32_t n = part->first_column; n < part->end_column; n++)
            output[m * x.columns + n] = (uint16_t)median(x, m, n);
}

const struct candidate direct_sum_literal = {"direct sum as written", need, filter};
