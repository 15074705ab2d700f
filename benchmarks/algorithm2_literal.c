/* Algorithm 2 of Storath and Weinmann (section 4) as written: for each column n the sums F(q) at
 * all ticks q, and their changes Z(q) from row to row.
 *
 * The statements are the recurrences of the text of section 4, as printed, in the order of
 * Algorithm 1, and not those of the listing. Where they leave a choice: F of the row before and Z
 * of the column before are overwritten, as the text allows; one loop over q does Z and then F; a
 * row is filled once all its sums are there; equation 13 is one loop that keeps the best so far,
 * among equals as in SPECIFICATION, "Equals". */
#include "listing.h"

static size_t need(const struct task *task)
{
    return (size_t)task->cycle * (task->columns + 1);
}

/* F(q) of column n. */
static inline int32_t *at(struct listing x, int32_t *F, int32_t n, int32_t q)
{
    return F + ((size_t)n * (size_t)x.cycle + (size_t)q);
}

static void first_row(struct listing x, int32_t *F)
{
    for (int32_t q = 0; q < x.cycle; q++) {
        int32_t sum = 0;
        for (int32_t i = -x.r; i <= x.r; i++)
            for (int32_t j = -x.t; j <= x.t; j++)
                sum += d(x, q, y(x, i, j));
        *at(x, F, 0, q) = sum;
    }
    for (int32_t n = 1; n < x.columns; n++)
        for (int32_t q = 0; q < x.cycle; q++) {
            int32_t sum = 0;
            for (int32_t i = -x.r; i <= x.r; i++)
                sum += d(x, q, y(x, i, n + x.t)) - d(x, q, y(x, i, n - x.t - 1));
            *at(x, F, n, q) = sum + *at(x, F, n - 1, q);
        }
}

static void next_row(struct listing x, int32_t *F, int32_t *Z, int32_t m)
{
    for (int32_t q = 0; q < x.cycle; q++) {
        int32_t sum = 0;
        for (int32_t j = -x.t; j <= x.t; j++)
            sum += d(x, q, y(x, m + x.r, j)) - d(x, q, y(x, m - x.r - 1, j));
        Z[q] = sum;
        *at(x, F, 0, q) = Z[q] + *at(x, F, 0, q);
    }
    for (int32_t n = 1; n < x.columns; n++)
        for (int32_t q = 0; q < x.cycle; q++) {
            Z[q] = Z[q] + d(x, q, y(x, m + x.r, n + x.t)) - d(x, q, y(x, m - x.r - 1, n + x.t))
                - d(x, q, y(x, m + x.r, n - x.t - 1)) + d(x, q, y(x, m - x.r - 1, n - x.t - 1));
            *at(x, F, n, q) = Z[q] + *at(x, F, n, q);
        }
}

/* Equation 13. */
static int32_t median(struct listing x, int32_t *F, int32_t m, int32_t n)
{
    int32_t least = INT32_MAX, best = 0;
    for (int32_t q = 0; q < x.cycle; q++)
        if (*at(x, F, n, q) < least
            || (*at(x, F, n, q) == least && rank(x.cycle, y(x, m, n), q) < rank(x.cycle, y(x, m, n), best))) {
            least = *at(x, F, n, q);
            best = q;
        }
    return best;
}

static void filter(const struct task *task, const struct part *part, uint16_t *output, uint32_t *work)
{
    struct listing x = listing_of(task);
    int32_t *F = (int32_t *)work, *Z = F + (size_t)x.cycle * (size_t)x.columns;
    for (int32_t m = 0; m < part->end_row; m++) {
        if (m == 0)
            first_row(x, F);
        else
            next_row(x, F, Z, m);
        for (int32_t n = 0; n < x.columns; n++)
            output[m * x.columns + n] = (uint16_t)median(x, F, m, n);
    }
}

const struct candidate algorithm2_literal = {"Algorithm 2 as written", need, filter};
