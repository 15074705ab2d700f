/* Algorithm 1 of Storath and Weinmann (section 3) as written: for each column n the sums G(k, l) at
 * the readings of its window, and their changes Z(k, l) from row to row. One statement for each
 * line of the listing, its loops in its order.
 *
 * Where the listing leaves a choice: G of the row before and Z of the column before are
 * overwritten, as the text allows; equation 11 is one loop that keeps the best so far, among equals
 * as in SPECIFICATION, "Equals". Where it has slips: n is 0 where Z is begun; in the last mask row
 * of G k is r, and in its last sum l is t and i runs from -r. */
#include "listing.h"

static size_t need(const struct task *task)
{
    return (size_t)task->mask_rows * task->mask_columns * (task->columns + 1);
}

/* G(k, l) of column n; Z(k, l) is the only table of its kind. */
static inline int32_t *at(struct listing x, int32_t *G, int32_t n, int32_t k, int32_t l)
{
    return G + (((size_t)n * (size_t)(2 * x.r + 1) + (size_t)(k + x.r)) * (size_t)(2 * x.t + 1) + (size_t)(l + x.t));
}

/* G(k, l) of row m and column n from equation 10. */
static inline int32_t whole_sum(struct listing x, int32_t m, int32_t n, int32_t k, int32_t l)
{
    int32_t sum = 0;
    for (int32_t i = -x.r; i <= x.r; i++)
        for (int32_t j = -x.t; j <= x.t; j++)
            sum += d(x, y(x, m + k, n + l), y(x, m + i, n + j));
    return sum;
}

/* What column n + t brings to G(k, l) and column n - t - 1 takes away. */
static inline int32_t column_sum(struct listing x, int32_t m, int32_t n, int32_t k, int32_t l)
{
    int32_t sum = 0;
    for (int32_t i = -x.r; i <= x.r; i++)
        sum += d(x, y(x, m + k, n + l), y(x, m + i, n + x.t)) - d(x, y(x, m + k, n + l), y(x, m + i, n - x.t - 1));
    return sum;
}

/* What row m + r brings to G(k, l) and row m - r - 1 takes away. */
static inline int32_t row_sum(struct listing x, int32_t m, int32_t n, int32_t k, int32_t l)
{
    int32_t sum = 0;
    for (int32_t j = -x.t; j <= x.t; j++)
        sum += d(x, y(x, m + k, n + l), y(x, m + x.r, n + j)) - d(x, y(x, m + k, n + l), y(x, m - x.r - 1, n + j));
    return sum;
}

static void first_row(struct listing x, int32_t *G)
{
    for (int32_t k = -x.r; k <= x.r; k++)
        for (int32_t l = -x.t; l <= x.t; l++)
            *at(x, G, 0, k, l) = whole_sum(x, 0, 0, k, l);
    for (int32_t n = 1; n < x.columns; n++)
        for (int32_t k = -x.r; k <= x.r; k++) {
            for (int32_t l = -x.t; l <= x.t - 1; l++)
                *at(x, G, n, k, l) = column_sum(x, 0, n, k, l) + *at(x, G, n - 1, k, l + 1);
            *at(x, G, n, k, x.t) = whole_sum(x, 0, n, k, x.t);
        }
}

static void first_column(struct listing x, int32_t *G, int32_t *Z, int32_t m)
{
    for (int32_t k = -x.r; k <= x.r; k++)
        for (int32_t l = -x.t; l <= x.t; l++)
            *at(x, Z, 0, k, l) = row_sum(x, m, 0, k, l);
    for (int32_t l = -x.t; l <= x.t; l++) {
        for (int32_t k = -x.r; k <= x.r - 1; k++)
            *at(x, G, 0, k, l) = *at(x, G, 0, k + 1, l) + *at(x, Z, 0, k, l);
        *at(x, G, 0, x.r, l) = whole_sum(x, m, 0, x.r, l);
    }
}

static void update_z(struct listing x, int32_t *Z, int32_t m, int32_t n)
{
    for (int32_t k = -x.r; k <= x.r; k++) {
        for (int32_t l = -x.t; l <= x.t - 1; l++)
            *at(x, Z, 0, k, l) = -d(x, y(x, m + k, n + l), y(x, m + x.r, n - x.t - 1))
                + d(x, y(x, m + k, n + l), y(x, m - x.r - 1, n - x.t - 1))
                + d(x, y(x, m + k, n + l), y(x, m + x.r, n + x.t))
                - d(x, y(x, m + k, n + l), y(x, m - x.r - 1, n + x.t)) + *at(x, Z, 0, k, l + 1);
        *at(x, Z, 0, k, x.t) = row_sum(x, m, n, k, x.t);
    }
}

static void next_column(struct listing x, int32_t *G, int32_t *Z, int32_t m, int32_t n)
{
    update_z(x, Z, m, n);
    for (int32_t l = -x.t; l <= x.t; l++)
        for (int32_t k = -x.r; k <= x.r - 1; k++)
            *at(x, G, n, k, l) = *at(x, G, n, k + 1, l) + *at(x, Z, 0, k, l);
    for (int32_t l = -x.t; l <= x.t - 1; l++)
        *at(x, G, n, x.r, l) = column_sum(x, m, n, x.r, l) + *at(x, G, n - 1, x.r, l + 1);
    *at(x, G, n, x.r, x.t) = whole_sum(x, m, n, x.r, x.t);
}

/* Equation 11. */
static int32_t median(struct listing x, int32_t *G, int32_t m, int32_t n)
{
    int32_t least = INT32_MAX, best_k = 0, best_l = 0;
    for (int32_t k = -x.r; k <= x.r; k++)
        for (int32_t l = -x.t; l <= x.t; l++)
            if (*at(x, G, n, k, l) < least
                || (*at(x, G, n, k, l) == least
                    && rank(x.cycle, y(x, m, n), y(x, m + k, n + l))
                        < rank(x.cycle, y(x, m, n), y(x, m + best_k, n + best_l)))) {
                least = *at(x, G, n, k, l);
                best_k = k;
                best_l = l;
            }
    return y(x, m + best_k, n + best_l);
}

static void filter(const struct task *task, const struct part *part, uint16_t *output, uint32_t *work)
{
    struct listing x = listing_of(task);
    int32_t *G = (int32_t *)work, *Z = at(x, G, x.columns, -x.r, -x.t);
    for (int32_t m = 0; m < part->end_row; m++) {
        if (m == 0) {
            first_row(x, G);
        } else {
            first_column(x, G, Z, m);
            for (int32_t n = 1; n < x.columns; n++)
                next_column(x, G, Z, m, n);
        }
        for (int32_t n = 0; n < x.columns; n++)
            output[m * x.columns + n] = (uint16_t)median(x, G, m, n);
    }
}

const struct candidate algorithm1_literal = {"Algorithm 1 as written", need, filter};
