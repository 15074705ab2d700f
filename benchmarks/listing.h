/* The names of the listings, for the forms as written: sizes, y(i, j) and d(a, b).
 *
 * y has its indices mirrored at each use, since Storath and Weinmann define it outside the image by
 * its mirror (section 3). The mirror is that of SPECIFICATION, "Mirror". The sizes are handed on by
 * value, as if all were one long function. */
#ifndef LISTING_H
#define LISTING_H

#include "candidate.h"
#include "dial.h"

/* C, M, N, r and t: the mask has 2r + 1 rows and 2t + 1 columns. */
struct listing {
    int32_t cycle, rows, columns, r, t;
    const uint16_t *image;
};

static inline struct listing listing_of(const struct task *task)
{
    struct listing x = {(int32_t)task->cycle, (int32_t)task->rows, (int32_t)task->columns,
                        (int32_t)task->mask_rows / 2, (int32_t)task->mask_columns / 2, task->image};
    return x;
}

static inline int32_t mirrored(int32_t index, int32_t length)
{
    if (index < 0)
        return -index - 1;
    return index < length ? index : 2 * length - index - 1;
}

static inline int32_t y(struct listing x, int32_t i, int32_t j)
{
    return x.image[mirrored(i, x.rows) * x.columns + mirrored(j, x.columns)];
}

static inline int32_t d(struct listing x, int32_t a, int32_t b)
{
    return distance(x.cycle, a, b);
}

#endif
