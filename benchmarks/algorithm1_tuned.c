/* Algorithm 1 of Storath and Weinmann, tuned: the recurrences of algorithm1_literal.c, with all
 * that was found to make them faster.
 *
 * The image is padded, and each window is copied to contiguous memory, so that Z and the kept mask
 * rows of G are one loop each over a whole table. Loops run over whole blocks of eight, for which
 * tables and lines have spare numbers. Distances are by formula in 16 bits, for Z in a loop apart
 * from that of the 32-bit sums. Z lacks its last mask row, which no sum needs. A spot is filled at
 * once, by a pass for the least sum and one for the choice among equals.
 *
 * The spare numbers of a line are 0 and add to a sum what they take off; those of a table are part
 * of no sum. */
#include "candidate.h"
#include "tuned.h"

#include <string.h>

struct tables {
    uint16_t cycle;
    /* step is from table to table, stride from padded row to padded row */
    size_t rows, columns, size, step, stride;
    int32_t *g, *z;
    /* of a table's size */
    uint16_t *window, *more, *less;
    /* the columns that come and go, the row that goes; the window's last row comes */
    uint16_t *come, *go, *top;
};

static size_t need(const struct task *task)
{
    size_t rows = task->mask_rows, columns = task->mask_columns, step = blocks(rows * columns);
    return step * (task->columns + 1) + 8 + 3 * step + 2 * blocks(rows) + 2 * blocks(columns);
}

static struct tables tables_of(const struct task *task, uint32_t *work)
{
    size_t rows = task->mask_rows, columns = task->mask_columns, size = rows * columns, step = blocks(size);
    struct tables s = {(uint16_t)task->cycle, rows, columns, size, step, task->columns + columns - 1, NULL, NULL, NULL,
                       NULL, NULL, NULL, NULL, NULL};
    s.g = (int32_t *)memset(work, 0, need(task) * sizeof *work);
    s.z = s.g + step * task->columns;
    s.window = (uint16_t *)(s.z + step + 8);
    s.more = s.window + step + blocks(columns);
    s.less = s.more + step;
    s.come = s.less + step;
    s.go = s.come + blocks(rows);
    s.top = s.go + blocks(rows);
    return s;
}

/* The window at y, and the columns that come with it and go. */
static void gather(const struct tables *s, const uint16_t *restrict y, uint16_t *restrict window,
                   uint16_t *restrict come, uint16_t *restrict go)
{
    for (size_t i = 0; i < s->rows; i++) {
        const uint16_t *row = y + i * s->stride;
        go[i] = window[i * s->columns];
        for (size_t j = 0; j < s->columns; j++)
            window[i * s->columns + j] = row[j];
        come[i] = row[s->columns - 1];
    }
}

/* The sum at a over the window. */
static int32_t sum_at(uint16_t cycle, uint16_t a, const uint16_t *restrict window, size_t size)
{
    int32_t sum = 0;
    for (size_t i = 0; i < size; i++)
        sum += narrow_distance(cycle, a, window[i]);
    return sum;
}

/* What a line of n readings that come brings to the sum at a, and one of n that go takes away. */
static int32_t change_at(uint16_t cycle, uint16_t a, const uint16_t *restrict come, const uint16_t *restrict go,
                         size_t n)
{
    int32_t sum = 0;
    for (size_t i = 0; i < blocks(n); i++)
        sum += narrow_distance(cycle, a, come[i]) - narrow_distance(cycle, a, go[i]);
    return sum;
}

/* A mask row of G for its own readings, from that of the column before. */
static void next_mask_row(const struct tables *s, const uint16_t *restrict own, const int32_t *restrict before,
                          int32_t *restrict g)
{
    uint16_t cycle = s->cycle, come = s->come[0], go = s->go[0];
    size_t last = s->columns - 1;
    if (s->rows == 1)
        for (size_t l = 0; l < last; l++)
            g[l] = narrow_distance(cycle, own[l], come) - narrow_distance(cycle, own[l], go) + before[l + 1];
    else
        for (size_t l = 0; l < last; l++)
            g[l] = change_at(cycle, own[l], s->come, s->go, s->rows) + before[l + 1];
    g[last] = sum_at(cycle, own[last], s->window, s->size);
}

/* Z of a later column, but for its last mask column: a and b come in column n + t, c and d were in
 * column n - t - 1. */
static void move_change(const struct tables *s, uint16_t a, uint16_t b, uint16_t c, uint16_t d, size_t n)
{
    const uint16_t *restrict window = s->window;
    uint16_t cycle = s->cycle, *restrict more = s->more, *restrict less = s->less;
    int32_t *restrict z = s->z;
    for (size_t i = 0; i < blocks(n); i++) {
        more[i] = (uint16_t)(narrow_distance(cycle, window[i], a) + narrow_distance(cycle, window[i], d));
        less[i] = (uint16_t)(narrow_distance(cycle, window[i], b) + narrow_distance(cycle, window[i], c));
    }
    for (size_t i = 0; i < blocks(n); i++)
        z[i] = z[i + 1] + more[i] - less[i];
}

/* Z of column n, whose window starts at y. */
static void change(const struct tables *s, const uint16_t *y, size_t n)
{
    size_t last = s->columns - 1, kept = s->size - s->columns;
    const uint16_t *top = y - s->stride, *bottom = y + (s->rows - 1) * s->stride;
    memcpy(s->top, top, s->columns * sizeof *top);
    if (n > 0)
        move_change(s, bottom[last], top[last], bottom[-1], top[-1], kept - 1);
    for (size_t i = n == 0 ? 0 : last; i < kept; i += n == 0 ? 1 : s->columns)
        s->z[i] = change_at(s->cycle, s->window[i], s->window + kept, s->top, s->columns);
}

/* The kept mask rows of G, from the row before. */
static void carry(size_t columns, size_t kept, const int32_t *restrict z, int32_t *restrict g)
{
    for (size_t i = 0; i < blocks(kept); i++)
        g[i] = g[i + columns] + z[i];
}

/* Row 0. */
static void first_row(const struct tables *s, const uint16_t *y, const uint16_t *centres, size_t columns, uint16_t *out)
{
    for (size_t n = 0; n < columns; n++) {
        int32_t *g = s->g + n * s->step;
        gather(s, y + n, s->window, s->come, s->go);
        if (n == 0)
            for (size_t i = 0; i < s->size; i++)
                g[i] = sum_at(s->cycle, s->window[i], s->window, s->size);
        else
            for (size_t i = 0; i < s->size; i += s->columns)
                next_mask_row(s, s->window + i, g - s->step + i, g + i);
        out[n] = best_reading(s->cycle, centres[n], s->window, g, s->size);
    }
}

/* A later row. */
static void next_row(const struct tables *s, const uint16_t *y, const uint16_t *centres, size_t columns, uint16_t *out)
{
    size_t kept = s->size - s->columns;
    for (size_t n = 0; n < columns; n++) {
        int32_t *g = s->g + n * s->step;
        gather(s, y + n, s->window, s->come, s->go);
        if (kept > 0) {
            change(s, y + n, n);
            carry(s->columns, kept, s->z, g);
        }
        if (n == 0)
            for (size_t i = kept; i < s->size; i++)
                g[i] = sum_at(s->cycle, s->window[i], s->window, s->size);
        else
            next_mask_row(s, s->window + kept, g - s->step + kept, g + kept);
        out[n] = best_reading(s->cycle, centres[n], s->window, g, s->size);
    }
}

static void filter(const struct task *task, const struct part *part, uint16_t *output, uint32_t *work)
{
    size_t columns = task->columns;
    struct tables s = tables_of(task, work);
    first_row(&s, task->padded, task->image, columns, output);
    for (size_t m = 1; m < (size_t)part->end_row; m++)
        next_row(&s, task->padded + m * s.stride, task->image + m * columns, columns, output + m * columns);
}

const struct candidate algorithm1_tuned = {"Algorithm 1 tuned", need, filter};
