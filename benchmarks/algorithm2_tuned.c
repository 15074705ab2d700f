/* Algorithm 2 of Storath and Weinmann, tuned: the recurrences of algorithm2_literal.c, with all
 * that was found to make them faster.
 *
 * The image is padded. The four readings by which Z changes are loaded once. Distances are by
 * formula in 16 bits, in a loop apart from that of the 32-bit sums, which finds the least sum too.
 * A spot is filled at once, by a walk outward from its centre to the first tick with the least sum;
 * if the first steps meet none, a pass counts the ticks with the least sum and adds up their
 * places, which is the tick if there is only one. */
#include "candidate.h"
#include "tuned.h"

#include <string.h>

struct tables {
    int16_t cycle;
    size_t rows, columns, stride;
    int32_t *f, *z;
};

enum { LONGEST = 4096 };

static size_t need(const struct task *task)
{
    return (size_t)task->cycle * (task->columns + 1);
}

/* Adds the distances of all ticks to a reading. */
static void add(int16_t cycle, int16_t a, int32_t *restrict sums)
{
    for (int16_t q = 0; q < cycle; q++)
        sums[q] += short_distance(cycle, q, a);
}

/* Adds the distances to a reading that comes and takes off those to one that goes. */
static void exchange(int16_t cycle, int16_t come, int16_t go, int32_t *restrict sums)
{
    int16_t change[LONGEST];
    for (int16_t q = 0; q < cycle; q++)
        change[q] = (int16_t)(short_distance(cycle, q, come) - short_distance(cycle, q, go));
    for (int16_t q = 0; q < cycle; q++)
        sums[q] += change[q];
}

/* F of row 0 and column n, whose window starts at y; gives back the least sum, like those that
 * follow. */
static int32_t first_row(const struct tables *s, const uint16_t *y, size_t n, int32_t *f)
{
    size_t size = (size_t)s->cycle * sizeof *f;
    int32_t least = INT32_MAX;
    if (n == 0)
        memset(f, 0, size);
    else
        memcpy(f, f - s->cycle, size);
    for (size_t i = 0; i < s->rows; i++, y += s->stride)
        if (n == 0)
            for (size_t j = 0; j < s->columns; j++)
                add(s->cycle, (int16_t)y[j], f);
        else
            exchange(s->cycle, (int16_t)y[s->columns - 1], (int16_t)y[-1], f);
    for (int16_t q = 0; q < s->cycle; q++)
        least = f[q] < least ? f[q] : least;
    return least;
}

/* Z and F of column 0 of a later row: bottom is the row that comes, top the one that goes. */
static int32_t first_column(const struct tables *s, const uint16_t *bottom, const uint16_t *top)
{
    int32_t least = INT32_MAX;
    memset(s->z, 0, (size_t)s->cycle * sizeof *s->z);
    for (size_t j = 0; j < s->columns; j++)
        exchange(s->cycle, (int16_t)bottom[j], (int16_t)top[j], s->z);
    for (int16_t q = 0; q < s->cycle; q++) {
        s->f[q] += s->z[q];
        least = s->f[q] < least ? s->f[q] : least;
    }
    return least;
}

/* Z and F of a later column of a later row. */
static int32_t next_column(int16_t cycle, int16_t a, int16_t b, int16_t c, int16_t d, int32_t *restrict z,
                           int32_t *restrict f)
{
    int16_t change[LONGEST];
    int32_t least = INT32_MAX;
    for (int16_t q = 0; q < cycle; q++)
        change[q] = (int16_t)(short_distance(cycle, q, a) - short_distance(cycle, q, b) - short_distance(cycle, q, c)
                              + short_distance(cycle, q, d));
    for (int16_t q = 0; q < cycle; q++) {
        z[q] += change[q];
        f[q] += z[q];
        least = f[q] < least ? f[q] : least;
    }
    return least;
}

/* The first tick with the least sum that steps start to end - 1 from the centre meet, or the cycle
 * if none does. */
static int32_t walk(int32_t cycle, int32_t centre, const int32_t *f, int32_t least, int32_t start, int32_t end)
{
    for (int32_t e = start; e < end; e++) {
        int32_t ahead = centre + e < cycle ? centre + e : centre + e - cycle;
        int32_t behind = centre < e ? centre - e + cycle : centre - e;
        if (f[ahead] == least)
            return ahead;
        if (f[behind] == least)
            return behind;
    }
    return cycle;
}

/* Equation 13, with the choice among equals. */
static int32_t choose(int32_t cycle, int32_t centre, const int32_t *restrict f, int32_t least)
{
    int32_t near = cycle / 64 + 1, met = walk(cycle, centre, f, least, 0, near), count = 0, places = 0;
    if (met < cycle)
        return met;
    for (int32_t q = 0; q < cycle; q++) {
        count += f[q] == least;
        places += f[q] == least ? q : 0;
    }
    return count == 1 ? places : walk(cycle, centre, f, least, near, cycle);
}

static int32_t next_row(const struct tables *s, const uint16_t *bottom, const uint16_t *top, size_t n, int32_t *f)
{
    size_t last = s->columns - 1;
    if (n == 0)
        return first_column(s, bottom, top);
    return next_column(s->cycle, (int16_t)bottom[last], (int16_t)top[last], (int16_t)bottom[-1], (int16_t)top[-1], s->z,
                       f);
}

static void filter(const struct task *task, const struct part *part, uint16_t *output, uint32_t *work)
{
    size_t columns = task->columns, cycle = task->cycle;
    struct tables s = {(int16_t)task->cycle, task->mask_rows, task->mask_columns, columns + task->mask_columns - 1,
                       (int32_t *)work, (int32_t *)work + cycle * columns};
    for (size_t m = 0; m < (size_t)part->end_row; m++)
        for (size_t n = 0; n < columns; n++) {
            const uint16_t *y = task->padded + m * s.stride + n;
            int32_t *f = s.f + n * cycle, least;
            least = m == 0 ? first_row(&s, y, n, f) : next_row(&s, y + (s.rows - 1) * s.stride, y - s.stride, n, f);
            output[m * columns + n] = (uint16_t)choose((int32_t)cycle, task->image[m * columns + n], f, least);
        }
}

const struct candidate algorithm2_tuned = {"Algorithm 2 tuned", need, filter};
