/* The images that are filtered: random or drifting, with silent readings, and padded with their
 * mirrored edges. */
#include "image.h"
#include "circle_median.h"

/* A fixed stream of numbers (xorshift), so that every run sees the same images. */
static uint32_t next(uint32_t *state)
{
    *state ^= *state << 13;
    *state ^= *state >> 17;
    *state ^= *state << 5;
    return *state;
}

static uint32_t below(uint32_t *state, uint32_t n)
{
    return (uint32_t)(((uint64_t)next(state) * n) >> 32);
}

/* A row that drifts by up to a 200th of the cycle from wake to wake. */
static void drift(uint32_t *state, uint32_t cycle, uint16_t *row, uint32_t columns)
{
    uint32_t phase = below(state, cycle), pace = cycle / 200 + 1;
    for (uint32_t j = 0; j < columns; j++) {
        phase = (phase + below(state, pace + 1)) % cycle;
        row[j] = (uint16_t)(below(state, 100) < 4 ? below(state, cycle) : phase);
    }
}

void draw(enum kind kind, const struct task *task, uint16_t *image)
{
    uint32_t state = 2463534242u;
    size_t columns = task->columns;
    for (size_t i = 0; i < task->rows; i++)
        if (kind == DRIFTING)
            drift(&state, task->cycle, image + i * columns, task->columns);
        else
            for (size_t j = 0; j < columns; j++)
                image[i * columns + j] = (uint16_t)below(&state, task->cycle);
}

void silence(uint16_t *image, size_t spots, uint32_t percent)
{
    uint64_t state = 1;
    for (size_t k = 0; k < spots; k++) {
        state = state * 6364136223846793005u + 1442695040888963407u;
        if ((state >> 33) % 100 < percent)
            image[k] = CIRCLE_MEDIAN_SILENT;
    }
}

/* The index that a position of a padded side stands for; no mask here is so long that it would need
 * more than one reflection. */
static size_t mirrored(size_t length, size_t reach, size_t position)
{
    if (position < reach)
        return reach - 1 - position;
    return position - reach < length ? position - reach : 2 * length - 1 - (position - reach);
}

size_t padded_size(const struct task *task)
{
    return ((size_t)task->rows + task->mask_rows - 1) * ((size_t)task->columns + task->mask_columns - 1);
}

void pad(const struct task *task, uint16_t *padded)
{
    size_t rows = task->rows + task->mask_rows - 1, columns = task->columns + task->mask_columns - 1;
    for (size_t i = 0; i < rows; i++)
        for (size_t j = 0; j < columns; j++)
            padded[i * columns + j] = task->image[mirrored(task->rows, task->mask_rows / 2, i) * task->columns
                                                  + mirrored(task->columns, task->mask_columns / 2, j)];
}
