/* The direct sum, tuned: each window is copied to contiguous memory, distances are by formula in 16
 * bits, and the least sum is found in a pass of its own before the choice among equals.
 *
 * Of the forms tried it is the fastest at 3x3. To take each pair of readings once, and not twice,
 * is slower there with gcc, and from 7x7 on 1.3 to 2 times as fast. */
#include "candidate.h"
#include "tuned.h"

static size_t need(const struct task *task)
{
    return 2 * (size_t)task->mask_rows * task->mask_columns;
}

static void gather(const struct task *task, const uint16_t *restrict y, uint16_t *restrict window)
{
    size_t columns = task->mask_columns, stride = task->columns + columns - 1;
    for (size_t k = 0; k < task->mask_rows; k++)
        for (size_t l = 0; l < columns; l++)
            window[k * columns + l] = y[k * stride + l];
}

static void sum_up(uint16_t cycle, const uint16_t *restrict window, size_t size, int32_t *restrict sums)
{
    for (size_t k = 0; k < size; k++) {
        uint16_t a = window[k];
        int32_t sum = 0;
        for (size_t i = 0; i < size; i++)
            sum += narrow_distance(cycle, a, window[i]);
        sums[k] = sum;
    }
}

static void filter(const struct task *task, const struct part *part, uint16_t *output, uint32_t *work)
{
    size_t columns = task->columns, size = (size_t)task->mask_rows * task->mask_columns;
    int32_t *sums = (int32_t *)work;
    uint16_t *window = (uint16_t *)(work + size);
    for (size_t m = (size_t)part->first_row; m < (size_t)part->end_row; m++)
        for (size_t n = (size_t)part->first_column; n < (size_t)part->end_column; n++) {
            gather(task, task->padded + m * (columns + task->mask_columns - 1) + n, window);
            sum_up((uint16_t)task->cycle, window, size, sums);
            output[m * columns + n] =
                best_reading((int32_t)task->cycle, task->image[m * columns + n], window, sums, size);
        }
}

const struct candidate direct_sum_tuned = {"direct sum tuned", need, filter};
