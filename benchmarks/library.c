/* The library's two engines as candidates. Their time has the tests of all readings in it, the
 * padding of rows and the clearing of the work memory. */
#include "candidate.h"
#include "circle_median.h"

#include <stdio.h>
#include <stdlib.h>

static void check(const char *engine, circle_median_answer answer)
{
    if (answer.number == 0)
        return;
    fprintf(stderr, "benchmark: the %s engine refused %u at %llu\n", engine, (unsigned)answer.number,
            (unsigned long long)answer.place);
    exit(1);
}

static size_t level_need(const struct task *task)
{
    return (size_t)task->cycle * (task->columns + 1);
}

static size_t reading_need(const struct task *task)
{
    return (size_t)task->mask_rows * task->mask_columns * (task->columns + 1);
}

static void level(const struct task *task, const struct part *part, uint16_t *output, uint32_t *work)
{
    size_t spots = (size_t)task->rows * task->columns;
    check("level", circle_median_level(task->cycle, task->rows, task->columns, task->mask_rows, task->mask_columns, 0,
                                       (uint32_t)part->end_row, task->image, spots, output, spots, work,
                                       level_need(task)));
}

static void reading(const struct task *task, const struct part *part, uint16_t *output, uint32_t *work)
{
    size_t spots = (size_t)task->rows * task->columns;
    check("reading", circle_median_reading(task->cycle, task->rows, task->columns, task->mask_rows, task->mask_columns,
                                           0, (uint32_t)part->end_row, task->image, spots, output, spots, work,
                                           reading_need(task)));
}

const struct candidate level_engine = {"level", level_need, level};
const struct candidate reading_engine = {"reading", reading_need, reading};
