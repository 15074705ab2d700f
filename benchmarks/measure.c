/* The measurement of a case. Images, their padding, outputs and work memory are made beforehand and
 * not cleared between calls; what they hold makes no difference. */
#include "measure.h"
#include "clock.h"

#include <stdio.h>
#include <stdlib.h>
#include <string.h>

static const struct candidate *const candidates[CANDIDATES] = {
    &level_engine,       &reading_engine,   &algorithm2_literal, &algorithm2_tuned,
    &algorithm1_literal, &algorithm1_tuned, &direct_sum_literal, &direct_sum_tuned,
};

static const double ENOUGH = 0.4; /* seconds for a candidate, unless ROUNDS take longer */

struct benchmark {
    struct task task;
    uint16_t *image, *padded, *expected, *output;
    uint32_t *work[CANDIDATES];
    struct part part[CANDIDATES];
};

static void *memory(size_t numbers, size_t size)
{
    void *p = malloc(numbers * size);
    if (p == NULL) {
        fprintf(stderr, "benchmark: no memory\n");
        exit(1);
    }
    memset(p, 0xA5, numbers * size);
    return p;
}

int takes(const struct benchmark_case *k, int candidate)
{
    return k->level_rows > 0 || (candidate != LEVEL && candidate != LITERAL2 && candidate != TUNED2);
}

static struct part part_of(const struct benchmark_case *k, int candidate, uint32_t rows)
{
    struct part part = {0, (int32_t)k->reading_rows, 0, COLUMNS};
    if (candidate == LEVEL || candidate == LITERAL2 || candidate == TUNED2)
        part.end_row = (int32_t)k->level_rows;
    if (candidate == LITERAL_SUM || candidate == TUNED_SUM) {
        part.first_row = (int32_t)(rows - k->sum_rows) / 2;
        part.end_row = part.first_row + (int32_t)k->sum_rows;
        part.first_column = (int32_t)(COLUMNS - k->sum_columns) / 2;
        part.end_column = part.first_column + (int32_t)k->sum_columns;
    }
    return part;
}

static void prepare(struct benchmark *b, const struct benchmark_case *k, enum kind kind)
{
    uint32_t rows = k->level_rows > k->reading_rows ? k->level_rows : k->reading_rows;
    struct task task = {k->cycle, rows, COLUMNS, k->mask_rows, k->mask_columns, NULL, NULL};
    size_t spots = (size_t)rows * COLUMNS;
    memset(b, 0, sizeof *b);
    b->image = memory(spots, sizeof *b->image);
    b->padded = memory(padded_size(&task), sizeof *b->padded);
    b->expected = memory(spots, sizeof *b->expected);
    b->output = memory(spots, sizeof *b->output);
    draw(kind, &task, b->image);
    task.image = b->image;
    pad(&task, b->padded);
    task.padded = b->padded;
    b->task = task;
    for (int c = 0; c < CANDIDATES; c++)
        if (takes(k, c)) {
            b->work[c] = memory(candidates[c]->need(&task), sizeof **b->work);
            b->part[c] = part_of(k, c, rows);
        }
}

static void release(struct benchmark *b)
{
    free(b->image);
    free(b->padded);
    free(b->expected);
    free(b->output);
    for (int c = 0; c < CANDIDATES; c++)
        free(b->work[c]);
}

/* What the reading engine writes is expected of all others, each on its own part of the image. */
static void compare(const struct benchmark *b, int c)
{
    const struct part *part = &b->part[c];
    for (int32_t i = part->first_row; i < part->end_row; i++)
        for (int32_t j = part->first_column; j < part->end_column; j++) {
            size_t spot = (size_t)i * COLUMNS + (size_t)j;
            if (b->output[spot] == b->expected[spot])
                continue;
            fprintf(stderr, "benchmark: %s and %s differ in row %d, column %d: %u and %u\n", candidates[c]->name,
                    candidates[READING]->name, (int)i, (int)j, b->output[spot], b->expected[spot]);
            exit(1);
        }
}

static void compare_all(struct benchmark *b, const struct benchmark_case *k)
{
    struct part whole = {0, (int32_t)b->task.rows, 0, COLUMNS};
    candidates[READING]->filter(&b->task, &whole, b->expected, b->work[READING]);
    for (int c = 0; c < CANDIDATES; c++)
        if (takes(k, c)) {
            memset(b->output, 0xA5, (size_t)b->task.rows * COLUMNS * sizeof *b->output);
            candidates[c]->filter(&b->task, &b->part[c], b->output, b->work[c]);
            compare(b, c);
        }
}

static double time_of(struct benchmark *b, int c)
{
    double start = seconds();
    candidates[c]->filter(&b->task, &b->part[c], b->output, b->work[c]);
    return seconds() - start;
}

void measure(const struct benchmark_case *k, enum kind kind, double ns[CANDIDATES])
{
    struct benchmark b;
    double spent[CANDIDATES] = {0}, least[CANDIDATES] = {0};
    prepare(&b, k, kind);
    compare_all(&b, k);
    for (int round = 0; round < MOST_ROUNDS; round++)
        for (int c = 0; c < CANDIDATES; c++)
            if (takes(k, c) && (round < ROUNDS || spent[c] < ENOUGH)) {
                double time = time_of(&b, c);
                least[c] = round == 0 || time < least[c] ? time : least[c];
                spent[c] += time;
            }
    for (int c = 0; c < CANDIDATES; c++) {
        const struct part *part = &b.part[c];
        double spots = (double)(part->end_row - part->first_row) * (part->end_column - part->first_column);
        ns[c] = takes(k, c) ? 1e9 * least[c] / spots : 0;
    }
    release(&b);
}
