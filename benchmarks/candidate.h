/* What every candidate of the benchmark is given, and the candidates. */
#ifndef CANDIDATE_H
#define CANDIDATE_H

#include <stddef.h>
#include <stdint.h>

/* An image and its mask. padded is the image with its mirrored edges, (rows + mask_rows - 1) by
 * (columns + mask_columns - 1) readings: the window of row i and column j starts at its row i and
 * column j. */
struct task {
    uint32_t cycle, rows, columns, mask_rows, mask_columns;
    const uint16_t *image;
    const uint16_t *padded;
};

/* The part of the output that is written. Only the direct sums take every part; the others take
 * rows from row 0 on. */
struct part {
    int32_t first_row, end_row, first_column, end_column;
};

/* A filter; need tells how many numbers of work memory it takes. */
struct candidate {
    const char *name;
    size_t (*need)(const struct task *task);
    void (*filter)(const struct task *task, const struct part *part, uint16_t *output, uint32_t *work);
};

extern const struct candidate level_engine, reading_engine;

/* Algorithms 2 and 1 of Storath and Weinmann and the direct sum, each as written and tuned. */
extern const struct candidate algorithm2_literal, algorithm2_tuned;
extern const struct candidate algorithm1_literal, algorithm1_tuned;
extern const struct candidate direct_sum_literal, direct_sum_tuned;

#endif
