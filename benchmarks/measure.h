/* The cases, and their measurement. */
#ifndef MEASURE_H
#define MEASURE_H

#include "candidate.h"
#include "image.h"

enum { LEVEL, READING, LITERAL2, TUNED2, LITERAL1, TUNED1, LITERAL_SUM, TUNED_SUM, CANDIDATES };

enum { COLUMNS = 1000, ROUNDS = 7, MOST_ROUNDS = 25 };

/* The level engine and Algorithm 2 filter level_rows rows from row 0 on, the reading engine and
 * Algorithm 1 reading_rows; the direct sums, which have no set-up, sum_rows by sum_columns spots in
 * the middle of the image. level_rows is 0 where the level engine does not take the cycle. */
struct benchmark_case {
    uint32_t cycle, mask_rows, mask_columns, level_rows, reading_rows, sum_rows, sum_columns;
};

/* Whether a candidate takes the case. */
int takes(const struct benchmark_case *k, int candidate);

/* Compares the outputs of all candidates, and ends the program if two differ. Then times all in
 * turns in processor time, each at least ROUNDS times and the quick ones more often. ns has the
 * least times, in nanoseconds for a spot. */
void measure(const struct benchmark_case *k, enum kind kind, double ns[CANDIDATES]);

#endif
