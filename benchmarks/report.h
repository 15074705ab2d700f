/* The tables, as Markdown. */
#ifndef REPORT_H
#define REPORT_H

#include "measure.h"

/* The nanoseconds of every case: random readings, and drifting phases. */
struct results {
    const struct benchmark_case *cases;
    int count;
    double (*ns[2])[CANDIDATES];
};

void print_forms(void);
void print_parts(const struct results *results);
void print_times_head(enum kind kind);
void print_times(const struct benchmark_case *k, const double ns[CANDIDATES]);
void print_ratios(const struct results *results, enum kind kind);
void print_growth(const struct results *results);
void print_targets(const struct results *results);

#endif
