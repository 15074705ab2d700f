/* The tables, as Markdown. */
#include "report.h"

#include <stdio.h>

static const char *const kinds[2] = {"random readings", "drifting phases"};

static void print_case(const struct benchmark_case *k)
{
    char mask[16];
    snprintf(mask, sizeof mask, "%ux%u", (unsigned)k->mask_rows, (unsigned)k->mask_columns);
    printf("| %5u | %5s |", (unsigned)k->cycle, mask);
}

static void print_number(double x, int digits)
{
    if (x == 0)
        printf(" %8s |", "-");
    else
        printf(" %8.*f |", digits, x);
}

static double ratio(double slow, double fast)
{
    return slow == 0 || fast == 0 ? 0 : slow / fast;
}

void print_forms(void)
{
    printf("- as written: the formulas of Storath and Weinmann as they stand, y(i, j) with mirrored indices "
           "at each use, distances by formula, 32-bit numbers\n");
    printf("- tuned: the same recurrences and sums over an image padded beforehand, with all that was found to make "
           "them faster, 16-bit distances among it; 32-bit sums\n");
    printf("- all outputs of a case are equal; times are processor time, the least of %d to %d turns\n", ROUNDS,
           MOST_ROUNDS);
}

void print_parts(const struct results *results)
{
    printf("\n### What is timed: rows of %d columns from row 0 on; for the direct sum spots in the middle\n\n",
           COLUMNS);
    printf("| C | mask | level engine, Alg. 2 | reading engine, Alg. 1 | direct sum |\n");
    printf("|---:|---:|---:|---:|---:|\n");
    for (int n = 0; n < results->count; n++) {
        const struct benchmark_case *k = &results->cases[n];
        print_case(k);
        print_number(k->level_rows, 0);
        print_number(k->reading_rows, 0);
        printf(" %3u by %4u |\n", (unsigned)k->sum_rows, (unsigned)k->sum_columns);
    }
}

void print_times_head(enum kind kind)
{
    printf("\n### Nanoseconds for each spot, %s\n\n", kinds[kind]);
    printf("| C | mask | level engine | reading engine | Alg. 2 as written | Alg. 2 tuned "
           "| Alg. 1 as written | Alg. 1 tuned | direct sum as written | direct sum tuned |\n");
    printf("|---:|---:|---:|---:|---:|---:|---:|---:|---:|---:|\n");
}

void print_times(const struct benchmark_case *k, const double ns[CANDIDATES])
{
    print_case(k);
    for (int c = 0; c < CANDIDATES; c++)
        print_number(ns[c], ns[c] < 1000 ? 1 : 0);
    printf("\n");
    fflush(stdout);
}

void print_ratios(const struct results *results, enum kind kind)
{
    static const int slow[] = {LITERAL2, TUNED2, LITERAL1, TUNED1, LITERAL_SUM, TUNED_SUM};
    printf("\n### How many times as fast, %s\n\n", kinds[kind]);
    printf("| C | mask | level : Alg. 2 as written | level : Alg. 2 tuned | reading : Alg. 1 as written "
           "| reading : Alg. 1 tuned | reading : direct sum as written | reading : direct sum tuned |\n");
    printf("|---:|---:|---:|---:|---:|---:|---:|---:|\n");
    for (int n = 0; n < results->count; n++) {
        const double *ns = results->ns[kind][n];
        print_case(&results->cases[n]);
        for (int i = 0; i < 6; i++)
            print_number(ratio(ns[slow[i]], ns[i < 2 ? LEVEL : READING]), 1);
        printf("\n");
    }
}

void print_growth(const struct results *results)
{
    printf("\n### Growth: nanoseconds for each mask element, and for each tick\n\n");
    printf("| C | mask | reading engine for each mask element, random | drifting "
           "| level engine for each tick, random | drifting |\n|---:|---:|---:|---:|---:|---:|\n");
    for (int n = 0; n < results->count; n++) {
        const struct benchmark_case *k = &results->cases[n];
        print_case(k);
        for (int kind = RANDOM; kind <= DRIFTING; kind++)
            print_number(results->ns[kind][n][READING] / (k->mask_rows * k->mask_columns), 2);
        for (int kind = RANDOM; kind <= DRIFTING; kind++)
            print_number(results->ns[kind][n][LEVEL] / k->cycle, 2);
        printf("\n");
    }
}

enum masks { ALL, OTHERS, MASK_3X3, MASK_7X7 };

static const struct target {
    const char *what;
    int fast, literal, tuned;
    enum masks masks;
    double times;
} targets[] = {
    {"level : Alg. 2, all", LEVEL, LITERAL2, TUNED2, ALL, 3.3},
    {"reading : Alg. 1, 3x3", READING, LITERAL1, TUNED1, MASK_3X3, 7},
    {"reading : Alg. 1, 7x7", READING, LITERAL1, TUNED1, MASK_7X7, 7},
    {"reading : Alg. 1, other masks", READING, LITERAL1, TUNED1, OTHERS, 5},
    {"reading : direct sum, 3x3", READING, LITERAL_SUM, TUNED_SUM, MASK_3X3, 6},
};

static int concerns(const struct target *target, const struct benchmark_case *k)
{
    enum masks masks = OTHERS;
    if (k->mask_rows == 3 && k->mask_columns == 3)
        masks = MASK_3X3;
    if (k->mask_rows == 7 && k->mask_columns == 7)
        masks = MASK_7X7;
    return target->masks == ALL || target->masks == masks;
}

/* Prints the lowest ratio of the cases that a target concerns, and where it was seen; gives it
 * back. */
static double print_lowest(const struct results *results, const struct target *target, int slow)
{
    double lowest = 0;
    const struct benchmark_case *at = NULL;
    int seen = RANDOM;
    for (int kind = RANDOM; kind <= DRIFTING; kind++)
        for (int n = 0; n < results->count; n++) {
            double x = ratio(results->ns[kind][n][slow], results->ns[kind][n][target->fast]);
            if (concerns(target, &results->cases[n]) && x != 0 && (at == NULL || x < lowest)) {
                lowest = x;
                at = &results->cases[n];
                seen = kind;
            }
        }
    if (at != NULL)
        printf(" %.2f at C = %u, %ux%u, %s |", lowest, (unsigned)at->cycle, (unsigned)at->mask_rows,
               (unsigned)at->mask_columns, kinds[seen]);
    return lowest;
}

void print_targets(const struct results *results)
{
    printf("\n### Targets: the lowest ratio seen against the forms as written, and against the tuned ones\n\n");
    printf("| ratio | target | lowest, as written | reached | lowest, tuned |\n|---|---:|---:|---|---:|\n");
    for (size_t n = 0; n < sizeof targets / sizeof targets[0]; n++) {
        const struct target *target = &targets[n];
        printf("| %s | %.1f |", target->what, target->times);
        double lowest = print_lowest(results, target, target->literal);
        printf(" %s |", lowest >= target->times ? "yes" : "no");
        print_lowest(results, target, target->tuned);
        printf("\n");
    }
}
