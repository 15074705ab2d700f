/* The benchmark: both engines of the library beside Algorithms 1 and 2 of Storath and Weinmann and
 * the direct sum, each as written and tuned, on the same images; then the live window beside one
 * that sums directly. With the argument `live` it is the live window alone.
 *
 * The first row, which is set up afresh, takes engines and algorithms as long as 1 to 4 later rows
 * at 3x3 and as 4 to 13 at 31x31; rows are so many that this weighs little in a ratio. */
#include "live.h"
#include "report.h"

#include <stdio.h>
#include <string.h>

static const struct benchmark_case cases[] = {
    {360, 1, 3, 64, 384, 384, 1000},  {360, 3, 3, 64, 256, 128, 1000}, {360, 7, 7, 64, 96, 4, 1000},
    {360, 1, 31, 64, 128, 8, 1000},   {360, 15, 15, 96, 64, 1, 200},   {360, 31, 31, 128, 48, 1, 20},
    {1800, 19, 19, 48, 64, 1, 100},   {4096, 7, 7, 24, 96, 4, 1000},   {65535, 3, 3, 0, 256, 128, 1000},
    {65535, 11, 11, 0, 96, 1, 500},   {65535, 31, 31, 0, 48, 1, 20},
};

enum { CASES = sizeof cases / sizeof cases[0] };

static void print_engines(void)
{
    static double ns[2][CASES][CANDIDATES];
    const struct results results = {cases, CASES, {ns[RANDOM], ns[DRIFTING]}};
    print_forms();
    print_parts(&results);
    for (int kind = RANDOM; kind <= DRIFTING; kind++) {
        print_times_head((enum kind)kind);
        for (int n = 0; n < CASES; n++) {
            measure(&cases[n], (enum kind)kind, ns[kind][n]);
            print_times(&cases[n], ns[kind][n]);
        }
        print_ratios(&results, (enum kind)kind);
    }
    print_growth(&results);
    print_targets(&results);
}

int main(int count, char **arguments)
{
    int live_alone = count == 2 && strcmp(arguments[1], "live") == 0;
    if (count > 1 && !live_alone) {
        fprintf(stderr, "usage: benchmark [live]\n");
        return 2;
    }
    if (!live_alone)
        print_engines();
    print_live();
    return 0;
}
