/* The library's live window beside one in plain C that sums directly, on the same rows, pushed
 * reading by reading into a fresh window. The answers are kept, so that no push can be left out. A
 * time is the least processor time of many turns; the library's has the tests of the window and of
 * the reading in it. */
#include "live.h"
#include "circle_median.h"
#include "clock.h"
#include "image.h"
#include "live_direct.h"

#include <stdio.h>
#include <stdlib.h>

enum { ROW = 8192, TURNS = 9, MOST_TURNS = 99 };

static const double ENOUGH = 0.05; /* seconds for a window, unless TURNS take longer */

enum { LIBRARY, DIRECT, WINDOWS };

/* The rows: one in ten silent in the last. */
enum { SOME_SILENT = DRIFTING + 1, ROWS };

static const char *const rows[ROWS] = {"random", "drifting", "random, one in ten silent"};

static const uint32_t cycles[] = {360, 512};

/* How many times as fast a push should be; 0 where there is no target. */
static const struct bar {
    uint32_t length;
    double times;
} bars[] = {{7, 1}, {15, 2}, {31, 0}, {63, 5}};

static uint16_t row[ROW];
static int32_t answers[WINDOWS][ROW];

static void draw_row(int kind, uint32_t cycle)
{
    struct task task = {cycle, 1, ROW, 1, 1, row, NULL};
    draw(kind == DRIFTING ? DRIFTING : RANDOM, &task, row);
    if (kind == SOME_SILENT)
        silence(row, ROW, 10);
}

static void push_library(uint32_t cycle, uint32_t length)
{
    circle_median_window w;
    if (circle_median_window_new(&w, cycle, length).number != 0) {
        fprintf(stderr, "benchmark: a live window was refused, C = %u, T = %u\n", (unsigned)cycle,
                (unsigned)length);
        exit(1);
    }
    for (int k = 0; k < ROW; k++) {
        circle_median_value_answer answer = circle_median_window_push(&w, row[k]);
        answers[LIBRARY][k] = answer.number == 0 ? (int32_t)answer.value : LIVE_REFUSED;
    }
}

static void push_direct(uint32_t cycle, uint32_t length)
{
    struct live_direct w;
    live_direct_new(&w, (int32_t)cycle, (int32_t)length);
    for (int k = 0; k < ROW; k++)
        answers[DIRECT][k] = live_direct_push(&w, row[k]);
}

static void (*const pushes[WINDOWS])(uint32_t cycle, uint32_t length) = {push_library, push_direct};

static void compare(uint32_t cycle, uint32_t length)
{
    for (int window = 0; window < WINDOWS; window++)
        pushes[window](cycle, length);
    for (int k = 0; k < ROW; k++)
        if (answers[LIBRARY][k] != answers[DIRECT][k]) {
            fprintf(stderr, "benchmark: live windows differ at reading %d, C = %u, T = %u: %d and %d\n", k,
                    (unsigned)cycle, (unsigned)length, (int)answers[LIBRARY][k], (int)answers[DIRECT][k]);
            exit(1);
        }
}

/* The least times, in nanoseconds for a push. */
static void time_windows(uint32_t cycle, uint32_t length, double ns[WINDOWS])
{
    double spent[WINDOWS] = {0};
    for (int turn = 0; turn < MOST_TURNS; turn++)
        for (int window = 0; window < WINDOWS; window++)
            if (turn < TURNS || spent[window] < ENOUGH) {
                double time = seconds();
                pushes[window](cycle, length);
                time = seconds() - time;
                spent[window] += time;
                time *= 1e9 / ROW;
                ns[window] = turn == 0 || time < ns[window] ? time : ns[window];
            }
}

static void print_case(int kind, uint32_t cycle, const struct bar *bar)
{
    double ns[WINDOWS], times;
    draw_row(kind, cycle);
    compare(cycle, bar->length);
    time_windows(cycle, bar->length, ns);
    times = ns[DIRECT] / ns[LIBRARY];
    printf("| %s | %u | %2u | %5.1f | %6.1f | %.2f |", rows[kind], (unsigned)cycle, (unsigned)bar->length, ns[LIBRARY],
           ns[DIRECT], times);
    if (bar->times == 0)
        printf(" - | - |\n");
    else
        printf(" %.1f | %s |\n", bar->times, times >= bar->times ? "yes" : "no");
    fflush(stdout);
}

void print_live(void)
{
    printf("\n### Live window: nanoseconds for each push, beside plain C that sums directly\n\n");
    printf("| readings | C | T | library | plain C | times as fast | target | reached |\n");
    printf("|---|---:|---:|---:|---:|---:|---:|---|\n");
    for (int kind = RANDOM; kind < ROWS; kind++)
        for (size_t c = 0; c < sizeof cycles / sizeof cycles[0]; c++)
            for (size_t n = 0; n < sizeof bars / sizeof bars[0]; n++)
                print_case(kind, cycles[c], &bars[n]);
}
