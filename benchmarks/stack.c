/* Prints how much stack each call of the library takes, measured: the call is made on memory that
 * is painted beforehand, and what has lost its paint afterwards was used. What the measurement
 * itself takes is subtracted. */
#define _XOPEN_SOURCE 600
#include "circle_median.h"

#include <stdio.h>
#include <string.h>
#include <ucontext.h>

enum { STACK = 1 << 20, PAINT = 0xA5, ROWS = 8, COLUMNS = 1024, CYCLE = 360 };

static unsigned char stack[STACK];
static ucontext_t here, there;

static uint16_t image[ROWS * COLUMNS], output[ROWS * COLUMNS];
static uint32_t work[CYCLE * (COLUMNS + 1)];
static uint8_t bytes[22 + ROWS * (3 + 2 * COLUMNS)];
static circle_median_window window;
static uint32_t number;

/* The calls: accepted with all memory, refused where one number of it is missing or an argument is
 * one too large. */
static size_t missing;

static void nothing(void) { number = (uint32_t)missing; }

static void level(void)
{
    number = circle_median_level(CYCLE, ROWS, COLUMNS, 3, 15, 0, ROWS, image, ROWS * COLUMNS, output,
                                 ROWS * COLUMNS, work, CYCLE * (COLUMNS + 1) - missing).number;
}

static void reading(void)
{
    number = circle_median_reading(CYCLE, ROWS, COLUMNS, 3, 15, 0, ROWS, image, ROWS * COLUMNS, output,
                                   ROWS * COLUMNS, work, 3 * 15 * (COLUMNS + 1) - missing).number;
}

static void distance(void) { number = circle_median_distance(CYCLE, 1, (uint16_t)(CYCLE - 1 + missing)).number; }

static void step(void) { number = circle_median_step(CYCLE, 1, (uint16_t)(CYCLE - 1 + missing)).number; }

static void slot(void) { number = circle_median_slot(CYCLE, 1, 2, (uint16_t)(CYCLE - 1 + missing)).number; }

static void drift(void) { number = circle_median_drift(CYCLE, image, missing ? 0 : COLUMNS).number; }

static void write(void)
{
    number = circle_median_write(CYCLE, ROWS, COLUMNS, 3, 15, image, ROWS * COLUMNS, bytes,
                                 sizeof bytes - missing).number;
}

static void read(void) { number = circle_median_read(bytes, sizeof bytes, output, ROWS * COLUMNS - missing).number; }

static void window_fresh(void)
{
    number = circle_median_window_fresh(CYCLE, CIRCLE_MEDIAN_WINDOW + (uint32_t)missing, window.readings,
                                        window.sums).number;
}

/* All readings are there, so that an accepted one is answered by a phase. */
static void window_enter(void)
{
    number = circle_median_window_enter(CYCLE, CIRCLE_MEDIAN_WINDOW, CIRCLE_MEDIAN_WINDOW,
                                        (uint16_t)(CYCLE - 1 + missing), window.readings, window.sums).number;
}

/* The bytes of stack that a call takes. */
static size_t taken(void (*call)(void))
{
    size_t free = 0;
    memset(stack, PAINT, STACK);
    getcontext(&there);
    there.uc_stack.ss_sp = stack;
    there.uc_stack.ss_size = STACK;
    there.uc_link = &here;
    makecontext(&there, call, 0);
    swapcontext(&here, &there);
    while (free < STACK && stack[free] == PAINT) free++;
    return STACK - free;
}

int main(void)
{
    static const struct { const char *name; void (*call)(void); } calls[] = {
        {"level", level}, {"reading", reading}, {"distance", distance}, {"step", step},
        {"slot", slot}, {"drift", drift}, {"write", write}, {"read", read},
        {"window_fresh", window_fresh}, {"window_enter", window_enter},
    };
    size_t k, own = taken(nothing);
    for (k = 0; k < ROWS * COLUMNS; k++) image[k] = (uint16_t)(k * 7919 % CYCLE);
    printf("| call | refused | accepted |\n|---|---|---|\n");
    for (k = 0; k < sizeof calls / sizeof calls[0]; k++) {
        size_t accepted, refused;
        missing = 0;
        accepted = taken(calls[k].call) - own;
        if (number != 0) return 1;
        missing = 1;
        refused = taken(calls[k].call) - own;
        if (number == 0) return 1;
        printf("| `circle_median_%s` | %zu | %zu |\n", calls[k].name, refused, accepted);
    }
    return 0;
}
