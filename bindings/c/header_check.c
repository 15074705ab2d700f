/* Checks the header as C and as C++: its structs, numbers and limits, and calls of each function,
 * accepted and refused.
 *
 * Both languages compile it, so it uses what they share. The exit status is 0 if all is right. */
#include <stdio.h>
#include <string.h>

#include "circle_median.h"

/* No such array can be declared if the condition is false. */
#define ASSERT(name, condition) typedef char assert_##name[(condition) ? 1 : -1]

ASSERT(answer_size, sizeof(circle_median_answer) == 16);
ASSERT(answer_place, offsetof(circle_median_answer, place) == 8);
ASSERT(value_size, sizeof(circle_median_value_answer) == 24);
ASSERT(value_value, offsetof(circle_median_value_answer, value) == 16);
ASSERT(record_size, sizeof(circle_median_record_answer) == 40);
ASSERT(record_cycle, offsetof(circle_median_record_answer, cycle) == 16);
ASSERT(record_mask_columns, offsetof(circle_median_record_answer, mask_columns) == 32);
ASSERT(window_answer_size, sizeof(circle_median_window_answer) == 32);
ASSERT(window_answer_place, offsetof(circle_median_window_answer, place) == 8);
ASSERT(window_answer_value, offsetof(circle_median_window_answer, value) == 16);
ASSERT(window_answer_filled, offsetof(circle_median_window_answer, filled) == 24);
ASSERT(window_size, sizeof(circle_median_window) == 264);
ASSERT(window_length, offsetof(circle_median_window, length) == 4);
ASSERT(window_filled, offsetof(circle_median_window, filled) == 8);
ASSERT(window_readings, offsetof(circle_median_window, readings) == 12);
ASSERT(window_sums, offsetof(circle_median_window, sums) == 138);
ASSERT(window_room, CIRCLE_MEDIAN_WINDOW == 63);
ASSERT(silent, CIRCLE_MEDIAN_SILENT == 65535);
ASSERT(silent_size, sizeof(CIRCLE_MEDIAN_SILENT) == sizeof(uint16_t));

/* The limits are numbers for the preprocessor too. */
#if CIRCLE_MEDIAN_LIVE_CYCLE > CIRCLE_MEDIAN_LEVEL_CYCLE || \
    CIRCLE_MEDIAN_LEVEL_CYCLE > CIRCLE_MEDIAN_LONGEST_CYCLE
#error "the limits of the cycle are out of order"
#endif

#define REFUSED(name) CIRCLE_MEDIAN_REFUSED_##name

static const uint16_t image[5] = {1, 4, 1, 7, 7};
static const uint16_t chosen[5] = {1, 1, 1, 7, 7};

/* The same with silent readings; around the last column none is heard. */
static const uint16_t gaps[5] = {
    1, CIRCLE_MEDIAN_SILENT, 7, CIRCLE_MEDIAN_SILENT, CIRCLE_MEDIAN_SILENT};
static const uint16_t gaps_chosen[5] = {1, 1, 7, 7, CIRCLE_MEDIAN_SILENT};

/* More readings than a row may have, all 0. */
static uint16_t long_row[CIRCLE_MEDIAN_MOST_COLUMNS + 1];

static int wrong = 0;

static void expect(const char *what, int right)
{
    if (!right) {
        fprintf(stderr, "header_check: %s is wrong\n", what);
        wrong = 1;
    }
}

static int is_value(circle_median_value_answer answer, int64_t value)
{
    return answer.number == CIRCLE_MEDIAN_ACCEPTED && answer.place == 0 && answer.value == value;
}

static int is_refused(circle_median_value_answer answer, uint32_t number, uint64_t place)
{
    return answer.number == number && answer.place == place && answer.value == 0;
}

static int is_answer(circle_median_answer answer, uint32_t number, uint64_t place)
{
    return answer.number == number && answer.place == place;
}

static int same(const uint16_t *a, const uint16_t *b)
{
    for (int at = 0; at < 5; at++) {
        if (a[at] != b[at]) {
            return 0;
        }
    }
    return 1;
}

static void check_ticks(void)
{
    expect("distance", is_value(circle_median_distance(360, 359, 1), 2));
    expect("a refused distance", is_refused(circle_median_distance(8, 1, 8), REFUSED(READING), 1));
    expect("a silent argument",
           is_refused(circle_median_distance(8, 1, CIRCLE_MEDIAN_SILENT), REFUSED(READING), 1));
    expect("step", is_value(circle_median_step(8, 1, 6), -3));
    expect("a step of half a cycle", is_value(circle_median_step(8, 1, 5), -4));
    expect("a refused step", is_refused(circle_median_step(0, 1, 6), REFUSED(CYCLE), 0));
    expect("slot", is_value(circle_median_slot(8, 1, 6, 3), 1));
    expect("a refused slot", is_refused(circle_median_slot(8, 1, 6, 8), REFUSED(READING), 2));
    expect("drift", is_value(circle_median_drift(8, chosen, 5), -2));
    expect("a refused drift", is_refused(circle_median_drift(7, image, 5), REFUSED(READING), 3));
    expect("a drift over gaps", is_value(circle_median_drift(8, gaps, 5), -2));
}

/* The answer of the level engine on a row of five, with work memory for every cycle. */
static circle_median_answer level(uint32_t cycle, const uint16_t *input, uint16_t *output)
{
    static uint32_t work[CIRCLE_MEDIAN_LEVEL_CYCLE * 6];

    return circle_median_level(cycle, 1, 5, 1, 3, 0, 1, input, 5, output, 5, work, sizeof work / 4);
}

/* The same of the reading engine. */
static circle_median_answer reading(uint32_t cycle, const uint16_t *input, uint16_t *output)
{
    uint32_t work[18];

    return circle_median_reading(cycle, 1, 5, 1, 3, 0, 1, input, 5, output, 5, work, 18);
}

static void check_engines(void)
{
    uint16_t output[5] = {0, 0, 0, 0, 0};
    uint32_t work[48];

    expect("level", is_answer(level(8, image, output), 0, 0) && same(output, chosen));
    output[0] = 9;
    expect("reading", is_answer(reading(8, image, output), 0, 0) && same(output, chosen));
    expect("level over gaps", is_answer(level(8, gaps, output), 0, 0) && same(output, gaps_chosen));
    output[0] = 9;
    expect("reading over gaps", is_answer(reading(8, gaps, output), 0, 0) && same(output, gaps_chosen));
    expect("a refused reading", is_answer(reading(7, image, output), REFUSED(READING), 3));

    circle_median_answer answer =
        circle_median_level(8, 1, 5, 1, 3, 1, 0, image, 5, output, 5, work, 48);
    expect("refused rows", is_answer(answer, REFUSED(ROWS), 0));
    answer = circle_median_level(8, 1, 5, 1, 3, 0, 1, image, 4, output, 5, work, 48);
    expect("a refused input", is_answer(answer, REFUSED(INPUT), 0));
    answer = circle_median_level(8, 1, 5, 1, 3, 0, 1, image, 5, output, 4, work, 48);
    expect("a refused output", is_answer(answer, REFUSED(BUFFER), 0));
    answer = circle_median_level(8, 1, 5, 1, 3, 0, 1, image, 5, output, 5, work, 47);
    expect("refused work memory", is_answer(answer, REFUSED(WORK), 0));
}

static void check_record(void)
{
    uint8_t bytes[36];
    uint16_t readings[5];

    bytes[35] = 0;
    expect("write", is_value(circle_median_write(8, 1, 5, 1, 3, image, 5, bytes, 35), 35));
    expect("a refused write",
           is_refused(circle_median_write(8, 1, 5, 1, 3, image, 5, bytes, 34), REFUSED(BUFFER), 0));
    circle_median_record_answer record = circle_median_read(bytes, 35, readings, 5);
    expect("read", record.number == 0 && record.cycle == 8 && record.rows == 1 && record.columns == 5);
    expect("the mask read", record.mask_rows == 1 && record.mask_columns == 3 && same(readings, image));
    record = circle_median_read(bytes, 36, readings, 5);
    expect("a byte too many", record.number == REFUSED(TRAILING) && record.place == 35);
    expect("the cycle of a refused record", record.cycle == 0);
    record = circle_median_read(bytes, 34, readings, 5);
    expect("a byte too few", record.number == REFUSED(CUT) && record.place == 32);
    record = circle_median_read(bytes + 5, 30, readings, 5);
    expect("another tag", record.number == REFUSED(TAG) && record.place == 0);
    bytes[2] = 4;
    record = circle_median_read(bytes, 35, readings, 5);
    expect("another length", record.number == REFUSED(LENGTH) && record.place == 0);
    expect("a silent write", is_value(circle_median_write(8, 1, 5, 1, 3, gaps, 5, bytes, 35), 35));
    record = circle_median_read(bytes, 35, readings, 5);
    expect("a silent read", record.number == 0 && record.cycle == 8 && same(readings, gaps));
}

static void check_window(void)
{
    circle_median_window window;
    const uint16_t silent = CIRCLE_MEDIAN_SILENT;

    expect("new", is_answer(circle_median_window_new(&window, 8, 3), 0, 0));
    expect("a first push", is_value(circle_median_window_push(&window, 1), CIRCLE_MEDIAN_FILLING));
    expect("a refused push", is_refused(circle_median_window_push(&window, 8), REFUSED(READING), 0));
    expect("a second push", is_value(circle_median_window_push(&window, 4), CIRCLE_MEDIAN_FILLING));
    expect("a third push", is_value(circle_median_window_push(&window, 1), 1));
    expect("a refused cycle", is_answer(circle_median_window_new(&window, 513, 64), REFUSED(CYCLE), 0));
    expect("a refused length", is_answer(circle_median_window_new(&window, 512, 64), REFUSED(MASK), 0));
    expect("a push after refusals", is_value(circle_median_window_push(&window, 7), 1));
    expect("reset", is_answer(circle_median_window_reset(&window), 0, 0));
    expect("a push after it", is_value(circle_median_window_push(&window, silent), -1));
    expect("a second one", is_value(circle_median_window_push(&window, silent), -1));
    expect("a silent window", is_value(circle_median_window_push(&window, silent), 65535));
    expect("a silent centre", is_value(circle_median_window_push(&window, 7), 7));
    window.length = 65;
    expect("a push into no window", is_refused(circle_median_window_push(&window, 512), REFUSED(MASK), 0));
    expect("a refused reset", is_answer(circle_median_window_reset(&window), REFUSED(MASK), 0));
    window.cycle = 0;
    expect("no cycle", is_refused(circle_median_window_push(&window, 0), REFUSED(CYCLE), 0));
}

/* The refusal of a call on an empty image, of which another size is told. */
static uint32_t refusal_of(uint32_t rows, uint32_t columns, uint32_t mask_rows, uint32_t mask_columns)
{
    uint16_t nothing = 0;
    uint32_t work = 0;

    return circle_median_level(
        8, rows, columns, mask_rows, mask_columns, 0, 0, &nothing, 0, &nothing, 0, &work, 0).number;
}

/* Each limit is accepted, and what is beyond it refused. */
static void check_limits(void)
{
    const uint32_t rows = CIRCLE_MEDIAN_MOST_ROWS, columns = CIRCLE_MEDIAN_MOST_COLUMNS;
    const uint32_t mask_rows = CIRCLE_MEDIAN_MOST_MASK_ROWS;
    const uint32_t mask_columns = CIRCLE_MEDIAN_MOST_MASK_COLUMNS;
    const uint32_t cycle = CIRCLE_MEDIAN_LIVE_CYCLE, length = CIRCLE_MEDIAN_LIVE_LENGTH;
    uint16_t output[5];
    circle_median_window window;

    expect("the longest cycle", is_value(circle_median_distance(CIRCLE_MEDIAN_LONGEST_CYCLE, 0, 0), 0));
    expect("a longer cycle",
           is_refused(circle_median_distance(CIRCLE_MEDIAN_LONGEST_CYCLE + 1, 0, 0), REFUSED(CYCLE), 0));
    expect("the level engine's cycle", is_answer(level(CIRCLE_MEDIAN_LEVEL_CYCLE, image, output), 0, 0));
    expect("a longer one",
           is_answer(level(CIRCLE_MEDIAN_LEVEL_CYCLE + 1, image, output), REFUSED(CYCLE), 0));
    expect("the reading engine's cycle",
           is_answer(reading(CIRCLE_MEDIAN_LEVEL_CYCLE + 1, image, output), 0, 0));
    expect("the longest row", is_value(circle_median_drift(8, long_row, CIRCLE_MEDIAN_MOST_COLUMNS), 0));
    expect("a longer row", is_refused(circle_median_drift(8, long_row, CIRCLE_MEDIAN_MOST_COLUMNS + 1),
                                      REFUSED(SIZE), 0));

    /* The largest shape is refused for its input alone. */
    expect("the largest shape", refusal_of(rows, columns, mask_rows, mask_columns) == REFUSED(INPUT));
    expect("more rows", refusal_of(rows + 1, columns, mask_rows, mask_columns) == REFUSED(SIZE));
    expect("more columns", refusal_of(rows, columns + 1, mask_rows, mask_columns) == REFUSED(SIZE));
    expect("more mask rows", refusal_of(rows, columns, mask_rows + 2, mask_columns) == REFUSED(MASK));
    expect("more mask columns", refusal_of(rows, columns, mask_rows, mask_columns + 2) == REFUSED(MASK));
    expect("the longest window", is_answer(circle_median_window_new(&window, cycle, length), 0, 0));
    expect("a window's longer cycle",
           is_answer(circle_median_window_new(&window, cycle + 1, length), REFUSED(CYCLE), 0));
    expect("a longer window",
           is_answer(circle_median_window_new(&window, cycle, length + 2), REFUSED(MASK), 0));
}

int main(void)
{
    check_ticks();
    check_engines();
    check_record();
    check_window();
    check_limits();
    expect("the version", strchr(CIRCLE_MEDIAN_VERSION, '.') != NULL);
    return wrong;
}
