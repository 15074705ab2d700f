/* circle_median.h: the circle median of wake phases, for C99 and C++.
 *
 * The library filters the phases at which labels wake. With the filter come the distance, the step,
 * the slot and the drift of phases, a writer and a reader of bench records, and a live window,
 * which filters one label wake by wake. docs/SPECIFICATION.md has the rules, and a comment here
 * cites a heading of it as SPECIFICATION, "Heading". Each function of the library is proved to
 * follow them on every input; the inline functions at the end are plain C around two of these.
 *
 * Units
 *
 *   cycle         ticks of a cycle, 1 to 65,535. A tick is a number from 0 to cycle - 1. Distances,
 *                 steps, slots and drifts are in ticks.
 *   rows          labels of an image, 1 to 1,024
 *   columns       wakes of an image, 1 to 8,192. An image stands row by row: the reading of label i
 *                 at wake j is at i * columns + j.
 *   mask_rows     labels of the window around a reading, and
 *   mask_columns  its wakes: each odd, 1 to 255, and maybe more than the image has
 *   length        wakes of a live window: odd, 1 to 63
 *   reading       a tick, or CIRCLE_MEDIAN_SILENT where a wake was not heard
 *   .._length     elements, not bytes, that the pointer before it leads to
 *
 * Answers
 *
 *   An answer has a number and a place. Of an accepted call they are CIRCLE_MEDIAN_ACCEPTED and 0.
 *   Those of a refused call tell the first of its tests that failed: its number in enum
 *   circle_median_refusal, and the place that goes with this number, 0 where it has none. The
 *   comment on each function has its tests in their order, by the last word of their names.
 *
 * Memory
 *
 *   A refused call has changed no memory. An accepted one has changed what the comment on it says,
 *   and nothing else. No function allocates, and none keeps a pointer.
 *
 *   Of each pointer the caller sees to it that it is not NULL, also where the length is 0; that it
 *   is aligned for its type; that as many elements as its length says may be read, and written
 *   where they are not const; and that what is written overlaps no other argument. Behind a pointer
 *   of a live window, to its readings or to its sums, are CIRCLE_MEDIAN_WINDOW elements.
 *
 * Threads
 *
 *   The library has no state. Calls may run at the same time, in any threads, as long as none
 *   writes what another one reads or writes.
 *
 * Stack
 *
 *   Measured on x86-64, in bytes: an accepted circle_median_level takes 84,872 and an accepted
 *   circle_median_reading 213,160. Every other call, and every refused one, takes at most 300.
 */
#ifndef CIRCLE_MEDIAN_H
#define CIRCLE_MEDIAN_H

#include <stddef.h>
#include <stdint.h>

/* The version of this header and of the library that it belongs to. */
#define CIRCLE_MEDIAN_VERSION "0.1.0"

/* The reading of a wake that was not heard, on every cycle. It is a tick of none, has no distance
 * and adds to no sum. SPECIFICATION, "Silence". */
#define CIRCLE_MEDIAN_SILENT ((uint16_t)65535)

/* The largest sizes that are accepted; the smallest is 1 for each. SPECIFICATION, "Cycle", "Sizes",
 * "Mask" and "Live window". */
#define CIRCLE_MEDIAN_LONGEST_CYCLE 65535   /* ticks of a cycle */
#define CIRCLE_MEDIAN_LEVEL_CYCLE 4096      /* ticks of a cycle for circle_median_level */
#define CIRCLE_MEDIAN_MOST_ROWS 1024        /* labels of an image */
#define CIRCLE_MEDIAN_MOST_COLUMNS 8192     /* wakes of an image, or of a row by itself */
#define CIRCLE_MEDIAN_MOST_MASK_ROWS 255    /* labels of a mask, an odd number */
#define CIRCLE_MEDIAN_MOST_MASK_COLUMNS 255 /* wakes of a mask, an odd number */
#define CIRCLE_MEDIAN_LIVE_CYCLE 512        /* ticks of a cycle for a live window */
#define CIRCLE_MEDIAN_LIVE_LENGTH 63        /* wakes of a live window, an odd number */

#ifdef __cplusplus
extern "C" {
#endif

/* The numbers of the refusals, each with its reason and, where it has one, its place. 4 is
 * reserved: no call gives it. SPECIFICATION, "Numbers". */
enum circle_median_refusal {
    /* No refusal: the call was accepted. */
    CIRCLE_MEDIAN_ACCEPTED = 0,
    /* The cycle is 0, or longer than the call takes. */
    CIRCLE_MEDIAN_REFUSED_CYCLE = 1,
    /* Rows or columns are 0 or too many; or a row by itself has none or too many. */
    CIRCLE_MEDIAN_REFUSED_SIZE = 2,
    /* A side of the mask, or the length of a live window, is even, 0 or too long. */
    CIRCLE_MEDIAN_REFUSED_MASK = 3,
    /* The first row is above the end row, or the end row above rows. */
    CIRCLE_MEDIAN_REFUSED_ROWS = 5,
    /* The input, or the readings to write, are not rows * columns. */
    CIRCLE_MEDIAN_REFUSED_INPUT = 6,
    /* The output, the room for readings or the room for bytes is too short. */
    CIRCLE_MEDIAN_REFUSED_BUFFER = 7,
    /* The work memory is too short. */
    CIRCLE_MEDIAN_REFUSED_WORK = 8,
    /* A reading is neither a tick nor silent, or an argument is no tick. Place: the index of the
     * first such reading in the image or the row, or of the first such argument among those that
     * have to be ticks, from 0. */
    CIRCLE_MEDIAN_REFUSED_READING = 9,
    /* The record ends within a field or before it. Place: the offset of that field. */
    CIRCLE_MEDIAN_REFUSED_CUT = 10,
    /* The tag of a field is not the one due. Place: the offset of the tag. */
    CIRCLE_MEDIAN_REFUSED_TAG = 11,
    /* The length of a field is not the one due. Place: the offset of the field's tag. */
    CIRCLE_MEDIAN_REFUSED_LENGTH = 12,
    /* Bytes follow the end field. Place: the offset of the first. */
    CIRCLE_MEDIAN_REFUSED_TRAILING = 13,
    /* The record is longer than a bench sheet takes. The sheet's program gives it, no call here. */
    CIRCLE_MEDIAN_REFUSED_RECORD = 14
};

/* What a call without a value answers. */
typedef struct circle_median_answer {
    uint32_t number; /* CIRCLE_MEDIAN_ACCEPTED, or the refusal's number */
    uint64_t place;  /* the refusal's place; 0 where it has none, and if the call was accepted */
} circle_median_answer;

/* What a call with one value answers. */
typedef struct circle_median_value_answer {
    uint32_t number;
    uint64_t place;
    int64_t value; /* what the comment on the call says; 0 if it was refused */
} circle_median_value_answer;

/* What the reader of records answers: the five numbers are all 0 if the record was refused. */
typedef struct circle_median_record_answer {
    uint32_t number;
    uint64_t place;
    uint32_t cycle;        /* ticks of the cycle */
    uint32_t rows;         /* labels of the image */
    uint32_t columns;      /* wakes of the image */
    uint32_t mask_rows;    /* labels of the mask */
    uint32_t mask_columns; /* wakes of the mask */
} circle_median_record_answer;

/* What a push into a live window answers. */
typedef struct circle_median_window_answer {
    uint32_t number;
    uint64_t place;
    int64_t value;   /* as of circle_median_window_push */
    uint32_t filled; /* how many of the window's readings are there afterwards */
} circle_median_window_answer;

/* The filter: its two engines.
 *
 * Each reading of the rows first to end - 1 is replaced by the chosen phase of its window: the
 * heard reading of the window with the least sum of distances to all that are heard there; of
 * several the one nearest to the centre, and of two as near the one ahead of it. At the edges the
 * image is mirrored, the edge repeated, as often as the mask needs. Where the centre is silent, the
 * window's first heard reading stands in for it; where the whole window is silent, so is the phase.
 * SPECIFICATION, "Window" and "Chosen phase".
 *
 * Both engines write the same numbers. They differ in time, in work memory and in the cycles that
 * they take: the time of the level engine grows with the cycle, that of the reading engine with the
 * mask. SPECIFICATION, "Engines".
 */

/* Filters rows of an image by the level engine, which weighs every tick of the cycle.
 *
 *   first, end  the rows from first up to end, without end; none if they are equal
 *   input       the image: exactly rows * columns readings
 *   output      at least rows * columns elements
 *   work        at least cycle * (columns + 1) elements
 *
 * Refuses, in this order: CYCLE (0 or above 4,096), SIZE, MASK, ROWS, INPUT, BUFFER, WORK, READING.
 * All of the image is tested, whatever the rows.
 *
 * Afterwards: each row from first up to end stands in output at its own place in the whole image,
 * and the rest of output is as before. The first cycle * (columns + 1) elements of work are 0, also
 * where there was no row to filter, and the rest of work is as before. What output and work held
 * before makes no difference to that. SPECIFICATION, "Lent memory". */
circle_median_answer circle_median_level(
    uint32_t cycle, uint32_t rows, uint32_t columns, uint32_t mask_rows, uint32_t mask_columns,
    uint32_t first, uint32_t end,
    const uint16_t *input, size_t input_length,
    uint16_t *output, size_t output_length,
    uint32_t *work, size_t work_length);

/* Filters rows of an image by the reading engine, which weighs the readings of the window.
 *
 * All is as of circle_median_level, but for the cycle, up to 65,535, and for work, of which
 * mask_rows * mask_columns * (columns + 1) elements are needed, and 0 afterwards. */
circle_median_answer circle_median_reading(
    uint32_t cycle, uint32_t rows, uint32_t columns, uint32_t mask_rows, uint32_t mask_columns,
    uint32_t first, uint32_t end,
    const uint16_t *input, size_t input_length,
    uint16_t *output, size_t output_length,
    uint32_t *work, size_t work_length);

/* Measures how far apart ticks a and b are, the shorter way round the cycle.
 *
 * The value is that distance, 0 to cycle / 2. SPECIFICATION, "Distance".
 * Refuses, in this order: CYCLE (0 or above 65,535), READING at 0 (a), READING at 1 (b).
 * CIRCLE_MEDIAN_SILENT is no tick. */
circle_median_value_answer circle_median_distance(uint32_t cycle, uint16_t a, uint16_t b);

/* Measures the way from tick a to tick b, the shorter one, with its direction.
 *
 * The value is above 0 ahead, below 0 back, and 0 if a is b. A way of half a cycle is back.
 * SPECIFICATION, "Step".
 * Refuses, in this order: CYCLE (0 or above 65,535), READING at 0 (a), READING at 1 (b). */
circle_median_value_answer circle_median_step(uint32_t cycle, uint16_t a, uint16_t b);

/* Tells whether tick p is in the slot that starts at tick s and ends w ticks later.
 *
 * The value is 1 if it is, both ends included, and else 0. SPECIFICATION, "Slot".
 * Refuses, in this order: CYCLE (0 or above 65,535), READING at 0 (p), at 1 (s), at 2 (w). */
circle_median_value_answer circle_median_slot(uint32_t cycle, uint16_t p, uint16_t s, uint16_t w);

/* Measures how far a label has moved over a row of its readings, of which there are 1 to 8,192.
 *
 * The value is the sum of the steps from each heard reading to the next one heard, whatever is
 * silent between; 0 with fewer than two heard. SPECIFICATION, "Drift".
 * Refuses, in this order: CYCLE (0 or above 65,535), SIZE (of the row), READING. */
circle_median_value_answer circle_median_drift(
    uint32_t cycle, const uint16_t *row, size_t row_length);

/* Writes a bench record.
 *
 *   readings  the image: exactly rows * columns readings
 *   bytes     at least 22 + rows * (3 + 2 * columns) elements, which is the length of the record
 *
 * The value is the record's length in bytes. A silent reading is written as FF FF, and the mask
 * always with its two sides. SPECIFICATION, "Writer".
 * Refuses, in this order: CYCLE (0 or above 65,535), SIZE, MASK, INPUT, BUFFER, READING.
 * Afterwards: the record is at the front of bytes, and what is behind it is as before. */
circle_median_value_answer circle_median_write(
    uint32_t cycle, uint32_t rows, uint32_t columns, uint32_t mask_rows, uint32_t mask_columns,
    const uint16_t *readings, size_t readings_length,
    uint8_t *bytes, size_t bytes_length);

/* Reads a bench record, which fills all of bytes.
 *
 *   bytes     the record
 *   readings  at least as many elements as the record has readings
 *
 * The answer has the cycle, the image's sizes and the mask's sides; an empty mask field is a mask
 * of 1 by 7. SPECIFICATION, "Reader".
 * Refuses as the bytes come, field by field. In each field: CUT (fewer than three bytes are left),
 * TAG, LENGTH, CUT (the body is not all there), then what the body holds: CYCLE (0); SIZE; MASK and
 * then BUFFER (for all readings of the record); READING, for each row in turn. Behind the end
 * field: TRAILING.
 * Afterwards: the rows * columns readings are at the front of readings, FF FF as
 * CIRCLE_MEDIAN_SILENT, and what is behind them is as before. */
circle_median_record_answer circle_median_read(
    const uint8_t *bytes, size_t bytes_length,
    uint16_t *readings, size_t readings_length);

/* The live window, for a gateway that stores no image.
 *
 * It takes the readings of one label as they come, on cycles up to 512. A reading is answered by
 * the chosen phase of the last length readings, of which the middle one is the centre; while fewer
 * have come, by CIRCLE_MEDIAN_FILLING. Silent readings are counted like others, refused ones are
 * not. The phase is what both engines write in the same row, under a mask of 1 by length, for the
 * wake that came length / 2 wakes before. SPECIFICATION, "Live window".
 *
 * A window begins with circle_median_window_new. Its members are for the functions here alone; a
 * copy is a window by itself. A window that was made otherwise is refused by the
 * tests below or else answered; which answer, and which members, is open. */

/* The elements of a live window's readings, and of its sums. */
#define CIRCLE_MEDIAN_WINDOW CIRCLE_MEDIAN_LIVE_LENGTH

/* The value of a push while the window fills. */
#define CIRCLE_MEDIAN_FILLING (-1)

typedef struct circle_median_window {
    uint32_t cycle;                          /* ticks of the cycle */
    uint32_t length;                         /* how many of the last readings count */
    uint32_t filled;                         /* how many of these have come */
    uint16_t readings[CIRCLE_MEDIAN_WINDOW]; /* the last readings, oldest first */
    uint16_t sums[CIRCLE_MEDIAN_WINDOW];     /* the sum of distances at each */
} circle_median_window;

/* Makes the readings and sums of a live window fresh; circle_median_window_new calls it.
 *
 * Refuses, in this order: CYCLE (0 or above 512), MASK (length even, 0 or above 63).
 * Afterwards: all readings are silent and all sums 0. */
circle_median_answer circle_median_window_fresh(
    uint32_t cycle, uint32_t length, uint16_t *readings, uint16_t *sums);

/* Pushes a reading into the readings and sums of a live window of which filled have come;
 * circle_median_window_push calls it.
 *
 * The value is as of circle_median_window_push; filled is how many have come now, and as given if
 * the reading was refused.
 * Refuses, in this order: CYCLE (0 or above 512), MASK (length even, 0 or above 63), READING at 0.
 * Afterwards: the first length readings and sums are those of the window with the new reading, and
 * the rest of them are as before. */
circle_median_window_answer circle_median_window_enter(
    uint32_t cycle, uint32_t length, uint32_t filled, uint16_t reading,
    uint16_t *readings, uint16_t *sums);

/* Makes w a fresh window of a cycle of 1 to 512 ticks and of an odd length, 1 to 63.
 *
 * Refuses, in this order: CYCLE, MASK.
 * Afterwards: w has no readings, whatever it held before; if refused, it is as before. */
static inline circle_median_answer circle_median_window_new(
    circle_median_window *w, uint32_t cycle, uint32_t length)
{
    circle_median_answer answer = circle_median_window_fresh(cycle, length, w->readings, w->sums);

    if (answer.number == CIRCLE_MEDIAN_ACCEPTED) {
        w->cycle = cycle;
        w->length = length;
        w->filled = 0;
    }
    return answer;
}

/* Pushes a reading into a window, and takes off the oldest one where the window is full.
 *
 * The value is the chosen phase, a tick; CIRCLE_MEDIAN_SILENT if no reading of the window was
 * heard; CIRCLE_MEDIAN_FILLING while fewer than length readings have come.
 * Refuses: READING at 0. (Of a window that circle_median_window_new did not make also CYCLE and
 * MASK, before that.)
 * Afterwards: the window has the reading; if refused, it is as before. */
static inline circle_median_value_answer circle_median_window_push(
    circle_median_window *w, uint16_t reading)
{
    circle_median_window_answer entered =
        circle_median_window_enter(w->cycle, w->length, w->filled, reading, w->readings, w->sums);
    circle_median_value_answer answer = {entered.number, entered.place, entered.value};

    w->filled = entered.filled;
    return answer;
}

/* Makes a window fresh again, of the same cycle and length.
 *
 * Refuses nothing. (Of a window that circle_median_window_new did not make CYCLE and MASK.)
 * Afterwards: as of circle_median_window_new. */
static inline circle_median_answer circle_median_window_reset(circle_median_window *w)
{
    return circle_median_window_new(w, w->cycle, w->length);
}

#ifdef __cplusplus
}
#endif

#endif
