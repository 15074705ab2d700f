/* Prints the bench sheet of a record: filter_record FILE.
 *
 * An example of the calls for C. The record is read and filtered, and each row printed with its
 * drift, a silent phase as a `-`. Memory has the sizes that the bench sheet's program has, and so
 * the text is the same: SPECIFICATION, "Sheet". The exit status is 0 if a sheet or a refusal was
 * printed, 1 for a file that cannot be read and 2 for a wrong call. */
#include <inttypes.h>
#include <stdio.h>

#include "circle_median.h"

/* The bytes of the longest record that is taken, and the numbers of each memory. */
enum { RECORD_MOST = 16384, READINGS = 8192, WORK = 16384 };

/* A byte more than the longest record has, so that a longer one is noticed. */
static uint8_t bytes[RECORD_MOST + 1];
static uint16_t readings[READINGS];
static uint16_t filtered[READINGS];
static uint32_t work[WORK];

static void print_refusal(uint32_t number, uint64_t place)
{
    printf("refused %" PRIu32 " at %" PRIu64 "\n", number, place);
}

/* Filters all rows: by the level engine if it takes the cycle and has the work memory that it needs,
 * else by the reading engine. */
static circle_median_answer filter(const circle_median_record_answer *record)
{
    size_t image = (size_t)record->rows * record->columns;
    size_t level_work = (size_t)record->cycle * (record->columns + 1);
    int level = record->cycle <= CIRCLE_MEDIAN_LEVEL_CYCLE && level_work <= WORK;

    return (level ? circle_median_level : circle_median_reading)(
        record->cycle, record->rows, record->columns, record->mask_rows, record->mask_columns, 0, record->rows,
        readings, image, filtered, READINGS, work, WORK);
}

static void print_row(const circle_median_record_answer *record, uint32_t row)
{
    const uint16_t *phases = filtered + (size_t)row * record->columns;

    printf("row %" PRIu32 ":", row);
    for (uint32_t column = 0; column < record->columns; column++) {
        if (phases[column] == CIRCLE_MEDIAN_SILENT) {
            printf(" -");
        } else {
            printf(" %u", (unsigned)phases[column]);
        }
    }
    /* No filtered row is refused: each of its phases is a tick or silent. */
    printf(" drift %" PRId64 "\n", circle_median_drift(record->cycle, phases, record->columns).value);
}

static void print_sheet(size_t length)
{
    circle_median_record_answer record = circle_median_read(bytes, length, readings, READINGS);
    if (record.number != CIRCLE_MEDIAN_ACCEPTED) {
        print_refusal(record.number, record.place);
        return;
    }
    circle_median_answer answer = filter(&record);
    if (answer.number != CIRCLE_MEDIAN_ACCEPTED) {
        print_refusal(answer.number, answer.place);
        return;
    }
    printf("cycle %" PRIu32 " rows %" PRIu32 " columns %" PRIu32 " mask %" PRIu32 " %" PRIu32 "\n",
           record.cycle, record.rows, record.columns, record.mask_rows, record.mask_columns);
    for (uint32_t row = 0; row < record.rows; row++) {
        print_row(&record, row);
    }
}

int main(int count, char **arguments)
{
    if (count != 2) {
        fprintf(stderr, "usage: filter_record FILE\n");
        return 2;
    }
    FILE *file = fopen(arguments[1], "rb");
    size_t length = file ? fread(bytes, 1, sizeof bytes, file) : 0;
    if (!file || ferror(file)) {
        fprintf(stderr, "filter_record: cannot read %s\n", arguments[1]);
        return 1;
    }
    fclose(file);
    if (length > RECORD_MOST) {
        print_refusal(CIRCLE_MEDIAN_REFUSED_RECORD, 0);
    } else {
        print_sheet(length);
    }
    return 0;
}
