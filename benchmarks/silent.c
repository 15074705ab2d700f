/* Times both engines on images with silent readings beside the same images all heard, and prints
 * the ratios, as Markdown.
 *
 * The argument is how many readings in a hundred are silent. The two images are filtered in turns,
 * and a time is the least processor time of many turns. Before they are timed, the rows of both
 * engines are compared. With 0 the two images are the same, and the ratios tell how much of a ratio
 * is chance. */
#include "circle_median.h"
#include "clock.h"
#include "image.h"

#include <stdio.h>
#include <stdlib.h>
#include <string.h>

enum { COLUMNS = 1000, TURNS = 15, MOST_TURNS = 500 };

enum { HEARD, SILENT, IMAGES };

static const double ENOUGH = 0.8; /* seconds for an image, unless TURNS take longer */

/* Cases of benchmarks/run: the rows that each engine filters, none where the level engine does not
 * take the cycle. */
static const struct silent_case {
    uint32_t cycle, mask_rows, mask_columns;
    int32_t level_rows, reading_rows;
} cases[] = {
    {360, 1, 3, 64, 384}, {360, 3, 3, 64, 256},  {360, 7, 7, 64, 96},    {360, 31, 31, 128, 48},
    {4096, 7, 7, 24, 96}, {65535, 3, 3, 0, 256}, {65535, 11, 11, 0, 96}, {65535, 31, 31, 0, 48},
};

static void *memory(size_t numbers, size_t size)
{
    void *p = malloc(numbers * size);
    if (p == NULL) {
        fprintf(stderr, "benchmark: no memory\n");
        exit(1);
    }
    memset(p, 0xA5, numbers * size);
    return p;
}

/* Times an engine on both images, and prints the least times, in nanoseconds for a spot, and their
 * ratio. */
static void time_engine(const struct candidate *engine, const struct task tasks[IMAGES], int32_t rows, uint16_t *output)
{
    struct part part = {0, rows, 0, COLUMNS};
    uint32_t *work = memory(engine->need(&tasks[HEARD]), sizeof *work);
    double least[IMAGES] = {1e9, 1e9}, spots = (double)rows * COLUMNS, spent = 0;
    for (int turn = 0; turn < MOST_TURNS && (turn < TURNS || spent < IMAGES * ENOUGH); turn++)
        for (int k = 0; k < IMAGES; k++) {
            int image = (turn + k) % IMAGES;
            double time = seconds();
            engine->filter(&tasks[image], &part, output, work);
            time = seconds() - time;
            least[image] = time < least[image] ? time : least[image];
            spent += time;
        }
    printf(" %.1f | %.1f | %.2f |", 1e9 * least[HEARD] / spots, 1e9 * least[SILENT] / spots,
           least[SILENT] / least[HEARD]);
    free(work);
}

/* Ends the program if the engines write different rows of an image. */
static void compare(const struct task *task, int32_t rows, uint16_t *outputs[2])
{
    const struct candidate *const engines[2] = {&level_engine, &reading_engine};
    struct part part = {0, rows, 0, COLUMNS};
    for (int k = 0; k < 2; k++) {
        uint32_t *work = memory(engines[k]->need(task), sizeof *work);
        engines[k]->filter(task, &part, outputs[k], work);
        free(work);
    }
    if (memcmp(outputs[0], outputs[1], (size_t)rows * COLUMNS * sizeof **outputs) != 0) {
        fprintf(stderr, "benchmark: the engines differ on silent readings, C = %u\n", (unsigned)task->cycle);
        exit(1);
    }
}

static void measure(const struct silent_case *k, enum kind kind, uint32_t percent)
{
    int32_t rows = k->level_rows > k->reading_rows ? k->level_rows : k->reading_rows;
    int32_t both = k->level_rows < k->reading_rows ? k->level_rows : k->reading_rows;
    size_t spots = (size_t)rows * COLUMNS;
    uint16_t *images[IMAGES] = {memory(spots, sizeof **images), memory(spots, sizeof **images)};
    uint16_t *outputs[2] = {memory(spots, sizeof **outputs), memory(spots, sizeof **outputs)};
    struct task tasks[IMAGES];
    for (int image = 0; image < IMAGES; image++) {
        struct task task = {k->cycle, (uint32_t)rows, COLUMNS, k->mask_rows, k->mask_columns, images[image], NULL};
        draw(kind, &task, images[image]);
        tasks[image] = task;
    }
    silence(images[SILENT], spots, percent);

    printf("| %u | %ux%u |", (unsigned)k->cycle, (unsigned)k->mask_rows, (unsigned)k->mask_columns);
    if (k->level_rows > 0) {
        compare(&tasks[SILENT], both, outputs);
        time_engine(&level_engine, tasks, k->level_rows, outputs[0]);
    } else
        printf(" - | - | - |");
    time_engine(&reading_engine, tasks, k->reading_rows, outputs[1]);
    printf("\n");
    fflush(stdout);
    for (int n = 0; n < 2; n++) {
        free(images[n]);
        free(outputs[n]);
    }
}

int main(int count, char **arguments)
{
    static const char *const kinds[2] = {"random readings", "drifting phases"};
    uint32_t percent = count > 1 ? (uint32_t)strtoul(arguments[1], NULL, 10) : 10;
    for (int kind = RANDOM; kind <= DRIFTING; kind++) {
        printf("\n### Nanoseconds for each spot, %s, %u in a hundred silent\n\n", kinds[kind], (unsigned)percent);
        printf("| C | mask | level engine, all heard | some silent | ratio "
               "| reading engine, all heard | some silent | ratio |\n");
        printf("|---:|---:|---:|---:|---:|---:|---:|---:|\n");
        for (size_t n = 0; n < sizeof cases / sizeof cases[0]; n++)
            measure(&cases[n], (enum kind)kind, percent);
    }
    return 0;
}
