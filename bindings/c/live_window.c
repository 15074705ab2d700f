/* Answers readings one by one with a live window: live_window CYCLE LENGTH < READINGS.
 *
 * An example of the calls for C. The readings stand between spaces or line ends, a silent one as a
 * `-`. Each is answered by a line before the next is read: `filling`, the phase, a `-` if no reading
 * of the window was heard, or the refusal, which leaves the window alone. The exit status is 0 if
 * all readings were answered or the window itself was refused, 1 for a word that is no reading or
 * for input that cannot be read, and 2 for a wrong call. */
#include <inttypes.h>
#include <stdio.h>
#include <stdlib.h>
#include <string.h>

#include "circle_median.h"

/* Room for a word; a longer one is cut, and is no number then. */
enum { WORD = 11 };

static void print_refusal(uint32_t number, uint64_t place)
{
    printf("refused %" PRIu32 " at %" PRIu64 "\n", number, place);
}

/* The number that a word of one to nine digits is, and -1 for any other word. */
static int32_t number_in(const char *word)
{
    size_t digits = strspn(word, "0123456789");

    return digits >= 1 && digits <= 9 && word[digits] == '\0' ? (int32_t)strtol(word, NULL, 10) : -1;
}

/* The reading that a word is, and a number outside 16 bits for a word that is none. */
static int32_t reading_in(const char *word)
{
    return strcmp(word, "-") == 0 ? CIRCLE_MEDIAN_SILENT : number_in(word);
}

static void print_answer(circle_median_value_answer answer)
{
    if (answer.number != CIRCLE_MEDIAN_ACCEPTED) {
        print_refusal(answer.number, answer.place);
    } else if (answer.value == CIRCLE_MEDIAN_FILLING) {
        printf("filling\n");
    } else if (answer.value == CIRCLE_MEDIAN_SILENT) {
        printf("-\n");
    } else {
        printf("%" PRId64 "\n", answer.value);
    }
    fflush(stdout);
}

/* Pushes all readings of standard input; the result is the exit status. */
static int push_all(circle_median_window *window)
{
    char word[WORD];

    while (scanf("%10s", word) == 1) {
        int32_t reading = reading_in(word);
        if (reading < 0 || reading > UINT16_MAX) {
            fprintf(stderr, "live_window: %s is no reading\n", word);
            return 1;
        }
        print_answer(circle_median_window_push(window, (uint16_t)reading));
    }
    if (ferror(stdin)) {
        fprintf(stderr, "live_window: cannot read the readings\n");
        return 1;
    }
    return 0;
}

int main(int count, char **arguments)
{
    circle_median_window window;
    int32_t cycle = count == 3 ? number_in(arguments[1]) : -1;
    int32_t length = count == 3 ? number_in(arguments[2]) : -1;

    if (cycle < 0 || length < 0) {
        fprintf(stderr, "usage: live_window CYCLE LENGTH < READINGS\n");
        return 2;
    }
    circle_median_answer answer = circle_median_window_new(&window, (uint32_t)cycle, (uint32_t)length);
    if (answer.number != CIRCLE_MEDIAN_ACCEPTED) {
        print_refusal(answer.number, answer.place);
        return 0;
    }
    return push_all(&window);
}
