/* The clock: processor time, so that other programs weigh little. */
#define _POSIX_C_SOURCE 199309L
#include "clock.h"

#include <time.h>

double seconds(void)
{
    struct timespec t;
    clock_gettime(CLOCK_PROCESS_CPUTIME_ID, &t);
    return (double)t.tv_sec + 1e-9 * (double)t.tv_nsec;
}
