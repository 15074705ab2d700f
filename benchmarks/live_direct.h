/* A live window in plain C that sums directly: what the library's is measured beside. */
#ifndef LIVE_DIRECT_H
#define LIVE_DIRECT_H

#include <stdint.h>

enum { LIVE_MOST = 63 };

/* What is answered in place of a phase; LIVE_SILENT is a silent reading too. */
enum { LIVE_SILENT = 65535, LIVE_FILLING = -1, LIVE_REFUSED = -2 };

/* The last readings, oldest first, as many as length says once it is filled. */
struct live_direct {
    int32_t cycle, length, filled;
    uint16_t readings[LIVE_MOST];
};

/* Makes a window fresh, of a cycle from 1 to 512 and an odd length from 1 to LIVE_MOST. */
void live_direct_new(struct live_direct *w, int32_t cycle, int32_t length);

/* Pushes a reading and answers by the phase, or by one of the numbers above. */
int32_t live_direct_push(struct live_direct *w, uint16_t reading);

#endif
