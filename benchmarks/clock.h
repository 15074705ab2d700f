/* The clock. */
#ifndef CLOCK_H
#define CLOCK_H

/* The processor time of the program so far, in seconds. */
double seconds(void);

#endif
