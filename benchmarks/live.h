/* The live window, measured. */
#ifndef LIVE_H
#define LIVE_H

/* Pushes rows into the library's live window and into one that sums directly, and ends the program
 * if an answer differs. Then times both in turns, and prints a table, as Markdown. */
void print_live(void);

#endif
