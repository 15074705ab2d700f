/* The images that are filtered. */
#ifndef IMAGE_H
#define IMAGE_H

#include "candidate.h"

enum kind { RANDOM, DRIFTING };

/* Fills the image: uniform random readings, or phases that drift slowly with 4 in 100 readings
 * thrown anywhere. */
void draw(enum kind kind, const struct task *task, uint16_t *image);

/* Makes some readings silent, so many in a hundred: the same ones at every run. */
void silence(uint16_t *image, size_t spots, uint32_t percent);

/* The numbers of the padded image. */
size_t padded_size(const struct task *task);

/* Fills the padded image, in rows and in columns as SPECIFICATION, "Mirror" has it. */
void pad(const struct task *task, uint16_t *padded);

#endif
