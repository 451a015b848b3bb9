/* Baseline (b): a course as bit matrices, all that is needed and the direct steps, each both ways round. */
#ifndef MATRIX_H
#define MATRIX_H

#include "plain.h"

enum { ROW = MAX_UNITS / 64 };

typedef uint64_t matrix_row[ROW];

/* bit v - 1 of row u - 1: u needs v, or v is a direct step of u; in the turned ones v needs u, or has u as a direct step */
typedef struct {
    matrix_row needed[MAX_UNITS], needing[MAX_UNITS], steps[MAX_UNITS], steps_up[MAX_UNITS];
    uint16_t stages[MAX_UNITS];
    unsigned n;
} matrix;

/* refusals 1 to 5 and 7: it takes no lent areas, so 6 does not arise */
plain_refusal matrix_build(const plain_listing *l, matrix *m);

static inline bool matrix_bit(const matrix_row *rows, unsigned u, unsigned v)
{
    return rows[u - 1][(v - 1) / 64] >> (v - 1) % 64 & 1;
}

/* the units of a row, ascending; refusal 10 where they find no room */
plain_answer matrix_list(const matrix *m, const matrix_row row, plain_room room);

#endif
