/* The heaviest legal assignment of all columns, by document 004's algorithm for the degree of a determinant (section 3): a heaviest
 * set on the constant side, and then one parameter row after another that is served by a cheapest way, of these a shortest. */
#ifndef WAYS_H
#define WAYS_H

#include "powers.h"

typedef struct {
    int found;                         /* whether there is a legal assignment of all columns */
    int total;                         /* what the heaviest weighs, and one that does so: */
    Set constants;                     /* the columns on the constant side, */
    uint8_t rows[WUNDRESKA_ROWS_SIZE]; /* and the column of each parameter row, or WUNDRESKA_NO_COLUMN */
} Heaviest;

/* Of a model with as many rows in all as columns; of any other, none is found. Weights may be below 0. */
Heaviest find_heaviest(const Model *model, const Weights *weights);

#endif
