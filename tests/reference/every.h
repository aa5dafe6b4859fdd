/* The totals of all legal assignments that place every column, one after another, from document 02's text. For few columns only. */
#ifndef EVERY_H
#define EVERY_H

#include "powers.h"

enum { EVERY_COLUMNS = 7 };

typedef struct {
    unsigned long count; /* of these assignments, */
    int largest, smallest; /* and their totals */
} Totals;

Totals totals_of_all(const Model *model, const Weights *weights);

#endif
