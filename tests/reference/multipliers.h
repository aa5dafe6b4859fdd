/* How a column of the constants depends on held ones, from document 02's text: by an elimination that shares nothing with the
 * library's, and what is wrong with an answer that somebody gave. */
#ifndef MULTIPLIERS_H
#define MULTIPLIERS_H

#include "model.h"

typedef struct {
    unsigned outcome;
    uint16_t multipliers[WUNDRESKA_COLUMNS_MAX]; /* by column */
} Multipliers;

int same_multipliers(const Multipliers *one, const Multipliers *other);

/* The answer about columns below n. */
Multipliers find_multipliers(const Model *model, Set held, size_t column);

/* By the ranks of the columns and by the sum in every row; NULL where nothing is wrong. */
const char *multipliers_complaint(const Model *model, Set held, size_t column, const Multipliers *given);

#endif
