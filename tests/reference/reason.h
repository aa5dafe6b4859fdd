/* What blocks a column that is not placed, from document 02's text: by an elimination that gives the reasons of all such columns at
 * once, and what is wrong with an answer that somebody gave. */
#ifndef REASON_H
#define REASON_H

#include "model.h"

typedef struct {
    Set placed;
    Set sets[WUNDRESKA_COLUMNS_MAX]; /* of each column that is not placed, the set that blocks it; of others none */
} Reasons;

Reasons find_reasons(const Model *model);

typedef struct {
    Set set;
    unsigned given; /* 1 where multipliers are given, else 0 */
    uint16_t multipliers[WUNDRESKA_COLUMNS_MAX]; /* by column */
} Reason;

int same_reason(const Reason *one, const Reason *other);

/* The answer about a column, whose set is known. */
Reason reason_with(const Model *model, Set set, size_t column);

/* About a column below n that is not placed: by the properties of the set, and by the definition of the multipliers; NULL where
 * nothing is wrong. */
const char *reason_complaint(const Model *model, Set placed, size_t column, const Reason *given);

#endif
