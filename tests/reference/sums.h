/* The sums of all column sets, for more columns and larger primes than brute.h takes. */
#ifndef SUMS_H
#define SUMS_H

#include "model.h"

enum { SUMS_COLUMNS = 10, SUMS = 1 << SUMS_COLUMNS };

/* By column set, of a model of up to SUMS_COLUMNS columns. */
void find_sums(const Model *model, size_t *sums);

#endif
