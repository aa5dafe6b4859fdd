/* The definitions of documents 01 and 02 run as they stand, over every assignment, set and coefficient vector. For few columns
 * only. */
#ifndef BRUTE_H
#define BRUTE_H

#include "claim.h"
#include "model.h"
#include "multipliers.h"

enum { BRUTE_COLUMNS = 6, SETS = 1 << BRUTE_COLUMNS };

typedef struct {
    size_t rank;
    unsigned verdict; /* by the assignments that place all columns: whether there are any, and whether they leave a row over */
    Set placed, short_set;
    uint8_t independent[SETS]; /* by column set, of its constants */
    size_t sums[SETS];  /* of every column set */
    int short_is_least; /* whether the smallest set whose sum is the rank is one set */
    Set reasons[BRUTE_COLUMNS]; /* of each column that is not placed, the set that blocks it; of others none */
    int reasons_are_single;     /* whether one set alone blocks each of them */
} Enumerated;

Enumerated enumerate_layered(const Model *model);

/* Whether a claim about the model is to be accepted: one of the legal assignments is the claimed one, it has as many columns as the
 * rank says, and the set's sum is the rank. */
int enumerate_claim(const Model *model, const Enumerated *enumerated, const Claim *claim);

typedef struct {
    size_t rank;      /* the largest, over rows I and columns J, of constants on I, J and parameters matched on the rest */
    unsigned verdict; /* by the I and J that reach n: whether there are any, and whether they leave a row over */
} EnumeratedMixed;

EnumeratedMixed enumerate_mixed(const Model *model);

/* The answer about columns below n, by the coefficient vectors that are 0 outside the held ones. */
Multipliers enumerate_multipliers(const Model *model, Set held, size_t column);

#endif
