/* How many rounds the descent to a degree takes: the library's, once more in plain C, with an assignment of the tests' reference. */
#ifndef ROUNDS_H
#define ROUNDS_H

#include "powers.h"

typedef struct {
    size_t rounds;
    int degree;
} Descent;

/* Of a determined model whose powers are within their limit. */
Descent descend(const Model *model, const Powers *powers);

#endif
