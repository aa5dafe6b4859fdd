/* The degree in s of a determinant, by the polynomial matrix itself: an element drawn for each parameter, and rows reduced. There is no
 * assignment in it. */
#ifndef POLYNOMIAL_H
#define POLYNOMIAL_H

#include "powers.h"

/* Of a model with as many rows in all as columns, whose powers are within their limit. Elements are drawn until the degree is at least
 * the one given, and a few times at most. The largest is returned, or -1 where every determinant was 0. */
int degree_of_determinant(const Model *model, const Powers *powers, int enough);

#endif
