/* The rank that textbooks mean, by determinants whose terms are collected by their letters. For models that are enumerated: up to
 * 8 rows in all, and BRUTE_COLUMNS columns, of the layered form where they are mixed. */
#ifndef DETERMINANTS_H
#define DETERMINANTS_H

#include "model.h"

/* The largest order of a square part whose determinant is not zero, of the model read by its kind. */
size_t largest_order(Kind kind, const Model *model);

#endif
