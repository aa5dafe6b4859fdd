/* Columns planted in a model: independent ones, sums of them, and such that block one another. */
#ifndef PLANTED_H
#define PLANTED_H

#include "model.h"

/* The columns, so many, become a triangle on as many rows, with no 0 on its diagonal: they are independent. */
void plant_triangle(Model *model, const size_t *columns, size_t count);

/* A column becomes the sum of all columns, each times its multiplier. */
void plant_sum(Model *model, size_t column, const uint16_t *multipliers);

/* The columns, one more than constants and parameters together, have no legal assignment; without any one of them they have. So many
 * constants are their rank, and so many parameter rows touch them: at most those that the model has. */
void plant_blocking(Model *model, const size_t *columns, size_t constants, size_t parameters);

/* Multiples of rows are added to other rows, after which columns that made others still make them. */
void stir(Model *model);

#endif
