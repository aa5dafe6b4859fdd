/* Powers of s beside a model, as a call takes them, and what each seat of a column weighs by them. */
#ifndef POWERS_H
#define POWERS_H

#include "model.h"

/* Room for as many bytes behind an area's powers. */
enum {
    POWERS_BEHIND = 8,
    ROW_POWERS = WUNDRESKA_ROWS_MAX + POWERS_BEHIND,
    COLUMN_POWERS = WUNDRESKA_COLUMNS_MAX + POWERS_BEHIND,
    PARAMETER_POWERS = WUNDRESKA_ROWS_MAX * WUNDRESKA_COLUMNS_MAX + POWERS_BEHIND
};

/* Bytes, a constant rows', n columns' and b * n parameters', row by row; at a place without a parameter, and behind, any. */
typedef struct {
    uint8_t rows[ROW_POWERS], columns[COLUMN_POWERS], parameters[PARAMETER_POWERS];
} Powers;

/* What an assignment of all columns weighs: something in any case, and each column by its seat. */
typedef struct {
    int anyway;
    int columns[WUNDRESKA_COLUMNS_MAX];                          /* on the constant side, */
    int parameters[WUNDRESKA_ROWS_MAX * WUNDRESKA_COLUMNS_MAX]; /* and on a row, n to a row; void where no parameter stands */
} Weights;

/* The constant rows' powers anyway, and for each seat the power of the column or of the parameter. */
void weigh(const Model *model, const Powers *powers, Weights *weights);

#endif
