/* Models as matrices over a field that is larger than that of the residues: an element drawn for each parameter, as if it were a
 * letter of its own; and their reduced form. */
#ifndef MATRIX_H
#define MATRIX_H

#include "field.h"
#include "model.h"

/* How often elements are drawn, the largest rank being taken; the most rows. */
enum { TRIES = 4, MATRIX_ROWS = 2 * WUNDRESKA_ROWS_MAX };

typedef struct {
    const Field *field;
    size_t rows, columns, behind; /* so many more columns stand behind, in which no pivot is taken */
    uint32_t cells[MATRIX_ROWS][2 * WUNDRESKA_COLUMNS_MAX];
} Matrix;

/* Constant rows above parameter rows. */
void substitute_layered(Matrix *matrix, const Model *model);

/* The same, and behind it every column once more, with letters of its own. */
void substitute_doubled(Matrix *matrix, const Model *model);

/* Each row the sum of a constant row and a parameter row. */
void substitute_mixed(Matrix *matrix, const Model *model);

/* The constants on these rows and columns. */
void take_constants(Matrix *matrix, const Model *model, Set rows, Set columns);

/* Brings the matrix to reduced echelon form, the pivot rows first; its pivot columns. */
Set reduce(Matrix *matrix);

/* Of a reduced matrix the columns that can be left out without loss of rank: those without a pivot, and those whose row has another
 * entry. */
Set spare_columns(const Matrix *matrix, Set pivots);

#endif
