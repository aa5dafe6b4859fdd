/* The constants of a model, of which one column after another is made a unit column, by an elimination of its own. */
#ifndef TABLE_H
#define TABLE_H

#include "model.h"

typedef struct {
    uint32_t p, share; /* how often p goes into 2^32 - 1 */
    size_t rows, columns;
    uint32_t cells[WUNDRESKA_ROWS_MAX][WUNDRESKA_COLUMNS_MAX];
} Table;

void make_table(Table *table, const Model *model);

/* The columns in which a row is not 0. */
Set columns_touched(const Table *table, size_t row);

/* Makes a column that the row touches 1 there and 0 in all other rows, which then may touch other columns. */
void make_unit(Table *table, size_t row, size_t column, Set *touched);

#endif
