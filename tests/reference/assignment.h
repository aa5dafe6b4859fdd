/* A largest legal assignment, by document 001's algorithm for the combinatorial canonical form: one search from all free rows for
 * the nearest column without a row, after which every column on the way takes the row before it. */
#ifndef ASSIGNMENT_H
#define ASSIGNMENT_H

#include "model.h"

/* Constant rows, then parameter rows. */
enum { ALL_ROWS = 2 * WUNDRESKA_ROWS_MAX, NONE = UINT16_MAX };

typedef struct {
    size_t n, rows;
    Set touched[ALL_ROWS];                  /* the columns that each row touches; constant rows after elimination */
    uint16_t column_of[ALL_ROWS];           /* of each row, or NONE */
    uint16_t row_of[WUNDRESKA_COLUMNS_MAX]; /* of each column, or NONE */
    Set reached;                            /* the columns that the last search reached, which found none without a row */
} Assignment;

void find_assignment(const Model *model, Assignment *assignment);

#endif
