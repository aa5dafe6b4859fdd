/* The answers of document 01 by methods of their own: no exchange graph, no assignment, no arithmetic shared with the
 * library. */
#ifndef REFERENCE_H
#define REFERENCE_H

#include "model.h"

typedef struct {
    size_t rank;
    Set placed, short_set;
} Truth;

Truth layered_truth(const Model *model);
size_t mixed_rank(const Model *model);

/* The rank modulo p of the constants on these rows and columns. */
size_t constant_rank(const Model *model, Set rows, Set columns);

/* The largest number of parameters, no two in a row or column, on these rows and columns. */
size_t largest_matching(const Model *model, Set rows, Set columns);

/* How many parameter rows have a parameter in a column set, and the sum of the set. */
size_t rows_touching(const Model *model, Set set);
size_t sum_of(const Model *model, Set set);

/* The verdict on a rank, with so many columns and rows. */
unsigned verdict_on(size_t rank, size_t columns, size_t rows);

/* ---- answers.c: what is wrong with an answer that somebody gave; NULL where nothing is ---- */

/* A layered answer, wherever it was read from. */
typedef struct {
    unsigned verdict, rank;
    Set placed, constants, short_set;
    uint8_t rows[WUNDRESKA_ROWS_SIZE]; /* the column of each parameter row, or WUNDRESKA_NO_COLUMN */
} Answer;

const char *answer_complaint(const Model *model, const Answer *answer, Truth truth);

typedef struct {
    unsigned verdict, rank;
    Set rows, columns, short_set;
} MixedAnswer;

/* The truth is that of the layered form. */
const char *mixed_answer_complaint(const Model *model, const MixedAnswer *answer, size_t rank, Truth form);

/* By the reference's own rank and form. */
const char *mixed_model_complaint(const Model *model, const MixedAnswer *answer);

#endif
