/* Degrees as a call shows them, from document 02's text: which question is refused, and what is wrong with an answer. */
#ifndef DEGREE_H
#define DEGREE_H

#include "powers.h"

typedef struct {
    unsigned degree;
    Set constants;                     /* the assignment's columns on the constant side */
    uint8_t rows[WUNDRESKA_ROWS_SIZE]; /* the column of each parameter row, or WUNDRESKA_NO_COLUMN */
} Degree;

Degree degree_in(const uint8_t *bytes);

/* The refusal of the question about a model that is not refused, or 0; and what it goes by, the powers that are read and the verdict. */
uint32_t judge_degree(const Model *model, const Powers *powers);
int powers_fit(const Model *model, const Powers *powers);
int is_determined(const Model *model);

/* What the assignment shown makes, counted by itself: the constant rows' powers, those of its columns on the constant side, and those
 * of its parameters. */
unsigned total_of(const Model *model, const Powers *powers, const Degree *shown);

/* About an answer to an accepted question, where this degree is due; NULL where nothing is wrong. */
const char *degree_complaint(const Model *model, const Powers *powers, const Degree *shown, unsigned due);

#endif
