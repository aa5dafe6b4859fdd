/* The question why a column is not placed, as both calls take it, and the columns of sound models to ask about. */
#ifndef WHY_H
#define WHY_H

#include "asked.h"
#include "reason.h"

/* Names the column that the question is about, from now on. */
void name_column(size_t column);

extern const Question why_question;

/* Counts two cases for each column of a sound model that is asked about, the model handed over and its file: of the columns that are
 * not placed those chosen and about one in so many others, or all. */
void try_columns(const Model *model, const Reasons *reasons, Set chosen, uint64_t rare);
void try_all_columns(const Model *model, const Reasons *reasons);

/* How many columns these were. */
unsigned long columns_compared(void);

#endif
