/* The cases of each category, and their sum. */
#ifndef TALLY_H
#define TALLY_H

#include "model.h"

void begin_category(const char *name);

/* Counts a case, which fails where there is a complaint. */
void count_case(const char *complaint, const Model *model);

/* Ends the category, and prints how many of something its cases and those before were about. */
void print_count(unsigned long count, const char *what);

/* Prints the last line, 'N passed, M failed'; how many cases failed. */
unsigned long end_tally(void);

#endif
