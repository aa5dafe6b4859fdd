/* The word that names a column to a program. */
#ifndef WORD_H
#define WORD_H

#include "model.h"

enum { WORD_MAX = 64 };

/* The column that a word names. Where there is no word, or it is no number, or longer than the 20 bytes that a program reads, that is the
 * first column that no model has; so also for a number past all columns. */
size_t named_column(const char *word);

/* A column's number as a word, now and then with zeros before it. */
void write_word(size_t column, char *word);

/* The number that lies a power of 2 above the column, as a word: a program that loses high bits takes it for the column. */
void write_wrapped_word(size_t column, unsigned power, char *word);

/* Bytes at random, most of them digits. */
void draw_word(char *word);

#endif
