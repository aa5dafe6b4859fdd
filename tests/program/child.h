/* A program that is run on an input: what it wrote. */
#ifndef CHILD_H
#define CHILD_H

#include <stddef.h>
#include <stdint.h>

enum { OUTPUT_MAX = 4096 };

typedef struct {
    enum { ENDED, HUNG, BROKE } end;
    size_t length;
    char text[OUTPUT_MAX + 1]; /* with a NUL behind; more than so much is cut */
} Output;

/* Runs the program with a word as its argument, or none where that is NULL, and with the input on its standard input, written in
 * pieces of so many bytes, each when the program has read the last one. It hangs where it takes longer than a minute, and breaks
 * where a signal ends it or it cannot be started. */
Output run_program(const char *program, const char *word, const uint8_t *input, size_t length, size_t piece);

#endif
