/* Files written down with their numbers, for others that judge files: a number and a length, four bytes each, then the bytes. */
#ifndef NUMBERS_H
#define NUMBERS_H

#include <stddef.h>
#include <stdint.h>

/* Where to; nothing is written down before. Whether it can be written. */
int write_numbers_to(const char *path);

/* A file, of which no more is written down than shows that it is longer than any that is accepted. */
void write_number(const uint8_t *file, size_t length, uint32_t refusal);

#endif
