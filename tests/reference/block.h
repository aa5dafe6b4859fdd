/* Blocks in solving order, from document 02's text: what the sets whose sum is the rank say of each two columns, the listing that
 * follows from it, and what is wrong with a listing that somebody gave. */
#ifndef BLOCK_H
#define BLOCK_H

#include "model.h"

typedef struct {
    size_t count;
    uint8_t numbers[WUNDRESKA_COLUMNS_MAX]; /* of each column's block, or WUNDRESKA_NO_BLOCK from n on */
} Blocks;

Blocks blocks_in(const uint8_t *bytes);
int same_blocks(const Blocks *one, const Blocks *other);

/* A listing without any block, and the columns of a block. */
Blocks no_blocks(void);
Set columns_of_block(const Blocks *blocks, size_t number);

/* What the sets whose sum is the rank say: of each column x the columns that all of them with x have, and where none has x, all
 * columns. Two columns share a block if each is brought by the other; a block must come before those that it brings. */
typedef struct {
    size_t n;
    Set by[WUNDRESKA_COLUMNS_MAX];
} Brought;

int same_brought(const Brought *one, const Brought *other);

/* By the sums of all column sets, a set being its own index, and the smallest of them. */
Brought brought_by_sums(size_t n, const size_t *sums);

/* Always the permitted block with the smallest column. */
Blocks list_blocks(const Brought *brought);

/* By the rules alone; NULL where nothing is wrong. */
const char *blocks_complaint(const Brought *brought, const Blocks *blocks);

/* How many orders of the blocks keep the rules, of all orders; for few blocks only. */
size_t orders_that_keep_rules(const Brought *brought, const Blocks *blocks);

#endif
