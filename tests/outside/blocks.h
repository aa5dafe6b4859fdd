/* The question about blocks, as both calls take it, sound models to ask about, and listings with a fault. */
#ifndef BLOCKS_H
#define BLOCKS_H

#include "asked.h"
#include "parts.h"

/* ---- blocks.c ---- */

extern const Question blocks_question;

/* Counts three cases: a sound model handed over, and its file, which are to have these blocks; and what the rank call says of
 * them. */
void try_blocks(const Model *model, const Blocks *due);

/* ---- cascades.c ---- */

/* A model of so many columns that has many blocks, numbered or not: its columns are solved some at a time, by as many rows, which touch
 * some of those solved before. A few rows are missing at the end, or too many at the beginning. */
Model draw_cascade(size_t columns);

/* ---- wrong_blocks.c: listings that a faulty program would give ---- */

typedef enum {
    JOINED_ONE_WAY,    /* columns share a block where an arc leads one way */
    TURNED,            /* a block comes before those that must come before it */
    LARGEST_FIRST,     /* next is the permitted block whose smallest column is largest, */
    BY_LARGEST_COLUMN, /* or the one whose largest column is smallest, */
    IN_LAYERS,         /* or all that are permitted, before the next are looked for; */
    BY_COLUMN_ALONE,   /* or the one with the smallest column, permitted or not */
    FIRST_PARTED,      /* the columns that no set whose sum is the rank has are not one block, */
    FIRST_LATER,       /* or not the first one, where no arc leads from them */
    LAST_PARTED,       /* the short set is not one block, */
    LAST_EARLIER,      /* or not the last one, where no arc leads to it */
    WRONG_LISTINGS
} WrongListing;

Blocks list_wrongly(const Graph *graph, WrongListing wrong);

#endif
