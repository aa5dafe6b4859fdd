/* Blocks by the strongly connected parts of a graph, as document 001 has them: a largest assignment, found by its algorithm for the
 * combinatorial canonical form, and Tarjan's search. */
#ifndef PARTS_H
#define PARTS_H

#include "assignment.h"
#include "block.h"

typedef struct {
    size_t n;
    Set arcs[WUNDRESKA_COLUMNS_MAX]; /* from x to y: the row that y has touches x */
    Set into[WUNDRESKA_COLUMNS_MAX]; /* the same arcs, from where they come */
    Set first;                       /* the columns that reach one which a free row touches */
    Set last;                        /* those that are reached from a column without a row */
    size_t count;                    /* of the strongly connected parts of all columns */
    Set parts[WUNDRESKA_COLUMNS_MAX];
} Graph;

Graph graph_by(const Assignment *assignment);
Graph graph_of(const Model *model);

/* The first columns and the last ones are a block each, and else every part. */
Blocks blocks_of_graph(const Graph *graph);

#endif
