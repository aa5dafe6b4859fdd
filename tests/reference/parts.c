/* The graph of an assignment, its strongly connected parts, and the listing of these. */
#include "parts.h"

/* ---- the graph ---- */

/* All columns that are reached from some, by arcs. */
static Set closure(const Set *arcs, Set columns)
{
    Set fresh = columns;
    while (fresh) {
        Set reached = 0;
        for (; fresh; fresh &= fresh - 1)
            reached |= arcs[smallest_of(fresh)];
        fresh = reached & ~columns;
        columns |= reached;
    }
    return columns;
}

static void draw_arcs(Graph *g, const Assignment *s)
{
    Set without_row = 0;
    for (size_t y = 0; y < g->n; y++) {
        if (s->row_of[y] == NONE)
            without_row |= just(y);
        else
            g->into[y] = s->touched[s->row_of[y]];
        for (Set from = g->into[y]; from; from &= from - 1)
            g->arcs[smallest_of(from)] |= just(y);
    }
    g->first = s->reached;
    g->last = closure(g->arcs, without_row);
}

/* ---- strongly connected parts ---- */

/* Tarjan's search: each column's place in the order of visits, the earliest place that it leads back to, and the columns that no part
 * has yet. */
typedef struct {
    Graph *graph;
    size_t visits, place[WUNDRESKA_COLUMNS_MAX], back[WUNDRESKA_COLUMNS_MAX], height;
    uint8_t stack[WUNDRESKA_COLUMNS_MAX];
    Set visited, waiting;
} Tarjan;

/* The columns from x up on the stack. */
static void take_part(Tarjan *t, size_t x)
{
    Set part = 0;
    do
        part |= just(t->stack[--t->height]);
    while (t->stack[t->height] != x);
    t->waiting &= ~part;
    t->graph->parts[t->graph->count++] = part;
}

static void visit(Tarjan *t, size_t x)
{
    t->place[x] = t->back[x] = t->visits++;
    t->visited |= just(x);
    t->waiting |= just(x);
    t->stack[t->height++] = x;
    for (Set to = t->graph->arcs[x]; to; to &= to - 1) {
        size_t y = smallest_of(to);
        if (!has(t->visited, y)) {
            visit(t, y);
            t->back[x] = t->back[y] < t->back[x] ? t->back[y] : t->back[x];
        } else if (has(t->waiting, y))
            t->back[x] = t->place[y] < t->back[x] ? t->place[y] : t->back[x];
    }
    if (t->back[x] == t->place[x])
        take_part(t, x);
}

Graph graph_by(const Assignment *assignment)
{
    Graph graph = {.n = assignment->n};
    Tarjan t = {.graph = &graph};
    draw_arcs(&graph, assignment);
    for (size_t x = 0; x < graph.n; x++)
        if (!has(t.visited, x))
            visit(&t, x);
    return graph;
}

Graph graph_of(const Model *m)
{
    static Assignment assignment;
    find_assignment(m, &assignment);
    return graph_by(&assignment);
}

/* ---- the listing ---- */

static void list(Blocks *blocks, Set columns)
{
    for (Set rest = columns; rest; rest &= rest - 1)
        blocks->numbers[smallest_of(rest)] = blocks->count;
    blocks->count += columns != 0;
}

/* The columns outside the part that have an arc to it. */
static Set leading_to(const Graph *g, Set part)
{
    Set columns = 0;
    for (Set rest = part; rest; rest &= rest - 1)
        columns |= g->into[smallest_of(rest)];
    return columns & ~part;
}

/* Of the parts still there to which no other column there has an arc, the one with the smallest column. */
static Set next_part(const Graph *g, const Set *leading, Set there)
{
    Set next = 0;
    for (size_t k = 0; k < g->count; k++) {
        Set part = g->parts[k];
        int permitted = (part & there) && !(leading[k] & there), smaller = (part & -part) < (next & -next);
        if (permitted && (!next || smaller))
            next = part;
    }
    return next;
}

Blocks blocks_of_graph(const Graph *g)
{
    Blocks blocks = no_blocks();
    Set leading[WUNDRESKA_COLUMNS_MAX], there = all_below(g->n) & ~g->first & ~g->last;
    for (size_t k = 0; k < g->count; k++)
        leading[k] = leading_to(g, g->parts[k]);
    list(&blocks, g->first);
    while (there) {
        Set part = next_part(g, leading, there);
        list(&blocks, part);
        there &= ~part;
    }
    list(&blocks, g->last);
    return blocks;
}
