/* Listings with one fault each: of other groups of columns, by another order, or by another choice of the next. */
#include "blocks.h"

/* Groups of columns that are to be blocks, and the columns that are to be listed before each. */
typedef struct {
    size_t count;
    Set columns[WUNDRESKA_COLUMNS_MAX], before[WUNDRESKA_COLUMNS_MAX];
} Groups;

/* ---- the choice of the next ---- */

/* The set of its smallest column. */
static Set smallest(Set set)
{
    return set & -set;
}

/* As numbers, sets that share no column go by their largest columns. */
static int is_preferred(Set group, Set other, WrongListing wrong)
{
    if (wrong == LARGEST_FIRST)
        return smallest(group) > smallest(other);
    if (wrong == BY_LARGEST_COLUMN)
        return group < other;
    return smallest(group) < smallest(other);
}

/* In layers, what is listed in the present one permits nothing. */
static Blocks list_groups(const Groups *g, WrongListing wrong)
{
    Blocks blocks = no_blocks();
    Set listed = 0, seen = 0;
    while (blocks.count < g->count) {
        Set next = 0;
        for (size_t k = 0; k < g->count; k++) {
            int permitted = !(g->columns[k] & listed) && !(g->before[k] & ~seen);
            if (permitted && (!next || is_preferred(g->columns[k], next, wrong)))
                next = g->columns[k];
        }
        for (size_t c = 0; c < WUNDRESKA_COLUMNS_MAX; c++)
            if (has(next, c))
                blocks.numbers[c] = blocks.count;
        blocks.count += next != 0;
        listed |= next;
        if (wrong != IN_LAYERS || !next)
            seen = listed;
    }
    return blocks;
}

/* ---- the groups ---- */

static Set leading_to(const Graph *graph, Set columns)
{
    Set leading = 0;
    for (size_t x = 0; x < graph->n; x++)
        if (graph->arcs[x] & columns)
            leading |= just(x);
    return leading & ~columns;
}

static void add_group(Groups *g, Set columns, Set before)
{
    if (columns == 0)
        return;
    g->columns[g->count] = columns;
    g->before[g->count++] = before & ~columns;
}

/* A part alone, or with all parts that arcs between them join, whichever way they lead. */
static Set joined(const Graph *graph, Set part, Set within)
{
    Set before;
    do {
        before = part;
        for (size_t k = 0; k < graph->count; k++) {
            Set other = graph->parts[k];
            if ((other & within) && ((leading_to(graph, part) & other) || (leading_to(graph, other) & part)))
                part |= other;
        }
    } while (part != before);
    return part;
}

/* The strongly connected parts of some columns, each with what arcs lead to it, and what else comes before it. */
static void add_parts(Groups *g, const Graph *graph, Set within, Set before, WrongListing wrong)
{
    Set added = 0;
    for (size_t k = 0; k < graph->count; k++) {
        Set part = graph->parts[k] & within;
        if (part & ~added) {
            part = wrong == JOINED_ONE_WAY ? joined(graph, part, within) : part;
            add_group(g, part, leading_to(graph, part) | before);
            added |= part;
        }
    }
}

static Groups groups_of(const Graph *graph, WrongListing wrong)
{
    Groups g = {0};
    Set all = all_below(graph->n), before_last = wrong == LAST_EARLIER ? leading_to(graph, graph->last) : all & ~graph->last;
    if (wrong == FIRST_PARTED)
        add_parts(&g, graph, graph->first, 0, wrong);
    else
        add_group(&g, graph->first, 0);
    add_parts(&g, graph, all & ~graph->first & ~graph->last, wrong == FIRST_LATER ? 0 : graph->first, wrong);
    if (wrong == LAST_PARTED)
        add_parts(&g, graph, graph->last, all & ~graph->last, wrong);
    else
        add_group(&g, graph->last, before_last);
    return g;
}

static void turn(Groups *g)
{
    Groups turned = *g;
    for (size_t k = 0; k < g->count; k++) {
        turned.before[k] = 0;
        for (size_t other = 0; other < g->count; other++)
            if (g->before[other] & g->columns[k])
                turned.before[k] |= g->columns[other];
    }
    *g = turned;
}

Blocks list_wrongly(const Graph *graph, WrongListing wrong)
{
    Groups g = groups_of(graph, wrong);
    if (wrong == TURNED)
        turn(&g);
    for (size_t k = 0; k < g.count && wrong == BY_COLUMN_ALONE; k++)
        g.before[k] = 0;
    return list_groups(&g, wrong);
}
