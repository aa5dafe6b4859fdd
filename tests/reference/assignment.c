/* The search, the exchange along what it found, and the elimination that keeps the column of every constant row a unit column.
 *
 * A shortest way has no shorter one beside it: a column on it does not touch the rows before its own. So the eliminations for these
 * leave the column as it is, and its entry in its own row is still there when its turn comes. */
#include "assignment.h"

#include "table.h"

/* ---- the search ---- */

/* The columns in the order that they were reached in, and the row that each would take. */
typedef struct {
    size_t count;
    uint16_t columns[WUNDRESKA_COLUMNS_MAX], rows[WUNDRESKA_COLUMNS_MAX];
} Search;

/* Reaches all columns that the row touches; one without a row, or NONE. */
static size_t reach_from(Assignment *s, Search *search, size_t row)
{
    size_t found = NONE;
    for (Set fresh = s->touched[row] & ~s->reached; fresh && found == NONE; fresh &= fresh - 1) {
        size_t c = smallest_of(fresh);
        s->reached |= just(c);
        search->columns[search->count++] = c;
        search->rows[c] = row;
        found = s->row_of[c] == NONE ? c : NONE;
    }
    return found;
}

/* From all free rows, and from the row of each column reached; the first column without a row, or NONE. */
static size_t find_column(Assignment *s, Search *search)
{
    size_t found = NONE;
    search->count = 0;
    s->reached = 0;
    for (size_t r = s->rows; r-- > 0 && found == NONE;)
        if (s->column_of[r] == NONE)
            found = reach_from(s, search, r);
    for (size_t i = 0; i < search->count && found == NONE; i++)
        found = reach_from(s, search, s->row_of[search->columns[i]]);
    return found;
}

/* ---- the exchange ---- */

/* From the free row on, each column takes the row before it. */
static void exchange(Assignment *s, Table *t, const Search *search, size_t column)
{
    size_t way[WUNDRESKA_COLUMNS_MAX], count = 0;
    for (size_t x = column; x != NONE; x = s->column_of[search->rows[x]])
        way[count++] = x;
    while (count-- > 0) {
        size_t x = way[count], row = search->rows[x];
        s->column_of[row] = x;
        s->row_of[x] = row;
        if (row < t->rows)
            make_unit(t, row, x, s->touched);
    }
}

static void begin(const Model *m, Assignment *s, Table *t)
{
    make_table(t, m);
    s->n = m->n;
    s->rows = m->a + m->b;
    for (size_t r = 0; r < s->rows; r++) {
        s->touched[r] = r < m->a ? columns_touched(t, r) : m->parameters[r - m->a];
        s->column_of[r] = NONE;
    }
    for (size_t c = 0; c < s->n; c++)
        s->row_of[c] = NONE;
}

void find_assignment(const Model *m, Assignment *s)
{
    static Table table;
    Search search;
    size_t column;
    begin(m, s, &table);
    while ((column = find_column(s, &search)) != NONE)
        exchange(s, &table, &search, column);
}
