/* Document 004's algorithm, where constants satisfy its formula (15): a set on the constant side weighs what its columns weigh.
 *
 * Every row with a column can give it up for another that it touches; a constant row touches the columns which can take the place
 * of its own on the constant side. A way leads from a free row to a column without a row, and each column on it takes the row before
 * it. It costs what the columns on it weigh where they are, less what they weigh where they go. By Theorem 3.6 the assignment stays the
 * heaviest of its size if the way is one of the cheapest, and of these one with the fewest arcs: one from a row to a column, one from a
 * column to its parameter row, and one from a column on the constant side to another that can take its place. */
#include "ways.h"

#include "table.h"

#include <limits.h>
#include <string.h>

/* Constant rows, then parameter rows. A unit of weight costs more than all arcs of a way. */
enum { ALL_ROWS = 2 * WUNDRESKA_ROWS_MAX, NONE = UINT16_MAX, UNIT = 1024 };

typedef struct {
    const Model *model;
    const Weights *weights;
    Table table; /* the columns on the constant side are unit columns there */
    Set touched[ALL_ROWS];
    uint16_t column_of[ALL_ROWS], row_of[WUNDRESKA_COLUMNS_MAX]; /* or NONE */
} Seats;

static int weight_at(const Seats *s, size_t row, size_t column)
{
    const Model *m = s->model;
    return row < m->a ? s->weights->columns[column] : s->weights->parameters[(row - m->a) * m->n + column];
}

static void seat(Seats *s, size_t row, size_t column)
{
    s->column_of[row] = column;
    s->row_of[column] = row;
    if (row < s->model->a)
        make_unit(&s->table, row, column, s->touched);
}

/* ---- the heaviest set on the constant side ---- */

/* The column goes to one of these constant rows that touches it; which one, or NONE. */
static size_t seat_in(Seats *s, Set rows, size_t column)
{
    for (; rows; rows &= rows - 1) {
        size_t row = smallest_of(rows);
        if (has(s->touched[row], column)) {
            seat(s, row, column);
            return row;
        }
    }
    return NONE;
}

static size_t heaviest_of(const Seats *s, Set columns)
{
    size_t heaviest = smallest_of(columns);
    for (; columns; columns &= columns - 1) {
        size_t c = smallest_of(columns);
        heaviest = s->weights->columns[c] > s->weights->columns[heaviest] ? c : heaviest;
    }
    return heaviest;
}

/* Each column is taken, the heaviest first, that does not depend on those taken; whether every constant row has one. */
static int fill_side(Seats *s)
{
    Set left = all_below(s->model->n), free = all_below(s->model->a);
    while (left && free) {
        size_t column = heaviest_of(s, left), row = seat_in(s, free, column);
        left &= ~just(column);
        free &= row == NONE ? free : ~just(row);
    }
    return !free;
}

static void begin(Seats *s, const Model *m, const Weights *weights)
{
    s->model = m;
    s->weights = weights;
    make_table(&s->table, m);
    for (size_t r = 0; r < m->a + m->b; r++) {
        s->touched[r] = r < m->a ? columns_touched(&s->table, r) : m->parameters[r - m->a];
        s->column_of[r] = NONE;
    }
    for (size_t c = 0; c < m->n; c++)
        s->row_of[c] = NONE;
}

/* ---- the cheapest way ---- */

/* What the cheapest way to each column costs, as far as it is known, and the row that the column would take. Columns wait whose cost
 * fell, each once. */
typedef struct {
    int costs[WUNDRESKA_COLUMNS_MAX];
    uint16_t rows[WUNDRESKA_COLUMNS_MAX], queue[WUNDRESKA_COLUMNS_MAX];
    size_t next, count;
    Set waiting;
} Search;

static void put_in_queue(Search *search, size_t column)
{
    if (has(search->waiting, column))
        return;
    search->waiting |= just(column);
    search->queue[(search->next + search->count++) % WUNDRESKA_COLUMNS_MAX] = column;
}

static size_t take_from_queue(Search *search)
{
    size_t column = search->queue[search->next];
    search->next = (search->next + 1) % WUNDRESKA_COLUMNS_MAX;
    search->count--;
    search->waiting &= ~just(column);
    return column;
}

/* From a row to all columns that it touches, where it costs so much to have the row free. */
static void go_on_from(const Seats *s, Search *search, size_t row, int cost)
{
    for (Set to = s->touched[row]; to; to &= to - 1) {
        size_t c = smallest_of(to);
        int taken = cost - UNIT * weight_at(s, row, c) + 1;
        if (s->column_of[row] != c && taken < search->costs[c]) {
            search->costs[c] = taken;
            search->rows[c] = row;
            put_in_queue(search, c);
        }
    }
}

/* The column without a row that the cheapest way leads to, or NONE. */
static size_t find_way(const Seats *s, Search *search)
{
    const Model *m = s->model;
    size_t found = NONE;
    *search = (Search){0};
    for (size_t c = 0; c < m->n; c++)
        search->costs[c] = INT_MAX;
    for (size_t r = m->a; r < m->a + m->b; r++)
        if (s->column_of[r] == NONE)
            go_on_from(s, search, r, 0);
    while (search->count > 0) {
        size_t x = take_from_queue(search), row = s->row_of[x];
        if (row != NONE)
            go_on_from(s, search, row, search->costs[x] + UNIT * weight_at(s, row, x) + (row >= m->a));
    }
    for (size_t c = 0; c < m->n; c++)
        if (s->row_of[c] == NONE && search->costs[c] < INT_MAX && (found == NONE || search->costs[c] < search->costs[found]))
            found = c;
    return found;
}

/* ---- the exchange ---- */

/* Each column on the way takes the row before it. Those that go to the constant side take its rows on the way in any order in which
 * they can. Whether they can, as the unique-max lemma says. */
static int exchange(Seats *s, const Search *search, size_t column)
{
    Set rows = 0, columns = 0;
    for (size_t x = column, next; x != NONE; x = next) {
        size_t row = search->rows[x];
        next = s->column_of[row];
        if (row < s->model->a) {
            rows |= just(row);
            columns |= just(x);
        } else
            seat(s, row, x);
    }
    for (; columns; columns &= columns - 1) {
        size_t row = seat_in(s, rows, smallest_of(columns));
        if (row == NONE)
            return 0;
        rows &= ~just(row);
    }
    return 1;
}

static int serve_rows(Seats *s)
{
    Search search;
    for (size_t served = 0; served < s->model->b; served++) {
        size_t column = find_way(s, &search);
        if (column == NONE || !exchange(s, &search, column))
            return 0;
    }
    return 1;
}

static Heaviest shown(const Seats *s)
{
    const Model *m = s->model;
    Heaviest heaviest = {.found = 1, .total = s->weights->anyway};
    memset(heaviest.rows, WUNDRESKA_NO_COLUMN, sizeof heaviest.rows);
    for (size_t c = 0; c < m->n; c++) {
        size_t row = s->row_of[c];
        heaviest.total += weight_at(s, row, c);
        if (row < m->a)
            heaviest.constants |= just(c);
        else
            heaviest.rows[row - m->a] = c;
    }
    return heaviest;
}

Heaviest find_heaviest(const Model *m, const Weights *weights)
{
    static Seats s;
    if (m->a + m->b != m->n)
        return (Heaviest){0};
    begin(&s, m, weights);
    return fill_side(&s) && serve_rows(&s) ? shown(&s) : (Heaviest){0};
}
