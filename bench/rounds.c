/* Rows have levels and columns have heights, such that no entry of a row, its power and its column's height together, stands above the
 * row's level. The tight entries, which reach it, make a model. Where that is not determined, its short set is raised, and with it the
 * rows that touch it, until another entry becomes tight. */
#include "rounds.h"

#include "parts.h"
#include "table.h"

#include <limits.h>

typedef struct {
    const Model *model;
    const Powers *powers;
    Table table; /* the constants, reduced at tight entries */
    int levels[ALL_ROWS], heights[WUNDRESKA_COLUMNS_MAX];
} State;

static int is_filled(const State *s, size_t row, size_t column)
{
    size_t a = s->model->a;
    return row < a ? s->table.cells[row][column] != 0 : has(s->model->parameters[row - a], column);
}

static int power_at(const State *s, size_t row, size_t column)
{
    const Model *m = s->model;
    return row < m->a ? s->powers->columns[column] : s->powers->parameters[(row - m->a) * m->n + column];
}

/* How high the entries of a row stand on these columns; 0 where there is none, since heights are above 0. */
static int top_of(const State *s, size_t row, Set columns)
{
    int top = 0;
    for (; columns; columns &= columns - 1) {
        size_t c = smallest_of(columns);
        int stands = power_at(s, row, c) + s->heights[c];
        top = is_filled(s, row, c) && stands > top ? stands : top;
    }
    return top;
}

/* Each column is as high as it can be where no entry may stand above one more than the largest power, whether it is 0 or not. */
static void begin(State *s, const Model *m, const Powers *powers)
{
    s->model = m;
    s->powers = powers;
    make_table(&s->table, m);
    for (size_t c = 0; c < m->n; c++) {
        int highest = powers->columns[c];
        for (size_t r = 0; r < m->b; r++)
            if (has(m->parameters[r], c) && powers->parameters[r * m->n + c] > highest)
                highest = powers->parameters[r * m->n + c];
        s->heights[c] = WUNDRESKA_POWER_MAX + 1 - highest;
    }
    for (size_t r = 0; r < m->n; r++)
        s->levels[r] = top_of(s, r, all_below(m->n));
}

static int is_tight(const State *s, size_t row, size_t column)
{
    return is_filled(s, row, column) && power_at(s, row, column) + s->heights[column] == s->levels[row];
}

/* The short set of the tight entries. */
static Set short_set(const State *s)
{
    static Model tight;
    static Assignment assignment;
    const Model *m = s->model;
    tight = (Model){.p = m->p, .n = m->n, .a = m->a, .b = m->b};
    for (size_t r = 0; r < m->n; r++)
        for (size_t c = 0; c < m->n; c++)
            if (is_tight(s, r, c)) {
                if (r < m->a)
                    tight.constants[r * m->n + c] = s->table.cells[r][c];
                else
                    tight.parameters[r - m->a] |= just(c);
            }
    find_assignment(&tight, &assignment);
    return graph_by(&assignment).last;
}

/* At a tight entry of each constant row that has one on these columns. */
static void reduce(State *s, Set columns)
{
    Set touched[WUNDRESKA_ROWS_MAX];
    for (size_t r = 0; r < s->model->a; r++)
        touched[r] = columns_touched(&s->table, r);
    for (size_t r = 0; r < s->model->a; r++) {
        Set left = columns;
        while (left && !is_tight(s, r, smallest_of(left)))
            left &= left - 1;
        if (left)
            make_unit(&s->table, r, smallest_of(left), touched);
    }
}

/* As far as no row is left behind that does not touch the columns. */
static void raise(State *s, Set columns)
{
    int tops[ALL_ROWS], rise = INT_MAX;
    for (size_t r = 0; r < s->model->n; r++) {
        int room = s->levels[r] - (tops[r] = top_of(s, r, columns));
        rise = tops[r] > 0 && room > 0 && room < rise ? room : rise;
    }
    for (size_t r = 0; r < s->model->n; r++)
        s->levels[r] += tops[r] == s->levels[r] ? rise : 0;
    for (; columns; columns &= columns - 1)
        s->heights[smallest_of(columns)] += rise;
}

Descent descend(const Model *m, const Powers *powers)
{
    static State s;
    Descent descent = {0};
    Set columns;
    begin(&s, m, powers);
    for (; (columns = short_set(&s)); descent.rounds++) {
        reduce(&s, columns);
        raise(&s, columns);
    }
    for (size_t r = 0; r < m->a; r++)
        descent.degree += powers->rows[r];
    for (size_t i = 0; i < m->n; i++)
        descent.degree += s.levels[i] - s.heights[i];
    return descent;
}
