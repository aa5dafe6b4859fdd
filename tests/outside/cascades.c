/* Models with many blocks. In the order of solving, the columns are cut into groups, and each column has a row that touches it, the
 * next of its group, around, and columns before the group. */
#include "blocks.h"

#include "planted.h"

/* Which columns before its group a row touches: those of the group before; one; some; none. */
typedef enum { CHAIN, TREE, SPREAD, APART, PATTERNS } Pattern;

typedef struct {
    Model model;
    Pattern pattern;
    uint64_t constants_of_4;               /* so many of four rows are constant rows */
    uint64_t spread;                       /* about one in so many columns is touched */
    size_t columns[WUNDRESKA_COLUMNS_MAX]; /* in the order of solving, by place */
    size_t starts[WUNDRESKA_COLUMNS_MAX], ends[WUNDRESKA_COLUMNS_MAX]; /* of the group of each place */
} Cascade;

/* ---- order and groups ---- */

/* In their own order, turned, or in any. */
static void order_columns(Cascade *t)
{
    size_t n = t->model.n;
    uint64_t way = draw(4);
    shuffle(t->columns, n);
    for (size_t i = 0; i < n && way < 2; i++)
        t->columns[i] = way ? i : n - 1 - i;
}

static void cut(Cascade *t)
{
    size_t n = t->model.n;
    uint64_t rare = 1 + draw(3);
    for (size_t start = 0, end; start < n; start = end) {
        end = start + 1;
        while (end < n && !one_in(rare))
            end++;
        for (size_t i = start; i < end; i++) {
            t->starts[i] = start;
            t->ends[i] = end;
        }
    }
}

/* ---- rows ---- */

typedef struct {
    int constant;
    size_t number;
} Row;

static Row add_row(Cascade *t)
{
    Model *m = &t->model;
    int constant = draw(4) < t->constants_of_4;
    if (m->a == WUNDRESKA_ROWS_MAX || m->b == WUNDRESKA_ROWS_MAX)
        constant = m->b == WUNDRESKA_ROWS_MAX;
    return (Row){constant, constant ? m->a++ : m->b++};
}

static void touch(Cascade *t, Row row, size_t place)
{
    Model *m = &t->model;
    size_t column = t->columns[place];
    if (row.constant)
        m->constants[row.number * m->n + column] = 1 + draw(m->p - 1);
    else
        m->parameters[row.number] |= just(column);
}

static void touch_some(Cascade *t, Row row, size_t from, size_t to)
{
    for (size_t i = from; i < to; i++)
        if (one_in(t->spread))
            touch(t, row, i);
}

static void touch_before(Cascade *t, Row row, size_t start)
{
    if (start == 0 || t->pattern == APART)
        return;
    if (t->pattern == CHAIN)
        touch(t, row, t->starts[start - 1] + draw(start - t->starts[start - 1]));
    if (t->pattern == TREE)
        touch(t, row, draw(start));
    if (t->pattern == SPREAD)
        touch_some(t, row, 0, start);
}

static void add_row_at(Cascade *t, size_t place)
{
    Row row = add_row(t);
    size_t start = t->starts[place], end = t->ends[place];
    touch(t, row, place);
    touch(t, row, place + 1 < end ? place + 1 : start);
    touch_some(t, row, start, end);
    touch_before(t, row, start);
}

/* One row each, of which up to two are missing behind the last columns; and up to two more that touch the first columns alone. */
static void add_rows(Cascade *t)
{
    size_t n = t->model.n, order[WUNDRESKA_COLUMNS_MAX];
    size_t missing = one_in(3) ? 1 + draw(2) : 0, surplus = one_in(3) ? 1 + draw(2) : 0, first = 1 + draw(n);
    shuffle(order, n);
    for (size_t i = 0; i < n; i++)
        if (order[i] + missing < n)
            add_row_at(t, order[i]);
    for (size_t i = 0; i < surplus && t->model.a + t->model.b < n + 2; i++) {
        Row row = add_row(t);
        touch(t, row, draw(t->ends[0]));
        touch_some(t, row, 0, one_in(2) ? t->ends[0] : first);
    }
}

Model draw_cascade(size_t columns)
{
    static Cascade t;
    t = (Cascade){.model = {.p = all_primes[draw(COUNT(all_primes))], .n = columns},
                  .pattern = draw(PATTERNS),
                  .constants_of_4 = draw(5),
                  .spread = 1 + draw(columns)};
    order_columns(&t);
    cut(&t);
    add_rows(&t);
    if (t.model.a > 0 && one_in(2))
        stir(&t.model);
    return numbered_or_not(t.model);
}
