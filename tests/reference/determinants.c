/* Determinants with a letter for each parameter: the signed sum over all arrangements of rows to columns. */
#include "determinants.h"

#include "brute.h"

/* A set of letters: bit i * BRUTE_COLUMNS + x for that of row i and column x. */
typedef Set Letters;

/* The arrangements of BRUTE_COLUMNS rows. In a mixed table, whose places may give two terms each, a part has at most half that order. */
enum { TABLE_ROWS = 8, MOST_TERMS = 720 };

_Static_assert(TABLE_ROWS * BRUTE_COLUMNS <= 8 * sizeof(Letters), "too many letters");

/* A model as one table. A place holds its constant, its letter, or the sum of both. */
typedef struct {
    uint32_t p;
    size_t rows, columns;
    uint32_t constants[TABLE_ROWS][BRUTE_COLUMNS];
    Set letters[TABLE_ROWS];
} Table;

typedef struct {
    uint64_t coefficient;
    Letters letters;
} Term;

/* The terms of a determinant so far, no two with the same letters. */
typedef struct {
    const Table *table;
    size_t count;
    Term terms[MOST_TERMS];
} Terms;

static Table table_of(Kind kind, const Model *m)
{
    Table t = {.p = m->p, .rows = kind == LAYERED ? m->a + m->b : m->a, .columns = m->n};
    size_t first = kind == LAYERED ? m->a : 0;
    for (size_t r = 0; r < m->a; r++)
        for (size_t x = 0; x < m->n; x++)
            t.constants[r][x] = m->constants[r * m->n + x];
    for (size_t r = 0; r < m->b; r++)
        t.letters[first + r] = m->parameters[r];
    return t;
}

static void collect(Terms *d, Term term)
{
    size_t i = 0;
    while (i < d->count && d->terms[i].letters != term.letters)
        i++;
    if (i == d->count)
        d->terms[d->count++] = (Term){.letters = term.letters};
    d->terms[i].coefficient = (d->terms[i].coefficient + term.coefficient) % d->table->p;
}

/* Every arrangement of these rows to these columns, times the term: the first column takes each row in turn, and the smaller
 * rows that come behind it are its inversions. */
static void arrange(Terms *d, Set rows, Set columns, Term term)
{
    if (columns == 0) {
        collect(d, term);
        return;
    }
    const Table *t = d->table;
    size_t x = 0, inversions = 0;
    while (!has(columns, x))
        x++;
    for (size_t i = 0; i < t->rows; i++) {
        if (!has(rows, i))
            continue;
        Term next = {.coefficient = inversions % 2 ? t->p - term.coefficient : term.coefficient, .letters = term.letters};
        if (has(t->letters[i], x))
            arrange(d, rows & ~just(i), columns & ~just(x),
                    (Term){.coefficient = next.coefficient, .letters = next.letters | just(i * BRUTE_COLUMNS + x)});
        next.coefficient = next.coefficient * t->constants[i][x] % t->p;
        if (next.coefficient != 0)
            arrange(d, rows & ~just(i), columns & ~just(x), next);
        inversions++;
    }
}

static int not_zero(const Table *t, Set rows, Set columns)
{
    Terms d = {.table = t};
    arrange(&d, rows, columns, (Term){.coefficient = 1});
    for (size_t i = 0; i < d.count; i++)
        if (d.terms[i].coefficient != 0)
            return 1;
    return 0;
}

size_t largest_order(Kind kind, const Model *model)
{
    Table t = table_of(kind, model);
    size_t largest = 0;
    for (Set rows = 0; rows <= all_below(t.rows); rows++)
        for (Set columns = 0; columns <= all_below(t.columns); columns++)
            if (size_of_set(rows) == size_of_set(columns) && size_of_set(rows) > largest && not_zero(&t, rows, columns))
                largest = size_of_set(rows);
    return largest;
}
