/* Every column is left out and taken in, one after another. Of a column that is taken in, what remains of its constants, once those
 * kept are subtracted, is kept: as many are kept as the rank of the columns taken. */
#include "sums.h"

typedef struct {
    uint32_t entries[WUNDRESKA_ROWS_MAX];
    size_t row; /* of the first entry that is not 0 */
} Kept;

typedef struct {
    const Model *model;
    Set rows_at[SUMS_COLUMNS]; /* the parameter rows that have each column */
    Kept kept[SUMS_COLUMNS];
    size_t *sums;
} Walk;

/* Takes a multiple of what is kept from a multiple of the column, so that nothing stands in its row. */
static void clear(const Model *m, Kept *column, const Kept *kept)
{
    uint64_t times = kept->entries[kept->row], entry = column->entries[kept->row];
    for (size_t r = 0; r < m->a && entry != 0; r++)
        column->entries[r] = (column->entries[r] * times + kept->entries[r] * (m->p - entry)) % m->p;
}

/* Puts what remains of a column behind so many that are kept; whether anything does. It goes by ascending rows: what is kept has
 * nothing before its row, so no entry comes back. */
static int keep(Walk *w, size_t column, size_t count)
{
    const Model *m = w->model;
    Kept *next = &w->kept[count];
    for (size_t r = 0; r < m->a; r++)
        next->entries[r] = m->constants[r * m->n + column];
    for (next->row = 0; next->row < m->a; next->row++)
        for (size_t i = 0; i < count; i++)
            if (w->kept[i].row == next->row)
                clear(m, next, &w->kept[i]);
    for (next->row = 0; next->row < m->a; next->row++)
        if (next->entries[next->row] != 0)
            return 1;
    return 0;
}

static void walk_from(Walk *w, size_t x, Set set, Set touching, size_t count)
{
    size_t n = w->model->n;
    if (x == n) {
        w->sums[set] = count + size_of_set(touching) + n - size_of_set(set);
        return;
    }
    walk_from(w, x + 1, set, touching, count);
    int raises = keep(w, x, count);
    walk_from(w, x + 1, set | just(x), touching | w->rows_at[x], count + raises);
}

void find_sums(const Model *m, size_t *sums)
{
    static Walk w;
    w.model = m;
    w.sums = sums;
    for (size_t c = 0; c < m->n; c++) {
        w.rows_at[c] = 0;
        for (size_t r = 0; r < m->b; r++)
            w.rows_at[c] |= has(m->parameters[r], c) ? just(r) : 0;
    }
    walk_from(&w, 0, 0, 0, 0);
}
