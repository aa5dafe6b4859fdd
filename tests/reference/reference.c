/* Ranks by random substitution, and what follows from them.
 *
 * Why it is right. Take each parameter as a letter of its own. A set of columns has a legal assignment exactly if these
 * columns of the matrix (constants above letters) are linearly independent: document 001, Theorem 3.1. So
 * - the rank is the matrix's rank,
 * - the placed set is the columns that raise the rank of those before them,
 * - the short set is the columns that can be left out without loss of rank.
 *   Let K be a set whose sum is the rank and B a largest set with a legal assignment. B has at most (constant rank of K +
 *   parameter rows touching K) columns in K and at most all outside; together that is the sum, so B has every column outside
 *   K. Hence a column that some such B leaves out lies in every K. Now let N be all such columns, and look at the model on N
 *   alone: its rank is the rank less the columns outside N, since every B has those; and there, too, each column is left
 *   out by some largest set. By Theorem 3.2 some set has that rank as its sum; by the first half it is N. So the sum of N
 *   is the rank, and N is the smallest such set.
 * - the mixed rank is the rank of the matrix whose places hold constant plus letter: Theorem 3.1 again.
 * Numbers for the letters come from an extension of the field of residues. They can lower a rank, with a chance of about one
 * in the number of elements, but never raise it; so the largest of several tries is taken. */
#include "reference.h"

#include "matrix.h"

#include <string.h>

static size_t larger(size_t x, size_t y)
{
    return x > y ? x : y;
}

/* The largest ranks seen: of the columns below each number, and with each column left out. */
typedef struct {
    size_t below[WUNDRESKA_COLUMNS_MAX + 1], without[WUNDRESKA_COLUMNS_MAX];
} Ranks;

static void note_ranks(Ranks *seen, Set pivots, Set spare, size_t n)
{
    size_t rank = size_of_set(pivots);
    for (size_t x = 0; x < n; x++) {
        seen->below[x + 1] = larger(seen->below[x + 1], size_of_set(pivots & all_below(x + 1)));
        seen->without[x] = larger(seen->without[x], rank - !has(spare, x));
    }
}

Truth layered_truth(const Model *model)
{
    static Matrix matrix;
    Ranks seen = {0};
    for (int i = 0; i < TRIES; i++) {
        substitute_layered(&matrix, model);
        Set pivots = reduce(&matrix);
        note_ranks(&seen, pivots, spare_columns(&matrix, pivots), model->n);
    }
    Truth truth = {.rank = seen.below[model->n]};
    for (size_t x = 0; x < model->n; x++) {
        if (seen.below[x + 1] > seen.below[x])
            truth.placed |= just(x);
        if (seen.without[x] == truth.rank)
            truth.short_set |= just(x);
    }
    return truth;
}

size_t mixed_rank(const Model *model)
{
    static Matrix matrix;
    size_t rank = 0;
    for (int i = 0; i < TRIES; i++) {
        substitute_mixed(&matrix, model);
        rank = larger(rank, size_of_set(reduce(&matrix)));
    }
    return rank;
}

size_t constant_rank(const Model *m, Set rows, Set columns)
{
    static Matrix matrix;
    take_constants(&matrix, m, rows, columns);
    return size_of_set(reduce(&matrix));
}

/* Whether the row finds a column, where others may move; `tried` are columns asked before. */
static int finds_column(const Model *m, size_t row, Set columns, Set *tried, int *row_of)
{
    for (size_t c = 0; c < m->n; c++) {
        if (!has(m->parameters[row] & columns & ~*tried, c))
            continue;
        *tried |= just(c);
        if (row_of[c] < 0 || finds_column(m, row_of[c], columns, tried, row_of)) {
            row_of[c] = (int)row;
            return 1;
        }
    }
    return 0;
}

size_t largest_matching(const Model *m, Set rows, Set columns)
{
    int row_of[WUNDRESKA_COLUMNS_MAX];
    size_t size = 0;
    memset(row_of, -1, sizeof row_of);
    for (size_t r = 0; r < m->b; r++) {
        Set tried = 0;
        if (has(rows, r))
            size += finds_column(m, r, columns, &tried, row_of);
    }
    return size;
}

/* No rank is above the number of rows. */
unsigned verdict_on(size_t rank, size_t columns, size_t rows)
{
    if (rank < columns)
        return WUNDRESKA_OPEN;
    return rows > columns ? WUNDRESKA_SURPLUS : WUNDRESKA_DETERMINED;
}

size_t rows_touching(const Model *m, Set set)
{
    size_t touching = 0;
    for (size_t r = 0; r < m->b; r++)
        touching += (m->parameters[r] & set) != 0;
    return touching;
}

size_t sum_of(const Model *m, Set set)
{
    return constant_rank(m, all_below(m->a), set) + rows_touching(m, set) + size_of_set(all_below(m->n) & ~set);
}
