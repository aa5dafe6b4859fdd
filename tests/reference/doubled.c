/* Columns doubled, and columns left out.
 *
 * Why it is right. The rank is the smallest sum (001, Theorem 3.2). Let x be doubled: a further column has the constants of x, and
 * parameters in the same rows. A set of the larger model does best to have both or none of the two; with both its sum is what it was,
 * with none it is one more. So
 * - doubling x leaves the rank as it is exactly if some set with x has the rank as its sum;
 * - leaving y out takes one from the sums of the sets without y, so it keeps the rank exactly if y is in every set whose sum is the
 *   rank;
 * - by both together, leaving y out and doubling x, the rank is one less exactly if some set with x and without y has the rank as its
 *   sum; else it is not less, and x brings y.
 * Take each parameter as a letter of its own, as in reference.c, and reduce the matrix with all columns doubled behind it. Where the
 * double of x is not a sum of the columns, it raises the rank. Where it is, and y cannot be left out without loss of rank, it makes
 * up for y exactly if it has y in its sum.
 * Numbers for the letters can lower a rank, but never raise it, and only what raises a rank is noted. So what is seen in several tries
 * is taken together, of those tries that reach the rank. */
#include "doubled.h"

#include "matrix.h"

/* Of a reduced matrix, the pivot columns that the double of x has in its sum, or all columns where it is no sum of columns. */
static Set columns_in_double(const Matrix *m, Set pivots, size_t x)
{
    size_t double_of_x = m->columns + x, row = 0;
    Set columns = 0;
    for (size_t c = 0; c < m->columns; c++)
        if (has(pivots, c) && m->cells[row++][double_of_x] != m->field->zero)
            columns |= just(c);
    for (; row < m->rows; row++)
        if (m->cells[row][double_of_x] != m->field->zero)
            return all_below(m->columns);
    return columns;
}

/* The columns that can be left out without loss of rank are brought by all. */
static void note_brought(Brought *brought, const Matrix *m, Set pivots)
{
    Set spare = spare_columns(m, pivots);
    for (size_t x = 0; x < brought->n; x++)
        brought->by[x] |= just(x) | spare | columns_in_double(m, pivots, x);
}

Brought brought_by_doubling(const Model *model)
{
    static Matrix matrix;
    Brought brought = {.n = model->n};
    size_t rank = 0;
    for (int i = 0; i < TRIES; i++) {
        substitute_doubled(&matrix, model);
        Set pivots = reduce(&matrix);
        if (size_of_set(pivots) > rank)
            brought = (Brought){.n = model->n};
        if (size_of_set(pivots) >= rank) {
            rank = size_of_set(pivots);
            note_brought(&brought, &matrix, pivots);
        }
    }
    return brought;
}
