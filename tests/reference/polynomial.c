/* Rows of polynomials, reduced as Mulders and Storjohann do: where the leading entries of two rows stand in one column, a multiple of
 * one row is taken from the other. The determinant stays the same, and once all leading entries stand in different columns its degree
 * is the sum of the rows' degrees. A row's degree is the largest of its entries', and its leading entry is the last that has it.
 *
 * Elements for the letters come from an extension of the field of residues, as in reference.c. They can lower the degree, where the
 * leading coefficient becomes 0, but never raise it. */
#include "polynomial.h"

#include "field.h"

#include <string.h>

enum { DRAWN_AT_MOST = 6, COEFFICIENTS = WUNDRESKA_POWER_MAX + 1, NONE = UINT16_MAX };

typedef struct {
    const Field *field;
    size_t n;
    uint32_t cells[WUNDRESKA_COLUMNS_MAX][COEFFICIENTS][WUNDRESKA_COLUMNS_MAX]; /* by row, power and column */
    int degrees[WUNDRESKA_COLUMNS_MAX];                                         /* of the rows, -1 where all is 0 */
    size_t leads[WUNDRESKA_COLUMNS_MAX];                                        /* their leading columns */
} Polynomials;

/* Finds the degree of a row, which is not above the one that it had, and its leading column. */
static void find_lead(Polynomials *m, size_t row)
{
    for (; m->degrees[row] >= 0; m->degrees[row]--)
        for (size_t c = m->n; c-- > 0;)
            if (m->cells[row][m->degrees[row]][c] != m->field->zero) {
                m->leads[row] = c;
                return;
            }
}

/* The constant rows' own powers add to the degree whatever else stands there, and are left out. */
static void substitute(Polynomials *m, const Model *model, const Powers *powers)
{
    const Field *f = m->field = field_over(model->p);
    m->n = model->n;
    for (size_t r = 0; r < m->n; r++) {
        for (size_t i = 0; i < COEFFICIENTS * WUNDRESKA_COLUMNS_MAX; i++)
            m->cells[r][i / WUNDRESKA_COLUMNS_MAX][i % WUNDRESKA_COLUMNS_MAX] = f->zero;
        for (size_t c = 0; c < m->n; c++) {
            size_t row = r - model->a;
            if (r < model->a)
                m->cells[r][powers->columns[c]][c] = f->residues[model->constants[r * model->n + c]];
            else if (has(model->parameters[row], c))
                m->cells[r][powers->parameters[row * model->n + c]][c] = draw(f->zero);
        }
        m->degrees[r] = WUNDRESKA_POWER_MAX;
        find_lead(m, r);
    }
}

/* Takes the multiple of a row from another, of no smaller degree, with which the leading entry there becomes smaller. */
static void cancel(Polynomials *m, size_t row, size_t by)
{
    const Field *f = m->field;
    size_t lead = m->leads[by], shift = m->degrees[row] - m->degrees[by];
    uint32_t quotient = field_quotient(f, m->cells[row][m->degrees[row]][lead], m->cells[by][m->degrees[by]][lead]);
    uint32_t factor = field_negative(f, quotient);
    for (int power = 0; power <= m->degrees[by]; power++)
        for (size_t c = 0; c < m->n; c++) {
            uint32_t *cell = &m->cells[row][power + shift][c];
            *cell = field_sum(f, *cell, field_product(f, factor, m->cells[by][power][c]));
        }
    find_lead(m, row);
}

/* Reduces a row by those before it, whose leading entries stand in different columns, and these by it, until the one that is left stands
 * in another column; whether one is left. */
static int reduce_row(Polynomials *m, size_t row, size_t *row_at)
{
    while (m->degrees[row] >= 0) {
        size_t other = row_at[m->leads[row]];
        if (other == NONE || m->degrees[row] < m->degrees[other])
            row_at[m->leads[row]] = row;
        if (other == NONE)
            return 1;
        if (m->degrees[row] < m->degrees[other]) {
            size_t smaller = row;
            row = other;
            other = smaller;
        }
        cancel(m, row, other);
    }
    return 0;
}

static int reduced_degree(Polynomials *m)
{
    size_t row_at[WUNDRESKA_COLUMNS_MAX]; /* the row with its leading entry in a column, or NONE */
    int degree = 0;
    for (size_t c = 0; c < m->n; c++)
        row_at[c] = NONE;
    for (size_t r = 0; r < m->n; r++)
        if (!reduce_row(m, r, row_at))
            return -1;
    for (size_t r = 0; r < m->n; r++)
        degree += m->degrees[r];
    return degree;
}

int degree_of_determinant(const Model *model, const Powers *powers, int enough)
{
    static Polynomials m;
    int anyway = 0, largest = -1;
    for (size_t r = 0; r < model->a; r++)
        anyway += powers->rows[r];
    for (int i = 0; i < DRAWN_AT_MOST && (i == 0 || largest < enough); i++) {
        substitute(&m, model, powers);
        int degree = reduced_degree(&m);
        if (degree >= 0 && anyway + degree > largest)
            largest = anyway + degree;
    }
    return largest;
}
