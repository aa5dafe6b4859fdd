/* Columns planted in a model: independent ones, sums of them, and such that block one another. */
#include "planted.h"

static uint16_t *at(Model *m, size_t row, size_t column)
{
    return &m->constants[row * m->n + column];
}

void plant_triangle(Model *m, const size_t *columns, size_t count)
{
    size_t rows[WUNDRESKA_ROWS_MAX];
    shuffle(rows, m->a);
    for (size_t i = 0; i < count; i++) {
        *at(m, rows[i], columns[i]) = 1 + draw(m->p - 1);
        for (size_t k = i + 1; k < count; k++)
            *at(m, rows[k], columns[i]) = 0;
    }
}

void plant_sum(Model *m, size_t column, const uint16_t *multipliers)
{
    for (size_t r = 0; r < m->a; r++) {
        uint64_t total = 0;
        for (size_t c = 0; c < m->n; c++)
            total += (uint64_t)*at(m, r, c) * multipliers[c];
        *at(m, r, column) = total % m->p;
    }
}

static void clear_parameters(Model *m, size_t column)
{
    for (size_t r = 0; r < m->b; r++)
        m->parameters[r] &= ~just(column);
}

/* A column becomes a sum of others, so many, with drawn multipliers: none of them 0, or of any kind. */
static void draw_sum(Model *m, size_t column, const size_t *others, size_t count, int none_is_0)
{
    uint16_t multipliers[WUNDRESKA_COLUMNS_MAX] = {0};
    for (size_t i = 0; i < count; i++)
        multipliers[others[i]] = none_is_0 ? 1 + draw(m->p - 1) : one_in(2) ? 0 : draw(m->p);
    plant_sum(m, column, multipliers);
}

/* The row has the next column and one before it, and any others of these. */
static void draw_row(Model *m, size_t row, const size_t *columns, size_t next, uint64_t spread)
{
    m->parameters[row] |= just(columns[next]) | just(columns[draw(next)]);
    for (size_t i = 0; i < next; i++)
        if (one_in(spread))
            m->parameters[row] |= just(columns[i]);
}

/* Independent columns and a sum that has them all are a set of the kind, without a parameter. Such a set with one more column, which
 * has no more rank, and one more row, which has it and one before it, is one again: the row serves the one before where the new
 * column is dropped, and else the new column. */
void plant_blocking(Model *m, const size_t *columns, size_t constants, size_t parameters)
{
    size_t count = constants + parameters + 1, rows[WUNDRESKA_ROWS_MAX];
    uint64_t spread = 1 + draw(count);
    for (size_t i = 0; i < count; i++)
        clear_parameters(m, columns[i]);
    plant_triangle(m, columns, constants);
    for (size_t i = constants; i < count; i++)
        draw_sum(m, columns[i], columns, constants, i == constants);
    shuffle(rows, m->b);
    for (size_t i = 0; i < parameters; i++)
        draw_row(m, rows[i], columns, constants + 1 + i, spread);
}

void stir(Model *m)
{
    for (size_t i = 0; i < m->a; i++) {
        size_t to = draw(m->a), from = draw(m->a);
        uint64_t factor = draw(m->p);
        for (size_t c = 0; c < m->n && to != from; c++)
            *at(m, to, c) = (*at(m, to, c) + factor * *at(m, from, c)) % m->p;
    }
}
