/* Column sets, random numbers, random models with planted faults, and models of a known rank. */
#include "model.h"

#include <string.h>

Set all_below(size_t bound)
{
    return bound >= 8 * sizeof(Set) ? ~(Set)0 : just(bound) - 1;
}

size_t size_of_set(Set set)
{
    size_t size = 0;
    for (; set; set &= set - 1)
        size++;
    return size;
}

Set set_at(const uint8_t *bytes)
{
    Set set = 0;
    for (size_t i = 0; i < WUNDRESKA_SET_SIZE; i++)
        set |= (Set)bytes[i] << 8 * i;
    return set;
}

void put_words(Set set, uint64_t *words)
{
    for (size_t i = 0; i < ROW_WORDS; i++)
        words[i] = (uint64_t)(set >> 64 * i);
}

/* ---- random numbers: xorshift, always from the same seed ---- */

uint64_t draw(uint64_t bound)
{
    static uint64_t state = UINT64_C(0x9E3779B97F4A7C15);
    state ^= state << 13;
    state ^= state >> 7;
    state ^= state << 17;
    return (state >> 11) % bound;
}

int one_in(uint64_t many)
{
    return draw(many) == 0;
}

static size_t between(size_t low, size_t high)
{
    return low + draw(high - low + 1);
}

void shuffle(size_t *numbers, size_t count)
{
    for (size_t i = 0; i < count; i++)
        numbers[i] = i;
    for (size_t i = count; i > 1; i--) {
        size_t k = draw(i), other = numbers[k];
        numbers[k] = numbers[i - 1];
        numbers[i - 1] = other;
    }
}

/* ---- random models ---- */

static uint16_t *at(Model *m, size_t row, size_t column)
{
    return &m->constants[row * m->n + column];
}

/* Constants at about one place in `spread`; plant-like ones are plus or minus one. */
static void scatter_constants(Model *m, uint64_t spread, int plant_like)
{
    for (size_t i = 0; i < m->a * m->n; i++)
        if (one_in(spread))
            m->constants[i] = plant_like ? (one_in(2) ? 1 : m->p - 1) : draw(m->p);
}

static void scatter_parameters(Model *m, uint64_t spread)
{
    for (size_t r = 0; r < m->b; r++)
        for (size_t c = 0; c < m->n; c++)
            if (one_in(spread))
                m->parameters[r] |= just(c);
}

/* One row becomes a combination of two others. */
static void plant_dependent_row(Model *m)
{
    size_t r = draw(m->a), s = draw(m->a), t = draw(m->a);
    uint64_t f = draw(m->p), g = draw(m->p);
    for (size_t c = 0; c < m->n; c++)
        *at(m, r, c) = (f * *at(m, s, c) + g * *at(m, t, c)) % m->p;
}

/* One column becomes a combination of two others, and most often has no parameters. */
static void plant_dependent_column(Model *m)
{
    size_t x = draw(m->n), y = draw(m->n), z = draw(m->n);
    uint64_t f = draw(m->p), g = draw(m->p);
    for (size_t r = 0; r < m->a; r++)
        *at(m, r, x) = (f * *at(m, r, y) + g * *at(m, r, z)) % m->p;
    if (!one_in(4))
        for (size_t r = 0; r < m->b; r++)
            m->parameters[r] &= ~just(x);
}

/* A loop of streams: row i gives to column i and takes from the next one, around; the rows sum to nothing. */
static void plant_loop(Model *m)
{
    size_t length = between(1, m->a < m->n ? m->a : m->n);
    size_t row = draw(m->a - length + 1), column = draw(m->n - length + 1);
    for (size_t i = 0; i < length; i++)
        memset(at(m, row + i, 0), 0, m->n * sizeof(uint16_t));
    for (size_t i = 0; i < length; i++) {
        *at(m, row + i, column + i) = 1;
        *at(m, row + i, column + (i + 1) % length) = m->p - 1;
    }
}

/* Several parameter rows have all their parameters at the same few columns. */
static void plant_crowd(Model *m)
{
    Set few = 0;
    for (size_t i = between(1, 3); i > 0; i--)
        few |= just(draw(m->n));
    for (size_t i = between(1, m->b); i > 0; i--)
        m->parameters[draw(m->b)] &= few;
}

static void plant_faults(Model *m)
{
    if (m->a > 0 && one_in(4))
        plant_loop(m);
    while (m->a > 0 && one_in(2))
        plant_dependent_row(m);
    while (one_in(3))
        plant_dependent_column(m);
    if (m->b > 0 && one_in(4))
        plant_crowd(m);
}

static void fill(Model *m)
{
    scatter_constants(m, one_in(3) ? 1 : between(1, m->n), one_in(2));
    scatter_parameters(m, one_in(4) ? 2 : between(1, m->n));
    plant_faults(m);
}

/* A number up to the limit; the limit itself is met often, for what goes wrong there alone. */
static size_t draw_size(size_t low, size_t limit)
{
    return one_in(5) ? limit : between(low, limit);
}

Model draw_model(const uint32_t *primes, size_t primes_count, size_t columns, size_t rows)
{
    Model m = {.p = primes[draw(primes_count)], .n = draw_size(1, columns), .a = draw_size(0, rows), .b = draw_size(0, rows)};
    /* Many models have just as many rows as columns: there the answer hangs on single columns. */
    if (one_in(3) && m.a < m.n && m.n - m.a <= rows)
        m.b = m.n - m.a;
    fill(&m);
    return m;
}

Model draw_mixed(const uint32_t *primes, size_t primes_count, size_t limit)
{
    Model m = {.p = primes[draw(primes_count)], .n = between(1, limit)};
    m.a = m.b = draw_size(0, limit - m.n);
    if (one_in(2)) {
        m.n = draw_size(1, limit / 2);
        m.a = m.b = m.n;
    }
    fill(&m);
    return m;
}

/* ---- parameters' numbers ---- */

/* By an odd step, modulo 65,536, no number comes again; most often it is to the next number, up or down. */
void draw_numbers(Model *m)
{
    uint16_t number = draw(UINT16_MAX + 1), step = one_in(3) ? 2 * draw(UINT16_MAX / 2 + 1) + 1 : one_in(2) ? 1 : UINT16_MAX;
    m->numbered = 1;
    for (size_t r = 0; r < m->b; r++)
        for (size_t c = 0; c < m->n; c++)
            m->numbers[r * m->n + c] = has(m->parameters[r], c) ? number += step : number;
}

/* ---- models of a rank that is known ---- */

/* Something at a place: in a layered model what the row is of, in a mixed one a constant, a parameter or both. */
static void occupy(Model *m, Kind kind, size_t row, size_t column)
{
    int constant = kind == LAYERED ? row < m->a : draw(3) != 0;
    int parameter = kind == LAYERED ? !constant : !constant || one_in(2);
    if (constant)
        *at(m, row, column) = between(1, m->p - 1);
    if (parameter)
        m->parameters[kind == LAYERED ? row - m->a : row] |= just(column);
}

/* A triangle with nothing empty on its diagonal has the rank of its size, and all other entries lie in its rows alone, or in its
 * columns alone. */
Model draw_of_rank(Kind kind, uint32_t p, size_t n, size_t a, size_t b, size_t rank)
{
    Model m = {.p = p, .n = n, .a = a, .b = b};
    size_t row_count = kind == LAYERED ? a + b : a, rows[2 * WUNDRESKA_ROWS_MAX], columns[WUNDRESKA_COLUMNS_MAX];
    int by_rows = one_in(2);
    uint64_t spread = between(1, n);
    shuffle(rows, row_count);
    shuffle(columns, n);
    for (size_t i = 0; i < (by_rows ? rank : row_count); i++)
        for (size_t j = i < rank ? i : 0; j < (by_rows ? n : rank); j++)
            if (i == j || one_in(spread))
                occupy(&m, kind, rows[i], columns[j]);
    return m;
}

Model layered_form(const Model *mixed)
{
    size_t m = mixed->a;
    Model form = {.p = mixed->p, .n = m + mixed->n, .a = m, .b = m};
    for (size_t r = 0; r < m; r++) {
        *at(&form, r, r) = 1;
        for (size_t c = 0; c < mixed->n; c++)
            *at(&form, r, m + c) = mixed->constants[r * mixed->n + c];
        form.parameters[r] = just(r) | mixed->parameters[r] << m;
    }
    return form;
}

Model only_columns(const Model *model, Set columns)
{
    Model kept = {.p = model->p, .n = size_of_set(columns), .a = model->a, .b = model->b};
    size_t column = 0;
    for (size_t c = 0; c < model->n; c++) {
        if (!has(columns, c))
            continue;
        for (size_t r = 0; r < model->a; r++)
            *at(&kept, r, column) = model->constants[r * model->n + c];
        for (size_t r = 0; r < model->b; r++)
            kept.parameters[r] |= has(model->parameters[r], c) ? just(column) : 0;
        column++;
    }
    return kept;
}

int next_filling(Model *m)
{
    for (size_t i = 0; i < m->a * m->n; i++) {
        if (++m->constants[i] < m->p)
            return 1;
        m->constants[i] = 0;
    }
    for (size_t r = 0; r < m->b; r++) {
        if (++m->parameters[r] <= all_below(m->n))
            return 1;
        m->parameters[r] = 0;
    }
    return 0;
}
