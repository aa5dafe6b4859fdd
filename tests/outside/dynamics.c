/* Determined models, and powers for them. */
#include "degrees.h"

#include "planted.h"

/* ---- determined models ---- */

static void scatter(Model *m, uint64_t constants_spread, uint64_t parameters_spread)
{
    int plant_like = one_in(2);
    for (size_t i = 0; i < m->a * m->n; i++)
        if (one_in(constants_spread))
            m->constants[i] = plant_like ? (one_in(2) ? 1 : m->p - 1) : draw(m->p);
    for (size_t i = 0; i < m->b * m->n; i++)
        if (one_in(parameters_spread))
            m->parameters[i / m->n] |= just(i % m->n);
}

/* Dense, sparse, or anything between. */
static uint64_t draw_spread(size_t n)
{
    return one_in(3) ? 1 : one_in(6) ? n : 1 + draw(1 + n / 2);
}

/* Some columns become multiples of one that is among the first, so that only one of them can stand on the constant side. */
static void plant_multiples(Model *m, const size_t *columns, size_t first)
{
    for (size_t i = first; i < m->n; i++) {
        size_t other = columns[draw(first)];
        uint64_t factor = draw(m->p);
        for (size_t r = 0; r < m->a && i % 2; r++)
            m->constants[r * m->n + columns[i]] = m->constants[r * m->n + other] * factor % m->p;
    }
}

Model draw_determined(size_t n)
{
    size_t b = one_in(8) ? (one_in(3) ? 0 : n) : draw(n + 1), columns[WUNDRESKA_COLUMNS_MAX], rows[WUNDRESKA_ROWS_MAX];
    Model m = {.p = all_primes[draw(COUNT(all_primes))], .n = n, .a = n - b, .b = b};
    scatter(&m, draw_spread(n), draw_spread(n));
    shuffle(columns, n);
    plant_triangle(&m, columns, m.a);
    if (m.a > 0 && one_in(3))
        plant_multiples(&m, columns, m.a);
    shuffle(rows, b);
    for (size_t i = 0; i < b; i++)
        m.parameters[rows[i]] |= just(columns[m.a + i]);
    if (m.a > 0 && one_in(2))
        stir(&m);
    return numbered_or_not(m);
}

/* ---- powers ---- */

/* From the lowest to the highest, or 0 but for one of so many. */
typedef struct {
    uint8_t lowest, highest;
    uint64_t rare;
} Range;

static uint8_t draw_power(Range range)
{
    return one_in(range.rare) ? range.lowest + draw(range.highest - range.lowest + 1) : 0;
}

static void fill_powers(const Model *m, Powers *powers, Range rows, Range columns, Range parameters)
{
    for (size_t r = 0; r < m->a; r++)
        powers->rows[r] = draw_power(rows);
    for (size_t c = 0; c < m->n; c++)
        powers->columns[c] = draw_power(columns);
    for (size_t i = 0; i < m->b * m->n; i++)
        powers->parameters[i] = draw_power(parameters);
}

/* A byte that is not read. */
static uint8_t draw_unread(void)
{
    return one_in(3) ? UINT8_MAX : one_in(2) ? WUNDRESKA_POWER_MAX + 1 : draw(UINT8_MAX + 1);
}

static void fill_unread(const Model *m, Powers *powers)
{
    for (size_t r = 0; r < m->b; r++)
        for (size_t c = 0; c < m->n; c++)
            if (!has(m->parameters[r], c))
                powers->parameters[r * m->n + c] = draw_unread();
    for (size_t i = 0; i < POWERS_BEHIND; i++) {
        powers->rows[m->a + i] = draw_unread();
        powers->columns[m->n + i] = draw_unread();
        powers->parameters[m->b * m->n + i] = draw_unread();
    }
}

/* A parameter's power is what its row and its column make together, and a little less: the columns weigh alike wherever they are. */
static void fill_near(const Model *m, Powers *powers)
{
    enum { SHARE = WUNDRESKA_POWER_MAX / 2 };
    uint64_t less = 1 + draw(3);
    for (size_t c = 0; c < m->n; c++)
        powers->columns[c] = draw(SHARE + 1);
    for (size_t r = 0; r < m->b; r++) {
        uint8_t of_row = draw(SHARE + 1);
        for (size_t c = 0; c < m->n; c++) {
            uint8_t sum = of_row + powers->columns[c], loss = draw(less);
            powers->parameters[r * m->n + c] = sum > loss ? sum - loss : 0;
        }
    }
}

void draw_powers(const Model *m, Powers *powers, DrawnPowers drawn)
{
    enum { MOST = WUNDRESKA_POWER_MAX };
    static const Range none = {0, 0, 1}, most = {MOST, MOST, 1}, any = {0, MOST, 1}, high = {MOST - 3, MOST, 1};
    Range few = {0, 1 + draw(3), 1}, sparse = {0, MOST, 2 + draw(m->n)};
    switch (drawn) {
    case NO_POWERS: fill_powers(m, powers, none, none, none); break;
    case FULL: fill_powers(m, powers, most, most, most); break;
    case FEW_DIFFERENT: fill_powers(m, powers, few, few, few); break;
    case SPARSE: fill_powers(m, powers, sparse, sparse, sparse); break;
    case OF_ROWS: fill_powers(m, powers, any, none, none); break;
    case OF_COLUMNS: fill_powers(m, powers, none, any, none); break;
    case OF_PARAMETERS: fill_powers(m, powers, none, none, any); break;
    case HIGH: fill_powers(m, powers, high, high, high); break;
    default: fill_powers(m, powers, any, any, any);
    }
    if (drawn == NEAR)
        fill_near(m, powers);
    fill_unread(m, powers);
}

/* ---- chains ---- */

/* Columns and rows by place, from the first of the chain to the last. */
typedef struct {
    Dynamics *dynamics;
    size_t columns[WUNDRESKA_COLUMNS_MAX], rows[WUNDRESKA_COLUMNS_MAX];
    uint8_t constant[WUNDRESKA_COLUMNS_MAX]; /* whether the row is a constant one */
    uint8_t low, high;
    uint64_t spread; /* a row has about one in so many of all later places, at any power, or where it is 0 the next one alone */
} Chain;

/* In their own order, turned, or in any. */
static void order(size_t *numbers, size_t count)
{
    uint64_t way = draw(4);
    shuffle(numbers, count);
    for (size_t i = 0; i < count && way < 2; i++)
        numbers[i] = way ? i : count - 1 - i;
}

/* Gives the place a row of its kind; rows are numbered in an order of their own. */
static void number_rows(Chain *t)
{
    Model *m = &t->dynamics->model;
    size_t constant_rows[WUNDRESKA_ROWS_MAX], parameter_rows[WUNDRESKA_ROWS_MAX], a = 0, b = 0;
    order(constant_rows, m->a);
    order(parameter_rows, m->b);
    for (size_t i = 0; i < m->n; i++)
        t->rows[i] = t->constant[i] ? constant_rows[a++] : parameter_rows[b++];
}

static void fill_place(Chain *t, size_t row, size_t place, uint8_t power)
{
    Model *m = &t->dynamics->model;
    size_t at = t->rows[row] * m->n + t->columns[place];
    if (t->constant[row])
        m->constants[at] = 1 + draw(m->p - 1);
    else {
        m->parameters[t->rows[row]] |= just(t->columns[place]);
        t->dynamics->powers.parameters[at] = power;
    }
}

/* A column's own power is low where a constant row is its own, and else high where the constant row before touches it. */
static void fill_chain(Chain *t)
{
    size_t n = t->dynamics->model.n;
    for (size_t i = 0; i < n; i++) {
        uint8_t *power = &t->dynamics->powers.columns[t->columns[i]];
        *power = t->constant[i] ? t->low : i > 0 && t->constant[i - 1] ? t->high : draw(WUNDRESKA_POWER_MAX + 1);
        fill_place(t, i, i, t->low);
        if (i + 1 < n && t->spread == 0)
            fill_place(t, i, i + 1, t->high);
        for (size_t later = i + 1; later < n && t->spread > 0; later++)
            if (one_in(t->spread))
                fill_place(t, i, later, draw(t->high + 1));
    }
}

/* A constant row touches later places alone, so that the constants on their own places stay a triangle. */
static void fill_more(Chain *t)
{
    size_t n = t->dynamics->model.n;
    for (size_t more = draw(n); more > 0; more--) {
        size_t row = draw(n), place = t->constant[row] ? row + draw(n - row) : draw(n);
        if (place > row + 1 || place < row)
            fill_place(t, row, place, draw(t->high + 1));
    }
}

/* The kinds of rows, the low power and the high one are set. */
static void make_chain(Chain *t, Dynamics *d, size_t n, int more)
{
    Model *m = &d->model;
    *m = (Model){.p = all_primes[draw(COUNT(all_primes))], .n = n};
    t->dynamics = d;
    for (size_t i = 0; i < n; i++)
        m->a += t->constant[i];
    m->b = n - m->a;
    for (size_t r = 0; r < m->a; r++)
        d->powers.rows[r] = draw(WUNDRESKA_POWER_MAX + 1);
    order(t->columns, n);
    number_rows(t);
    fill_chain(t);
    if (more)
        fill_more(t);
    if (m->a > 0 && one_in(2))
        stir(m);
    fill_unread(m, &d->powers);
    *m = numbered_or_not(*m);
}

static void draw_kinds(Chain *t, size_t n)
{
    uint64_t constants_of_4 = draw(4);
    for (size_t i = 0; i < n; i++)
        t->constant[i] = draw(4) < constants_of_4;
}

void draw_chain(Dynamics *d, size_t n)
{
    static Chain t;
    t.high = one_in(2) ? WUNDRESKA_POWER_MAX : 1 + draw(WUNDRESKA_POWER_MAX);
    t.low = one_in(2) ? 0 : draw(t.high);
    draw_kinds(&t, n);
    make_chain(&t, d, n, one_in(2));
}

void draw_long_chain(Dynamics *d, size_t n)
{
    static Chain t = {.low = 0, .high = WUNDRESKA_POWER_MAX};
    size_t alternate = draw(2);
    for (size_t i = 0; i < n; i++)
        t.constant[i] = alternate && i % 2;
    make_chain(&t, d, n, 0);
}

void draw_triangle(Dynamics *d, size_t n)
{
    static Chain t = {.low = 0, .high = WUNDRESKA_POWER_MAX};
    t.spread = 1 + draw(4);
    draw_kinds(&t, n);
    make_chain(&t, d, n, one_in(3));
}
