/* The definitions of documents 01 and 02, by enumeration. */
#include "brute.h"

#include <limits.h>
#include <string.h>

/* Which were met of several: some that use every row, some that leave a row over. */
typedef struct {
    int using_all, leaving;
} Found;

static void note(Found *found, int uses_all)
{
    found->using_all |= uses_all;
    found->leaving |= !uses_all;
}

/* All use every row, or all leave one over; a model that has both kinds has no verdict. */
static unsigned verdict_by(Found found)
{
    if (found.using_all && found.leaving)
        return UINT_MAX;
    return found.using_all ? WUNDRESKA_DETERMINED : found.leaving ? WUNDRESKA_SURPLUS : WUNDRESKA_OPEN;
}

typedef struct {
    const Model *model;
    uint8_t independent[SETS]; /* by column set, of the constants on the rows asked for */
    uint8_t placeable[SETS];   /* by column set: some legal assignment places exactly it */
    Found full;                /* the legal assignments that place all columns */
} Tables;

static int subset(Set inner, Set outer)
{
    return (inner & ~outer) == 0;
}

/* What the coefficients make of a constant row. */
static uint32_t total_in(const Model *m, size_t row, const uint32_t *coefficients)
{
    uint64_t total = 0;
    for (size_t c = 0; c < m->n; c++)
        total += (uint64_t)m->constants[row * m->n + c] * coefficients[c];
    return total % m->p;
}

/* Whether the coefficients make every one of these constant rows zero. */
static int kills(const Model *m, Set rows, const uint32_t *coefficients)
{
    for (size_t r = 0; r < m->a; r++)
        if (has(rows, r) && total_in(m, r, coefficients) != 0)
            return 0;
    return 1;
}

/* The next coefficient vector, counting to the base p; whether there is one. */
static int next_vector(const Model *m, uint32_t *coefficients)
{
    for (size_t c = 0; c < m->n; c++) {
        if (++coefficients[c] < m->p)
            return 1;
        coefficients[c] = 0;
    }
    return 0;
}

static Set support_of(const Model *m, const uint32_t *coefficients)
{
    Set support = 0;
    for (size_t c = 0; c < m->n; c++)
        support |= (Set)(coefficients[c] != 0) << c;
    return support;
}

/* A set is dependent if some coefficients, not all 0 and 0 outside it, kill the rows. */
static void find_independent(Tables *t, Set rows)
{
    const Model *m = t->model;
    uint32_t coefficients[BRUTE_COLUMNS] = {0};
    memset(t->independent, 1, sizeof t->independent);
    while (next_vector(m, coefficients))
        if (kills(m, rows, coefficients))
            t->independent[support_of(m, coefficients)] = 0;
    for (Set set = 0; set < SETS; set++)
        for (Set inner = 1; inner < set; inner++)
            if (subset(inner, set) && !t->independent[inner])
                t->independent[set] = 0;
}

static size_t rank_in(const Tables *t, Set set)
{
    size_t rank = 0;
    for (Set inner = 0; inner <= set; inner++)
        if (subset(inner, set) && t->independent[inner] && size_of_set(inner) > rank)
            rank = size_of_set(inner);
    return rank;
}

/* Every seat for the columns from x on: out, the constant side, or a parameter row that is not taken. */
static void seat_from(Tables *t, size_t x, Set placed, Set constant_side, Set taken)
{
    const Model *m = t->model;
    if (x == m->n) {
        t->placeable[placed] |= t->independent[constant_side];
        if (t->independent[constant_side] && placed == all_below(m->n))
            note(&t->full, size_of_set(constant_side) == m->a && taken == all_below(m->b));
        return;
    }
    Set column = just(x);
    seat_from(t, x + 1, placed, constant_side, taken);
    seat_from(t, x + 1, placed | column, constant_side | column, taken);
    for (size_t r = 0; r < m->b; r++)
        if ((m->parameters[r] & column) && !has(taken, r))
            seat_from(t, x + 1, placed | column, constant_side, taken | just(r));
}

static size_t sum_by_definition(const Tables *t, Set set)
{
    size_t touching = 0;
    for (size_t r = 0; r < t->model->b; r++)
        touching += (t->model->parameters[r] & set) != 0;
    return rank_in(t, set) + touching + t->model->n - size_of_set(set);
}

static void find_rank_and_placed(const Tables *t, Enumerated *e)
{
    for (Set set = 0; set <= all_below(t->model->n); set++)
        if (t->placeable[set] && size_of_set(set) > e->rank)
            e->rank = size_of_set(set);
    for (size_t x = 0; x < t->model->n; x++)
        if (t->placeable[e->placed | just(x)])
            e->placed |= just(x);
}

static void find_short(const Tables *t, Enumerated *e)
{
    e->short_set = all_below(t->model->n);
    for (Set set = 0; set <= all_below(t->model->n); set++)
        if ((e->sums[set] = sum_by_definition(t, set)) == e->rank)
            e->short_set &= set;
    e->short_is_least = e->sums[e->short_set] == e->rank;
}

/* Whether a set has no legal assignment while dropping any one column leaves a set that has one. */
static int blocks(const Tables *t, Set set)
{
    int dropping_helps = 1;
    for (size_t c = 0; c < t->model->n; c++)
        if (has(set, c) && !t->placeable[set & ~just(c)])
            dropping_helps = 0;
    return !t->placeable[set] && dropping_helps;
}

static void find_reasons_of_all(const Tables *t, Enumerated *e)
{
    e->reasons_are_single = 1;
    for (size_t x = 0; x < t->model->n; x++) {
        size_t found = 0;
        for (Set set = 0; set <= all_below(t->model->n) && !has(e->placed, x); set++)
            if (subset(set, e->placed | just(x)) && blocks(t, set)) {
                e->reasons[x] = set;
                found++;
            }
        if (found != !has(e->placed, x))
            e->reasons_are_single = 0;
    }
}

Enumerated enumerate_layered(const Model *model)
{
    Tables t = {.model = model};
    Enumerated e = {0};
    find_independent(&t, all_below(model->a));
    seat_from(&t, 0, 0, 0, 0);
    find_rank_and_placed(&t, &e);
    find_short(&t, &e);
    find_reasons_of_all(&t, &e);
    e.verdict = verdict_by(t.full);
    memcpy(e.independent, t.independent, sizeof e.independent);
    return e;
}

/* Whether some seats for the columns from x on make the assignment begun the claimed one, and legal. */
static int is_legal_from(const Model *m, const Enumerated *e, size_t x, Claim *begun, const Claim *claim)
{
    if (x == m->n)
        return e->independent[begun->constants] && begun->constants == claim->constants &&
               !memcmp(begun->rows, claim->rows, sizeof claim->rows);
    int found = is_legal_from(m, e, x + 1, begun, claim);
    begun->constants |= just(x);
    found |= is_legal_from(m, e, x + 1, begun, claim);
    begun->constants &= ~just(x);
    for (size_t r = 0; r < m->b; r++)
        if (has(m->parameters[r], x) && begun->rows[r] == WUNDRESKA_NO_COLUMN) {
            begun->rows[r] = x;
            found |= is_legal_from(m, e, x + 1, begun, claim);
            begun->rows[r] = WUNDRESKA_NO_COLUMN;
        }
    return found;
}

/* A legal assignment names no column twice. */
int enumerate_claim(const Model *m, const Enumerated *e, const Claim *claim)
{
    Claim begun = {0};
    memset(begun.rows, WUNDRESKA_NO_COLUMN, sizeof begun.rows);
    return is_legal_from(m, e, 0, &begun, claim) && size_of_set(columns_named(claim)) == claim->rank &&
           subset(claim->set, all_below(m->n)) && e->sums[claim->set] == claim->rank;
}

/* The largest number of parameters on these rows from r on and these columns, no two in a row or column. */
static size_t matched_from(const Model *m, size_t r, Set rows, Set columns)
{
    if (r == m->b)
        return 0;
    size_t best = matched_from(m, r + 1, rows, columns);
    for (size_t c = 0; c < m->n && has(rows, r); c++)
        if (has(m->parameters[r] & columns, c)) {
            size_t size = 1 + matched_from(m, r + 1, rows, columns & ~just(c));
            best = size > best ? size : best;
        }
    return best;
}

/* Every row is used where the constants on I and J have as large a rank as I has rows, and all other rows are matched. */
EnumeratedMixed enumerate_mixed(const Model *model)
{
    Tables t = {.model = model};
    EnumeratedMixed e = {0};
    Found full = {0};
    for (Set rows = 0; rows <= all_below(model->a); rows++) {
        find_independent(&t, rows);
        for (Set columns = 0; columns <= all_below(model->n); columns++) {
            size_t constants = rank_in(&t, columns), matched = matched_from(model, 0, ~rows, ~columns);
            if (constants + matched > e.rank)
                e.rank = constants + matched;
            if (constants + matched == model->n)
                note(&full, constants == size_of_set(rows) && matched == model->a - size_of_set(rows));
        }
    }
    e.verdict = verdict_by(full);
    return e;
}

/* Whether the coefficients make every constant row its constant in this column. */
static int makes(const Model *m, const uint32_t *coefficients, size_t column)
{
    for (size_t r = 0; r < m->a; r++)
        if (total_in(m, r, coefficients) != m->constants[r * m->n + column])
            return 0;
    return 1;
}

/* The held columns are independent if no vector but that of zeros kills the rows. Where they are and two vectors still make the
 * column, there is no outcome. */
Multipliers enumerate_multipliers(const Model *m, Set held, size_t column)
{
    uint32_t coefficients[BRUTE_COLUMNS] = {0};
    size_t killing = 0, making = 0;
    Multipliers found = {0};
    do {
        if (!subset(support_of(m, coefficients), held))
            continue;
        killing += kills(m, all_below(m->a), coefficients);
        if (!makes(m, coefficients, column))
            continue;
        making++;
        for (size_t c = 0; c < m->n; c++)
            found.multipliers[c] = coefficients[c];
    } while (next_vector(m, coefficients));
    if (killing > 1)
        return (Multipliers){.outcome = WUNDRESKA_HELD_DEPENDENT};
    found.outcome = making == 1 ? WUNDRESKA_DEPENDS : making == 0 ? WUNDRESKA_INDEPENDENT : UINT_MAX;
    return found;
}
