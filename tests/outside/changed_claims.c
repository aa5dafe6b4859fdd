/* Changes to claims that must be accepted. Where a seat is changed, most often another column gives one up, so that their number
 * stays; else there is a seat more, which a program would pass that leaves out what it finds wrong. */
#include "claims.h"

/* A number of a set that has any. */
static size_t draw_from(Set set)
{
    size_t skipped = draw(size_of_set(set)), number = 0;
    while (skipped > 0 || !has(set, number))
        skipped -= has(set, number++);
    return number;
}

/* A column at n or later that a set has room for, where there is one. */
static size_t draw_beyond(const Model *m)
{
    return m->n + draw(WUNDRESKA_COLUMNS_MAX - m->n);
}

static Set columns_left(const Model *m, const Claim *claim)
{
    return all_below(m->n) & ~columns_named(claim);
}

/* A column loses its seat, where any has one. */
static void drop_one(Claim *claim)
{
    Set naming = rows_naming(claim);
    if (claim->constants && (!naming || one_in(2)))
        claim->constants &= ~just(draw_from(claim->constants));
    else if (naming)
        claim->rows[draw_from(naming)] = WUNDRESKA_NO_COLUMN;
}

/* ---- a bit, and the rank ---- */

int turn_bit(const Model *m, Claim *claim)
{
    uint8_t bytes[WUNDRESKA_CLAIM_SIZE];
    size_t bit = draw(8 * sizeof bytes);
    (void)m;
    put_claim(claim, bytes);
    bytes[bit / 8] ^= 1 << bit % 8;
    *claim = claim_in(bytes);
    return 1;
}

static int set_rank(Claim *claim, unsigned rank)
{
    claim->rank = rank & UINT8_MAX;
    return 1;
}

int raise_rank(const Model *m, Claim *claim)
{
    (void)m;
    return set_rank(claim, claim->rank + 1);
}

int lower_rank(const Model *m, Claim *claim)
{
    (void)m;
    return set_rank(claim, claim->rank - 1);
}

int draw_rank(const Model *m, Claim *claim)
{
    (void)m;
    return set_rank(claim, draw(UINT8_MAX + 1));
}

/* ---- a row ---- */

/* A row below b, mostly one that names a column, where there is any. */
static int draw_row(const Model *m, const Claim *claim, size_t *row)
{
    Set naming = rows_naming(claim);
    if (m->b > 0)
        *row = naming && !one_in(4) ? draw_from(naming) : draw(m->b);
    return m->b > 0;
}

/* One of these rows, and mostly one with a parameter at the column, where there is any. */
static size_t draw_row_with(const Model *m, Set rows, size_t column)
{
    Set having = 0;
    for (size_t r = 0; r < m->b; r++)
        having |= has(m->parameters[r], column) ? just(r) : 0;
    return draw_from((having & rows) && !one_in(4) ? having & rows : rows);
}

int take_row_out(const Model *m, Claim *claim)
{
    Set naming = rows_naming(claim);
    (void)m;
    if (naming)
        claim->rows[draw_from(naming)] = WUNDRESKA_NO_COLUMN;
    return naming != 0;
}

int name_any_column(const Model *m, Claim *claim)
{
    size_t row;
    if (!draw_row(m, claim, &row))
        return 0;
    claim->rows[row] = draw(m->n);
    return 1;
}

int name_column_of_a_row(const Model *m, Claim *claim)
{
    Set naming = rows_naming(claim), rows = one_in(2) ? naming : all_below(m->b);
    if (size_of_set(naming) < 2)
        return 0;
    size_t from = draw_from(naming);
    claim->rows[draw_row_with(m, rows & ~just(from), claim->rows[from])] = claim->rows[from];
    return 1;
}

/* A row names a column of the constant side, or that side has a column that a row names, in the place of another or besides. */
int name_column_of_the_side(const Model *m, Claim *claim)
{
    Set naming = rows_naming(claim);
    if (!naming || !claim->constants)
        return 0;
    size_t column = draw_from(claim->constants);
    if (one_in(2))
        claim->rows[draw_row_with(m, one_in(2) ? naming : all_below(m->b), column)] = column;
    else {
        claim->constants &= one_in(2) ? ~just(column) : ~(Set)0;
        claim->constants |= just(claim->rows[draw_from(naming)]);
    }
    return 1;
}

int name_column_beyond(const Model *m, Claim *claim)
{
    size_t row;
    if (!draw_row(m, claim, &row))
        return 0;
    claim->rows[row] = one_in(3) ? m->n : m->n + draw(WUNDRESKA_NO_COLUMN - m->n);
    return 1;
}

/* A row's column moves there, or any one stands there besides. */
int name_in_row_beyond(const Model *m, Claim *claim)
{
    Set naming = rows_naming(claim);
    if (m->b == WUNDRESKA_ROWS_MAX)
        return 0;
    size_t row = one_in(3) ? m->b : m->b + draw(WUNDRESKA_ROWS_MAX - m->b);
    if (naming && !one_in(3)) {
        size_t from = draw_from(naming);
        claim->rows[row] = claim->rows[from];
        claim->rows[from] = WUNDRESKA_NO_COLUMN;
    } else
        claim->rows[row] = draw(one_in(2) ? m->n : WUNDRESKA_NO_COLUMN);
    return 1;
}

static int lacks_parameter(const Model *m, const Claim *claim, size_t row)
{
    size_t column = claim->rows[row];
    return column < m->n && !has(m->parameters[row], column);
}

/* A column that has no seat, where there is one; else two rows change their columns. */
int name_without_parameter(const Model *m, Claim *claim)
{
    size_t row, other;
    if (!draw_row(m, claim, &row) || !draw_row(m, claim, &other))
        return 0;
    Set left = columns_left(m, claim) & ~m->parameters[row];
    uint8_t column = claim->rows[row];
    claim->rows[row] = left ? draw_from(left) : claim->rows[other];
    if (!left)
        claim->rows[other] = column;
    return lacks_parameter(m, claim, row) || lacks_parameter(m, claim, other);
}

/* ---- the constant side ---- */

/* A column that depends on the side joins it: from its row, or in the place of any other column, or besides. */
int make_side_dependent(const Model *m, Claim *claim)
{
    Set depending = columns_spanned(m, claim->constants) & ~claim->constants;
    if (!depending)
        return 0;
    size_t column = draw_from(depending);
    if (!has(columns_named(claim), column) && !one_in(4))
        drop_one(claim);
    for (size_t r = 0; r < m->b; r++)
        if (claim->rows[r] == column)
            claim->rows[r] = WUNDRESKA_NO_COLUMN;
    claim->constants |= just(column);
    return 1;
}

/* In the place of any other column, or besides. */
int put_beyond_on_side(const Model *m, Claim *claim)
{
    if (m->n == WUNDRESKA_COLUMNS_MAX)
        return 0;
    if (!one_in(4))
        drop_one(claim);
    claim->constants |= just(draw_beyond(m));
    return 1;
}

/* ---- the set ---- */

/* Any, or one near the claim's. */
static Set draw_set(const Model *m, const Claim *claim)
{
    return one_in(2) ? draw_held(m->n) : claim->set ^ just(draw(m->n));
}

int change_set(const Model *m, Claim *claim)
{
    claim->set = draw_set(m, claim);
    return 1;
}

int raise_rank_to_sum(const Model *m, Claim *claim)
{
    claim->set = draw_set(m, claim);
    size_t sum = sum_of(m, claim->set);
    return sum != claim->rank && set_rank(claim, sum);
}

/* Takes a set whose sum is one more than the rank, where a few looks find one. */
static void raise_sum(const Model *m, Claim *claim)
{
    enum { LOOKS = 10 };
    Set set = claim->set;
    for (int i = 0; i < LOOKS && sum_of(m, set) != claim->rank + 1; i++)
        set = draw_set(m, claim);
    claim->set = sum_of(m, set) == claim->rank + 1 ? set : claim->set;
}

/* Besides, or where the sum is one more: a program that counts the column as any other would then find the rank. */
int put_beyond_in_set(const Model *m, Claim *claim)
{
    if (m->n == WUNDRESKA_COLUMNS_MAX)
        return 0;
    if (one_in(3))
        raise_sum(m, claim);
    claim->set |= just(draw_beyond(m));
    return 1;
}

/* ---- the number of columns ---- */

/* The rank says what it said. */
int place_fewer(const Model *m, Claim *claim)
{
    (void)m;
    if (claim->rank == 0)
        return 0;
    for (size_t left = one_in(2) ? 1 : 1 + draw(claim->rank); left > 0; left--)
        drop_one(claim);
    return 1;
}

int place_fewer_and_say_so(const Model *m, Claim *claim)
{
    return place_fewer(m, claim) && set_rank(claim, size_of_set(columns_named(claim)));
}

/* A column without a seat gets one that it must not have: on the constant side, on an empty row, or on one at b or later. The rank
 * is one more, and so is the set's sum, where such a set is found. */
int place_one_more(const Model *m, Claim *claim)
{
    Set left = columns_left(m, claim), empty = all_below(one_in(2) ? m->b : WUNDRESKA_ROWS_MAX) & ~rows_naming(claim);
    if (!left)
        return 0;
    if (empty && one_in(2))
        claim->rows[draw_from(empty)] = draw_from(left);
    else
        claim->constants |= just(draw_from(left));
    raise_sum(m, claim);
    return set_rank(claim, claim->rank + 1);
}

/* ---- all of it ---- */

/* Our answer to a model that is not this one, but differs at one place. */
int answer_other_model(const Model *m, Claim *claim)
{
    static Model other;
    if (m->a + m->b == 0)
        return 0;
    other = *m;
    other.numbered = 0;
    size_t row = draw(m->a + m->b), column = draw(m->n);
    if (row < m->a)
        other.constants[row * m->n + column] = draw(m->p);
    else
        other.parameters[row - m->a] ^= just(column);
    Called c = call_model(harness_layered, &other, exact_lengths(&other, WUNDRESKA_ANSWER_SIZE), WUNDRESKA_ANSWER_SIZE);
    *claim = claim_of(c.out);
    return 1;
}

int draw_bytes(const Model *m, Claim *claim)
{
    uint8_t bytes[WUNDRESKA_CLAIM_SIZE];
    (void)m;
    for (size_t i = 0; i < sizeof bytes; i++)
        bytes[i] = draw(256);
    *claim = claim_in(bytes);
    return 1;
}

/* Each part as the model could have it. */
int draw_parts(const Model *m, Claim *claim)
{
    claim->constants = draw_held(m->n);
    claim->set = one_in(2) ? draw_held(m->n) : claim->set;
    for (size_t r = 0; r < m->b; r++)
        claim->rows[r] = m->parameters[r] && !one_in(3) ? draw_from(m->parameters[r]) : WUNDRESKA_NO_COLUMN;
    size_t size = size_of_set(claim->constants) + size_of_set(rows_naming(claim));
    return set_rank(claim, one_in(4) ? draw(m->n + 1) : one_in(2) ? size : sum_of(m, claim->set));
}
