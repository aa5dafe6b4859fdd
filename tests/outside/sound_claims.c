/* Claims that must be accepted, beside our own answer: with another legal assignment of as many columns, and with a larger set of
 * the same sum. */
#include "claims.h"

#include <string.h>

/* ---- the seats of an assignment ---- */

/* A parameter row, or behind these the constant side and no seat. */
enum { SIDE = WUNDRESKA_ROWS_SIZE, NO_SEAT };

static size_t seat_of(const Claim *claim, size_t column)
{
    for (size_t r = 0; r < SIDE; r++)
        if (claim->rows[r] == column)
            return r;
    return has(claim->constants, column) ? SIDE : NO_SEAT;
}

static void seat(Claim *claim, size_t column, size_t to)
{
    size_t from = seat_of(claim, column);
    if (from < SIDE)
        claim->rows[from] = WUNDRESKA_NO_COLUMN;
    claim->constants &= ~just(column);
    if (to < SIDE)
        claim->rows[to] = column;
    if (to == SIDE)
        claim->constants |= just(column);
}

/* Two columns change their seats, of which one may be none; or one with a seat moves to the constant side or to an empty row. */
static void draw_move(const Model *m, Claim *claim)
{
    size_t x = draw(m->n), y = draw(m->n), of_x = seat_of(claim, x), of_y = seat_of(claim, y), row = draw(m->b + 1);
    if (one_in(2)) {
        seat(claim, x, NO_SEAT);
        seat(claim, y, of_x);
        seat(claim, x, of_y);
    } else if (of_x != NO_SEAT && row == m->b)
        seat(claim, x, SIDE);
    else if (of_x != NO_SEAT && claim->rows[row] == WUNDRESKA_NO_COLUMN)
        seat(claim, x, row);
}

/* ---- another assignment ---- */

enum { MOVES = 8, MOVES_OF_MANY = 2 };

/* Some moves, each only where it leaves a claim that is to be accepted. */
static void move_some(const Model *m, Claim *claim)
{
    for (int i = 0; i < (m->n > SMALL ? MOVES_OF_MANY : MOVES); i++) {
        Claim moved = *claim;
        draw_move(m, &moved);
        if (faults_of(m, &moved) == 0)
            *claim = moved;
    }
}

/* The places of a model in another order: column c of the other is column columns[c] of the model, and so on. */
typedef struct {
    size_t columns[WUNDRESKA_COLUMNS_MAX], constant_rows[WUNDRESKA_ROWS_MAX], parameter_rows[WUNDRESKA_ROWS_MAX];
} Order;

static Model in_order(const Model *m, const Order *o)
{
    Model other = {.p = m->p, .n = m->n, .a = m->a, .b = m->b};
    for (size_t c = 0; c < m->n; c++) {
        for (size_t r = 0; r < m->a; r++)
            other.constants[r * m->n + c] = m->constants[o->constant_rows[r] * m->n + o->columns[c]];
        for (size_t r = 0; r < m->b; r++)
            other.parameters[r] |= has(m->parameters[o->parameter_rows[r]], o->columns[c]) ? just(c) : 0;
    }
    return other;
}

/* The assignment of the library's answer to the model in another order, put back. */
static void answer_in_other_order(const Model *m, Claim *claim)
{
    Order o;
    shuffle(o.columns, m->n);
    shuffle(o.constant_rows, m->a);
    shuffle(o.parameter_rows, m->b);
    Model other = in_order(m, &o);
    Called c = call_model(harness_layered, &other, exact_lengths(&other, WUNDRESKA_ANSWER_SIZE), WUNDRESKA_ANSWER_SIZE);
    Claim answer = claim_of(c.out);
    claim->constants = 0;
    for (size_t x = 0; x < m->n; x++)
        claim->constants |= has(answer.constants, x) ? just(o.columns[x]) : 0;
    for (size_t r = 0; r < m->b; r++)
        claim->rows[o.parameter_rows[r]] = answer.rows[r] < m->n ? o.columns[answer.rows[r]] : WUNDRESKA_NO_COLUMN;
}

/* A model may have no other one, so it is looked for a few times. */
int take_other_assignment(const Model *m, Claim *claim)
{
    enum { LOOKS = 3 };
    for (int i = 0; i < LOOKS; i++) {
        Claim other = *claim;
        if (one_in(2))
            answer_in_other_order(m, &other);
        if (one_in(2))
            move_some(m, &other);
        if (other.constants != claim->constants || memcmp(other.rows, claim->rows, sizeof other.rows)) {
            *claim = other;
            return 1;
        }
    }
    return 0;
}

/* ---- a larger set ---- */

/* Whether the row has a parameter in the set, but not a column of the set. */
static int serves_elsewhere(const Model *m, const Claim *claim, size_t row, Set set)
{
    size_t column = claim->rows[row];
    return (m->parameters[row] & set) && (column == WUNDRESKA_NO_COLUMN || !has(set, column));
}

/* The largest set within another one whose sum is the number of the assignment's columns. The sum of a set that has all columns
 * without a seat is that number exactly if every row with a parameter in the set has a column of the set, and each column of the set
 * depends on those of the constant side in it. What is against this stays so in every smaller set, and is dropped. */
static Set tight_within(const Model *m, const Claim *claim, Set set)
{
    Set before;
    do {
        before = set;
        for (size_t r = 0; r < m->b; r++)
            if (serves_elsewhere(m, claim, r, set))
                set &= ~m->parameters[r];
        set &= columns_spanned(m, claim->constants & set);
    } while (set != before);
    return set;
}

/* Within all columns, or all but some that are not in the set so far. */
int take_larger_set(const Model *m, Claim *claim)
{
    Set left_out = one_in(2) ? draw_held(m->n) & ~claim->set : 0, set = tight_within(m, claim, all_below(m->n) & ~left_out);
    int larger = (set & ~claim->set) != 0;
    claim->set = set;
    return larger;
}
