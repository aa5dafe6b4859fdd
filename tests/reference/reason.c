/* The dependency of a column on the placed ones.
 *
 * Why it is right. Take each parameter as a letter of its own, as in reference.c: a set of columns has a legal assignment exactly if
 * these columns of the matrix are linearly independent. The placed columns are independent and an unplaced one is a sum of them, in
 * one way. The columns with a coefficient that is not zero, and the unplaced one, are dependent; without any one of them the others
 * are not. A set that lacks one of them is independent, and a set with more stays dependent without those: so no other set will do.
 * Numbers for the letters can turn a coefficient to zero, with a chance of about one in the number of elements, but none that is zero
 * to another; so the columns of several tries are taken together, of those tries that have the placed columns as their pivots. */
#include "reason.h"

#include "matrix.h"
#include "multipliers.h"
#include "reference.h"

#include <string.h>

/* ---- elimination ---- */

/* Of a reduced matrix, the columns that a column without a pivot is a sum of, and itself. */
static Set dependency(const Matrix *m, Set pivots, size_t column)
{
    Set set = just(column);
    size_t row = 0;
    for (size_t c = 0; c < column; c++)
        if (has(pivots, c) && m->cells[row++][column] != m->field->zero)
            set |= just(c);
    return set;
}

/* Whether a set has the first column by which it differs from another one. */
static int comes_first(Set set, Set other)
{
    Set differing = set ^ other, first = differing & -differing;
    return (set & first) != 0;
}

/* A rank that is lowered by the numbers drawn only takes pivots away, or moves them to later columns. */
Reasons find_reasons(const Model *model)
{
    static Matrix matrix;
    Reasons found = {0};
    for (int i = 0; i < TRIES; i++) {
        substitute_layered(&matrix, model);
        Set pivots = reduce(&matrix);
        if (comes_first(pivots, found.placed))
            found = (Reasons){.placed = pivots};
        for (size_t x = 0; x < model->n && pivots == found.placed; x++)
            if (!has(pivots, x))
                found.sets[x] |= dependency(&matrix, pivots, x);
    }
    return found;
}

/* ---- the answer with its multipliers ---- */

int same_reason(const Reason *one, const Reason *other)
{
    return one->set == other->set && one->given == other->given &&
           !memcmp(one->multipliers, other->multipliers, sizeof one->multipliers);
}

Reason reason_with(const Model *m, Set set, size_t column)
{
    Reason reason = {.set = set, .given = rows_touching(m, set) == 0};
    if (reason.given) {
        Multipliers found = find_multipliers(m, set & ~just(column), column);
        memcpy(reason.multipliers, found.multipliers, sizeof reason.multipliers);
    }
    return reason;
}

/* ---- the properties ---- */

/* Whether dropping any one column of a dependent set leaves a set that has a legal assignment: one try that shows it will do, since
 * the numbers drawn raise no rank. */
static int can_drop_any(const Model *m, Set set)
{
    static Matrix matrix;
    Model alone = only_columns(m, set);
    for (int i = 0; i < TRIES; i++) {
        substitute_layered(&matrix, &alone);
        Set pivots = reduce(&matrix);
        if (size_of_set(pivots) + 1 == alone.n && spare_columns(&matrix, pivots) == all_below(alone.n))
            return 1;
    }
    return 0;
}

/* No more columns of a set can be on the constant side than their rank, nor on the parameter side than rows touch it. So it has no
 * legal assignment where these make fewer; and it has none only there, if dropping any one column helps: then the short set of the
 * model of these columns is all of them. */
static const char *blocking_complaint(const Model *m, Set set)
{
    if (constant_rank(m, all_below(m->a), set) + rows_touching(m, set) + 1 != size_of_set(set))
        return "the equations that touch the reason are not one fewer than its columns";
    return can_drop_any(m, set) ? NULL : "the reason has no legal assignment without one of its columns";
}

/* Each other column of the reason has a multiplier, since none can be spared. */
static const char *given_complaint(const Model *m, size_t column, const Reason *given)
{
    Multipliers about = {.outcome = WUNDRESKA_DEPENDS};
    Set others = given->set & ~just(column);
    for (size_t c = 0; c < m->n; c++)
        if (has(others, c) && given->multipliers[c] == 0)
            return "a multiplier is 0";
    memcpy(about.multipliers, given->multipliers, sizeof about.multipliers);
    return multipliers_complaint(m, others, column, &about);
}

static const char *not_given_complaint(const Reason *given)
{
    static const uint16_t none[WUNDRESKA_COLUMNS_MAX];
    return memcmp(given->multipliers, none, sizeof none) ? "a multiplier that is not given is not 0" : NULL;
}

const char *reason_complaint(const Model *m, Set placed, size_t column, const Reason *given)
{
    if ((given->set & ~placed) != just(column))
        return "the reason is not drawn from the column and the placed ones";
    if (given->given != (rows_touching(m, given->set) == 0))
        return "whether multipliers are given";
    const char *complaint = given->given ? given_complaint(m, column, given) : not_given_complaint(given);
    return complaint ? complaint : blocking_complaint(m, given->set);
}
