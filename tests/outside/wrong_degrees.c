/* Answers with one fault each: of another total, another assignment, or another judgement. */
#include "degrees.h"

#include "assignment.h"

#include <string.h>

/* ---- outcomes ---- */

static DegreeOutcome refused(void)
{
    return (DegreeOutcome){.refusal = 16};
}

DegreeOutcome outcome_of(const Heaviest *heaviest)
{
    DegreeOutcome outcome = {.shown = {.degree = (unsigned)heaviest->total & UINT16_MAX, .constants = heaviest->constants}};
    memcpy(outcome.shown.rows, heaviest->rows, sizeof heaviest->rows);
    return heaviest->found ? outcome : refused();
}

static DegreeOutcome answer_by(const Model *m, const Weights *weights)
{
    Heaviest heaviest = find_heaviest(m, weights);
    return outcome_of(&heaviest);
}

DegreeOutcome answer_rightly(const Model *m, const Powers *powers)
{
    static Weights weights;
    if (judge_degree(m, powers) != 0)
        return refused();
    weigh(m, powers, &weights);
    return answer_by(m, &weights);
}

int is_told(const Model *m, const Powers *powers, const DegreeOutcome *right, const DegreeOutcome *wrong)
{
    if (right->refusal != wrong->refusal)
        return 1;
    return right->refusal == 0 && degree_complaint(m, powers, &wrong->shown, right->shown.degree) != NULL;
}

/* ---- other weights ---- */

static DegreeOutcome leave_out_rows(const Model *m, Weights *weights)
{
    weights->anyway = 0;
    return answer_by(m, weights);
}

static DegreeOutcome count_seated_columns(const Model *m, Weights *weights)
{
    for (size_t i = 0; i < m->b * m->n; i++)
        weights->parameters[i] += weights->columns[i % m->n];
    return answer_by(m, weights);
}

static DegreeOutcome take_smallest(const Model *m, Weights *weights)
{
    weights->anyway = -weights->anyway;
    for (size_t c = 0; c < m->n; c++)
        weights->columns[c] = -weights->columns[c];
    for (size_t i = 0; i < m->b * m->n; i++)
        weights->parameters[i] = -weights->parameters[i];
    Heaviest heaviest = find_heaviest(m, weights);
    heaviest.total = -heaviest.total;
    return outcome_of(&heaviest);
}

/* A power above the limit is refused where it is read. */
static DegreeOutcome read_by_columns(const Model *m, const Powers *powers, Weights *weights)
{
    for (size_t r = 0; r < m->b; r++)
        for (size_t c = 0; c < m->n; c++) {
            int read = powers->parameters[c * m->b + r];
            if (has(m->parameters[r], c) && read > WUNDRESKA_POWER_MAX)
                return refused();
            weights->parameters[r * m->n + c] = read;
        }
    return answer_by(m, weights);
}

/* Constant rows become parameter rows before the others, at the columns where their constants are not 0. */
static DegreeOutcome take_constants_as_parameters(const Model *m, const Weights *weights)
{
    static Model other;
    static Weights others;
    other = (Model){.p = m->p, .n = m->n, .b = m->n};
    others = *weights;
    for (size_t r = 0; r < m->n; r++)
        for (size_t c = 0; c < m->n; c++) {
            int constant = r < m->a, filled = constant ? m->constants[r * m->n + c] != 0 : has(m->parameters[r - m->a], c);
            other.parameters[r] |= filled ? just(c) : 0;
            others.parameters[r * m->n + c] = constant ? weights->columns[c] : weights->parameters[(r - m->a) * m->n + c];
        }
    Heaviest found = find_heaviest(&other, &others), heaviest = {.found = found.found, .total = found.total};
    memset(heaviest.rows, WUNDRESKA_NO_COLUMN, sizeof heaviest.rows);
    for (size_t r = 0; r < m->n; r++) {
        if (r < m->a)
            heaviest.constants |= just(found.rows[r]);
        else
            heaviest.rows[r - m->a] = found.rows[r];
    }
    return outcome_of(&heaviest);
}

/* ---- other assignments ---- */

static DegreeOutcome show_any(const Model *m, unsigned degree)
{
    static Assignment any;
    DegreeOutcome outcome = {.shown = {.degree = degree}};
    find_assignment(m, &any);
    memset(outcome.shown.rows, WUNDRESKA_NO_COLUMN, sizeof outcome.shown.rows);
    for (size_t c = 0; c < m->n; c++) {
        if (any.row_of[c] < m->a)
            outcome.shown.constants |= just(c);
        else
            outcome.shown.rows[any.row_of[c] - m->a] = c;
    }
    return outcome;
}

static DegreeOutcome take_any(const Model *m, const Powers *powers)
{
    DegreeOutcome outcome = show_any(m, 0);
    outcome.shown.degree = total_of(m, powers, &outcome.shown);
    return outcome;
}

static int places_all(const Model *m)
{
    static Assignment found;
    find_assignment(m, &found);
    for (size_t c = 0; c < m->n; c++)
        if (found.row_of[c] == NONE)
            return 0;
    return 1;
}

/* Leaves a column no other seat than the constant side, or than a row, which then has no other column. */
static void leave_one_seat(Model *m, size_t row, size_t column)
{
    for (size_t r = 0; r < m->b; r++)
        m->parameters[r] &= ~just(column);
    for (size_t r = 0; r < m->a && row != NONE; r++)
        m->constants[r * m->n + column] = 0;
    if (row != NONE)
        m->parameters[row] = just(column);
}

/* Takes the seat where all columns can still be placed. */
static void take_seat(Model *m, size_t row, size_t column)
{
    static Model tried;
    tried = *m;
    leave_one_seat(&tried, row, column);
    if (places_all(&tried))
        *m = tried;
}

/* In the end each column has one seat. */
static DegreeOutcome take_largest_first(const Model *m, const Powers *powers)
{
    static Model left;
    left = *m;
    for (int power = WUNDRESKA_POWER_MAX; power >= 0; power--)
        for (size_t c = 0; c < m->n; c++) {
            if (powers->columns[c] == power)
                take_seat(&left, NONE, c);
            for (size_t r = 0; r < m->b; r++)
                if (has(left.parameters[r], c) && powers->parameters[r * m->n + c] == power)
                    take_seat(&left, r, c);
        }
    DegreeOutcome outcome = show_any(&left, 0);
    outcome.shown.degree = total_of(m, powers, &outcome.shown);
    return outcome;
}

/* ---- other judgements ---- */

/* The powers with those of one kind that are one above the limit lowered to it. */
static void lower_powers(uint8_t *powers, size_t count)
{
    for (size_t i = 0; i < count; i++)
        powers[i] -= powers[i] == WUNDRESKA_POWER_MAX + 1;
}

static DegreeOutcome accept_above(const Model *m, const Powers *powers, WrongDegree wrong)
{
    static Powers lowered;
    lowered = *powers;
    if (wrong == ROW_ABOVE_ACCEPTED)
        lower_powers(lowered.rows, m->a);
    if (wrong == COLUMN_ABOVE_ACCEPTED)
        lower_powers(lowered.columns, m->n);
    if (wrong == PARAMETER_ABOVE_ACCEPTED)
        lower_powers(lowered.parameters, m->b * m->n);
    return answer_rightly(m, &lowered);
}

static DegreeOutcome accept_verdict(const Model *m, const Powers *powers, const DegreeOutcome *right, unsigned verdict)
{
    size_t rank = right->refusal ? layered_truth(m).rank : m->n;
    int accepted = right->refusal && powers_fit(m, powers) && verdict_on(rank, m->n, m->a + m->b) == verdict;
    return accepted ? (DegreeOutcome){0} : *right;
}

static DegreeOutcome refuse_unread(const Model *m, const Powers *powers, const DegreeOutcome *right)
{
    for (size_t i = 0; i < m->b * m->n; i++)
        if (powers->parameters[i] > WUNDRESKA_POWER_MAX)
            return refused();
    return *right;
}

/* ---- all ---- */

static DegreeOutcome answer_accepted(const Model *m, const Powers *powers, const DegreeOutcome *right, WrongDegree wrong)
{
    static Weights weights;
    DegreeOutcome outcome = *right;
    weigh(m, powers, &weights);
    switch (wrong) {
    case ROWS_LEFT_OUT: return leave_out_rows(m, &weights);
    case SEATED_COLUMNS_COUNTED: return count_seated_columns(m, &weights);
    case SMALLEST_TOTAL: return take_smallest(m, &weights);
    case ANY_TOTAL: return take_any(m, powers);
    case OTHER_ASSIGNMENT_SHOWN: return show_any(m, right->shown.degree);
    case LARGEST_POWERS_FIRST: return take_largest_first(m, powers);
    case CONSTANTS_AS_PARAMETERS: return take_constants_as_parameters(m, &weights);
    case BY_COLUMNS: return read_by_columns(m, powers, &weights);
    case ONE_MORE: outcome.shown.degree++; break;
    case ONE_LESS: outcome.shown.degree--; break;
    case LOW_BYTE_ALONE: outcome.shown.degree %= 256; break;
    default: break;
    }
    return outcome;
}

DegreeOutcome answer_wrongly(const Model *m, const Powers *powers, const DegreeOutcome *right, WrongDegree wrong)
{
    if (wrong == OPEN_ACCEPTED || wrong == SURPLUS_ACCEPTED)
        return accept_verdict(m, powers, right, wrong == OPEN_ACCEPTED ? WUNDRESKA_OPEN : WUNDRESKA_SURPLUS);
    if (wrong == ROW_ABOVE_ACCEPTED || wrong == COLUMN_ABOVE_ACCEPTED || wrong == PARAMETER_ABOVE_ACCEPTED)
        return right->refusal ? accept_above(m, powers, wrong) : *right;
    if (wrong == UNREAD_REFUSED)
        return refuse_unread(m, powers, right);
    return right->refusal ? *right : answer_accepted(m, powers, right, wrong);
}
