/* Judges answers: what the rules fix is compared with the truth, what they leave open is tested against the definitions. */
#include "reference.h"

/* The columns of the parameter rows, or a complaint where one is no legal seat. */
static const char *rows_complaint(const Model *m, const uint8_t *rows, Set *columns)
{
    *columns = 0;
    for (size_t r = 0; r < WUNDRESKA_ROWS_SIZE; r++) {
        if (rows[r] == WUNDRESKA_NO_COLUMN)
            continue;
        if (r >= m->b || rows[r] >= m->n || !has(m->parameters[r], rows[r]))
            return "a row's column has no parameter there";
        if (has(*columns, rows[r]))
            return "two rows have one column";
        *columns |= just(rows[r]);
    }
    return NULL;
}

/* That the assignment shown is legal and places exactly the placed set. */
static const char *assignment_complaint(const Model *m, const Answer *answer)
{
    Set served;
    const char *complaint = rows_complaint(m, answer->rows, &served);
    if (complaint)
        return complaint;
    if ((answer->constants & served) || (answer->constants | served) != answer->placed)
        return "the seats are not those of the placed set";
    if (constant_rank(m, all_below(m->a), answer->constants) != size_of_set(answer->constants))
        return "the constant side is dependent";
    return NULL;
}

/* The sum of the short set proves, with the assignment, that no rank is larger. */
const char *answer_complaint(const Model *m, const Answer *answer, Truth truth)
{
    if (answer->rank != truth.rank)
        return "rank";
    if (answer->verdict != verdict_on(truth.rank, m->n, m->a + m->b))
        return "verdict";
    if (answer->placed != truth.placed || size_of_set(truth.placed) != truth.rank)
        return "placed set";
    if (answer->short_set != truth.short_set)
        return "short set";
    if (sum_of(m, truth.short_set) != truth.rank)
        return "the short set's sum";
    return assignment_complaint(m, answer);
}

const char *mixed_answer_complaint(const Model *m, const MixedAnswer *answer, size_t rank, Truth form)
{
    if (answer->rank != rank || form.rank != rank + m->a)
        return "mixed rank";
    if (answer->verdict != verdict_on(rank, m->n, m->a))
        return "mixed verdict";
    if ((answer->rows & ~all_below(m->a)) || (answer->columns & ~all_below(m->n)))
        return "I or J has a stray bit";
    if (constant_rank(m, answer->rows, answer->columns) + largest_matching(m, ~answer->rows, ~answer->columns) != rank)
        return "I and J do not reach the rank";
    if (answer->short_set != form.short_set)
        return "short set of the layered form";
    return NULL;
}

const char *mixed_model_complaint(const Model *m, const MixedAnswer *answer)
{
    Model form = layered_form(m);
    return mixed_answer_complaint(m, answer, mixed_rank(m), layered_truth(&form));
}
