/* Every column on the constant side, or on a parameter row of its own that has a parameter there. */
#include "every.h"

#include "claim.h"

#include <limits.h>

enum { SETS = 1 << EVERY_COLUMNS };

typedef struct {
    const Model *model;
    const Weights *weights;
    uint8_t independent[SETS]; /* by column set, of its constants */
    Totals totals;
} Walk;

static void note(Totals *totals, int total)
{
    totals->count++;
    totals->largest = total > totals->largest ? total : totals->largest;
    totals->smallest = total < totals->smallest ? total : totals->smallest;
}

static void seat_from(Walk *w, size_t x, Set side, Set taken, int total)
{
    const Model *m = w->model;
    if (x == m->n) {
        if (w->independent[side])
            note(&w->totals, total);
        return;
    }
    seat_from(w, x + 1, side | just(x), taken, total + w->weights->columns[x]);
    for (size_t r = 0; r < m->b; r++)
        if (has(m->parameters[r], x) && !has(taken, r))
            seat_from(w, x + 1, side, taken | just(r), total + w->weights->parameters[r * m->n + x]);
}

Totals totals_of_all(const Model *m, const Weights *weights)
{
    Walk w = {.model = m, .weights = weights, .totals = {.largest = INT_MIN, .smallest = INT_MAX}};
    for (Set set = 0; set <= all_below(m->n); set++)
        w.independent[set] = rank_of_columns(m, set) == size_of_set(set);
    seat_from(&w, 0, 0, 0, weights->anyway);
    return w.totals;
}
