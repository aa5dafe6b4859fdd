/* Refusals of the question about a degree, and complaints about its answer. */
#include "degree.h"

#include "claim.h"
#include "reference.h"

#include <string.h>

Degree degree_in(const uint8_t *bytes)
{
    Degree shown = {.degree = bytes[WUNDRESKA_DEGREE] + 256u * bytes[WUNDRESKA_DEGREE + 1],
                    .constants = set_at(bytes + WUNDRESKA_DEGREE_CONSTANTS)};
    memcpy(shown.rows, bytes + WUNDRESKA_DEGREE_ROWS, sizeof shown.rows);
    return shown;
}

/* ---- refusals ---- */

int is_determined(const Model *m)
{
    return verdict_on(layered_truth(m).rank, m->n, m->a + m->b) == WUNDRESKA_DETERMINED;
}

static int all_fit(const uint8_t *powers, size_t count)
{
    for (size_t i = 0; i < count; i++)
        if (powers[i] > WUNDRESKA_POWER_MAX)
            return 0;
    return 1;
}

/* Where no parameter stands the power may be anything. */
int powers_fit(const Model *m, const Powers *powers)
{
    for (size_t r = 0; r < m->b; r++)
        for (size_t c = 0; c < m->n; c++)
            if (has(m->parameters[r], c) && powers->parameters[r * m->n + c] > WUNDRESKA_POWER_MAX)
                return 0;
    return all_fit(powers->rows, m->a) && all_fit(powers->columns, m->n);
}

uint32_t judge_degree(const Model *m, const Powers *powers)
{
    return powers_fit(m, powers) && is_determined(m) ? 0 : 16;
}

/* ---- answers ---- */

unsigned total_of(const Model *m, const Powers *powers, const Degree *shown)
{
    unsigned total = 0;
    for (size_t r = 0; r < m->a; r++)
        total += powers->rows[r];
    for (size_t c = 0; c < m->n; c++)
        total += has(shown->constants, c) ? powers->columns[c] : 0;
    for (size_t r = 0; r < m->b; r++)
        total += shown->rows[r] < m->n ? powers->parameters[r * m->n + shown->rows[r]] : 0;
    return total;
}

/* A legal assignment of all columns is one that a claim of the rank n can have. The empty set's sum is n. */
static unsigned faults_shown(const Model *m, const Degree *shown)
{
    Claim claim = {.rank = m->n, .constants = shown->constants};
    memcpy(claim.rows, shown->rows, sizeof claim.rows);
    return faults_of(m, &claim);
}

const char *degree_complaint(const Model *m, const Powers *powers, const Degree *shown, unsigned due)
{
    if (shown->degree != due)
        return "the degree";
    if (faults_shown(m, shown))
        return "the assignment shown is not a legal one of all columns";
    return total_of(m, powers, shown) == due ? NULL : "the assignment shown does not reach the degree";
}
