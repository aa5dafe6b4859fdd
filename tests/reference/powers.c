/* Weights of seats, by powers. */
#include "powers.h"

void weigh(const Model *m, const Powers *powers, Weights *weights)
{
    weights->anyway = 0;
    for (size_t r = 0; r < m->a; r++)
        weights->anyway += powers->rows[r];
    for (size_t c = 0; c < m->n; c++)
        weights->columns[c] = powers->columns[c];
    for (size_t i = 0; i < m->b * m->n; i++)
        weights->parameters[i] = powers->parameters[i];
}
