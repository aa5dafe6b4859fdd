/* What the sets whose sum is the rank say of each two columns, by ranks of changed models: no exchange graph, no assignment. */
#ifndef DOUBLED_H
#define DOUBLED_H

#include "block.h"

Brought brought_by_doubling(const Model *model);

#endif
