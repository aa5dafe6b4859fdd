/* The tally of a comparison: every category with its cases, the first failures of each with their models. */
#include "tally.h"

#include <stdio.h>

enum { SHOWN = 3 };

static struct {
    const char *name;
    unsigned long cases, failures, passed_before, failed_before;
} tally;

static void end_category(void)
{
    if (tally.name)
        printf("%8lu  %s\n", tally.cases, tally.name);
    fflush(stdout);
    tally.failed_before += tally.failures;
    tally.passed_before += tally.cases - tally.failures;
    tally.cases = tally.failures = 0;
}

void begin_category(const char *name)
{
    end_category();
    tally.name = name;
}

void count_case(const char *complaint, const Model *m)
{
    tally.cases++;
    if (complaint && tally.failures++ < SHOWN)
        printf("FAILED %s, case %lu (p %u, n %zu, a %zu, b %zu): %s\n", tally.name, tally.cases, (unsigned)m->p, m->n, m->a,
               m->b, complaint);
}

void print_count(unsigned long count, const char *what)
{
    begin_category(NULL);
    printf("%8lu  %s\n", count, what);
}

unsigned long end_tally(void)
{
    end_category();
    printf("%lu passed, %lu failed\n", tally.passed_before, tally.failed_before);
    return tally.failed_before;
}
