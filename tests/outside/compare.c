/* Compares the compiled library with the reference and with the definitions, on models and files from a fixed seed.
 *
 * Run: compare MODELS [FILES], where MODELS is the folder of the bench models. Prints the cases of each category and, as its last
 * line, 'N passed, M failed' over all cases. Every file goes to FILES too, with the number of its refusal. */
#include "compare.h"
#include "numbers.h"

#include <stdio.h>

static int compare_all(const char *models)
{
    compare_bench_models(models);
    compare_edges();
    compare_with_definitions();
    compare_random_models();
    compare_files();
    compare_damaged_files();
    compare_wrong_contents();
    compare_primes();
    compare_sizes();
    compare_mixed_sizes();
    compare_mixed_files();
    compare_spoilt_models();
    compare_ranks();
    compare_rows();
    compare_wide();
    compare_numbers();
    compare_multipliers();
    compare_columns();
    compare_reasons(models);
    compare_placed();
    compare_claims(models);
    compare_sent();
    compare_blocks(models);
    compare_unlisted();
    compare_degrees(models);
    compare_powers(models);
    compare_open(models);
    compare_held();
    return end_tally() > 0;
}

int main(int count, char **words)
{
    if (count < 2 || count > 3) {
        fprintf(stderr, "usage: compare MODELS [FILES]\n");
        return 2;
    }
    if (count == 3 && !write_numbers_to(words[2])) {
        perror(words[2]);
        return 2;
    }
    return compare_all(words[1]);
}
