/* Sound models: the bench models, all that the definitions can be run on, and random ones of all sizes. */
#include "brute.h"
#include "compare.h"
#include "determinants.h"

#include <stdio.h>

/* ---- the bench models ---- */

enum { NOT_STATED = -1 };

static const struct {
    const char *name;
    Kind kind;
    unsigned verdict;
    size_t rank;
    int placed, short_set;
} bench_models[] = {
    {"s1", LAYERED, WUNDRESKA_OPEN, 0, 0, 1},
    {"s2", LAYERED, WUNDRESKA_DETERMINED, 2, 3, 0},
    {"s3", LAYERED, WUNDRESKA_OPEN, 1, 1, 3},
    {"s4", LAYERED, WUNDRESKA_OPEN, 4, 23, 12},
    {"s5", LAYERED, WUNDRESKA_OPEN, 1, NOT_STATED, NOT_STATED},
    {"s6", LAYERED, WUNDRESKA_DETERMINED, 2, NOT_STATED, NOT_STATED},
    {"s7", MIXED, WUNDRESKA_DETERMINED, 1, NOT_STATED, NOT_STATED},
    {"s8", MIXED, WUNDRESKA_OPEN, 1, NOT_STATED, NOT_STATED},
    {"s9", MIXED, WUNDRESKA_DETERMINED, 2, NOT_STATED, NOT_STATED},
    {"s10", LAYERED, WUNDRESKA_OPEN, 1, NOT_STATED, 2},
    {"s11", LAYERED, WUNDRESKA_SURPLUS, 1, NOT_STATED, 0},
    {"s12", MIXED, WUNDRESKA_OPEN, 6, NOT_STATED, NOT_STATED},
    {"example_3_4", LAYERED, WUNDRESKA_DETERMINED, 6, 63, 0},
    {"chilled_water_loop", LAYERED, WUNDRESKA_OPEN, 8, NOT_STATED, 192},
    {"chilled_water_loop_filled", LAYERED, WUNDRESKA_SURPLUS, 9, 511, 0},
    {"chilled_water_loop_square", LAYERED, WUNDRESKA_DETERMINED, 9, 511, 0},
    {"chilled_water_loop_numbered", LAYERED, WUNDRESKA_DETERMINED, 9, 511, 0},
    {"two_meters", MIXED, WUNDRESKA_SURPLUS, 1, NOT_STATED, NOT_STATED},
    {"milk_preheater", LAYERED, WUNDRESKA_OPEN, 7, NOT_STATED, 254},
    {"heat_recovery", LAYERED, WUNDRESKA_DETERMINED, 96, NOT_STATED, 0},
    {"heat_recovery_open", LAYERED, WUNDRESKA_OPEN, 95, NOT_STATED, NOT_STATED},
};

uint32_t load_model(const char *folder, const char *name, Model *m)
{
    char path[512];
    static uint8_t file[WUNDRESKA_FILE_MAX + 1];
    snprintf(path, sizeof path, "%s/%s.model", folder, name);
    FILE *in = fopen(path, "rb");
    size_t length = in ? fread(file, 1, sizeof file, in) : 0;
    if (in)
        fclose(in);
    return judge_file(file, length, m);
}

static int stated_and_other(int stated, Set found)
{
    return stated != NOT_STATED && (Set)stated != found;
}

static const char *bench_complaint(const char *folder, size_t i, Model *m)
{
    if (load_model(folder, bench_models[i].name, m) != 0)
        return "the file is not a model";
    if (bench_models[i].kind == MIXED) {
        static uint8_t file[WUNDRESKA_FILE_MAX];
        Model form = layered_form(m);
        size_t rank = mixed_rank(m);
        if (bench_models[i].rank != rank || bench_models[i].verdict != verdict_on(rank, m->n, m->a))
            return "the reference differs from the paper";
        const char *complaint = mixed_complaint(m, rank, layered_truth(&form));
        return complaint ? complaint : file_complaint(&mixed_question, file, write_file(m, file), WUNDRESKA_MIXED_SIZE, m);
    }
    Truth truth = layered_truth(m);
    if (bench_models[i].rank != truth.rank || bench_models[i].verdict != verdict_on(truth.rank, m->n, m->a + m->b) ||
        stated_and_other(bench_models[i].placed, truth.placed) || stated_and_other(bench_models[i].short_set, truth.short_set))
        return "the reference differs from the paper";
    return layered_complaint(m, truth);
}

/* The same whole numbers, from minus to plus half the prime, at another prime. */
static void change_prime(Model *m, uint32_t p)
{
    for (size_t i = 0; i < m->a * m->n; i++) {
        int64_t value = m->constants[i] > m->p / 2 ? (int64_t)m->constants[i] - m->p : m->constants[i];
        m->constants[i] = (value % p + p) % p;
    }
    m->p = p;
}

void compare_bench_models(const char *folder)
{
    begin_category("bench models, S12 at every prime");
    for (size_t i = 0; i < COUNT(bench_models); i++) {
        Model m = {0};
        count_case(bench_complaint(folder, i, &m), &m);
    }
    for (size_t i = 0; i < COUNT(all_primes); i++) {
        Model m = {0};
        load_model(folder, "s12", &m);
        change_prime(&m, all_primes[i]);
        Model form = layered_form(&m);
        count_case(mixed_complaint(&m, 6, layered_truth(&form)), &m);
    }
}

/* ---- against the definitions ---- */

static const uint32_t small_primes[] = {2, 3, 5};

static const char *definition_complaint(const Model *m)
{
    Enumerated e = enumerate_layered(m);
    Truth truth = layered_truth(m);
    if (truth.rank != e.rank || truth.placed != e.placed || truth.short_set != e.short_set || !e.short_is_least)
        return "the reference differs from the definitions";
    if (verdict_on(e.rank, m->n, m->a + m->b) != e.verdict)
        return "the reference's verdict is not that of the assignments";
    if (largest_order(LAYERED, m) != e.rank)
        return "the largest order by determinants is not the rank";
    for (Set set = 0; set <= all_below(m->n); set++)
        if (e.sums[set] < e.rank || e.sums[set] != sum_of(m, set))
            return "the sum of a column set";
    return layered_complaint(m, truth);
}

static void compare_every_model(uint32_t p, size_t columns, size_t rows)
{
    for (size_t n = 1; n <= columns; n++)
        for (size_t a = 0; a <= rows; a++)
            for (size_t b = 0; b <= rows; b++) {
                Model m = {.p = p, .n = n, .a = a, .b = b};
                do
                    count_case(definition_complaint(&m), &m);
                while (next_filling(&m));
            }
}

static const char *mixed_definition_complaint(const Model *m)
{
    Model form = layered_form(m);
    Enumerated e = enumerate_layered(&form);
    Truth truth = layered_truth(&form);
    EnumeratedMixed mixed = enumerate_mixed(m);
    if (mixed_rank(m) != mixed.rank || truth.rank != e.rank || truth.short_set != e.short_set)
        return "the reference differs from the definitions";
    if (verdict_on(mixed.rank, m->n, m->a) != mixed.verdict)
        return "the reference's verdict is not that of the rows and columns";
    if (largest_order(MIXED, m) != mixed.rank)
        return "the largest order by determinants is not the rank";
    return mixed_complaint(m, mixed.rank, truth);
}

void compare_with_definitions(void)
{
    begin_category("every model up to 3 columns, 2 + 2 rows at p 2, and 2 columns at p 3, by the definitions");
    compare_every_model(2, 3, 2);
    compare_every_model(3, 2, 2);
    begin_category("layered models up to 6 columns, by the definitions");
    for (int i = 0; i < 6000; i++) {
        Model m = draw_model(small_primes, COUNT(small_primes), BRUTE_COLUMNS, 4);
        count_case(definition_complaint(&m), &m);
    }
    begin_category("mixed models up to 6 columns of the layered form, by the definitions");
    for (int i = 0; i < 4000; i++) {
        Model m = draw_mixed(small_primes, COUNT(small_primes), BRUTE_COLUMNS);
        count_case(mixed_definition_complaint(&m), &m);
    }
}

/* ---- models of all sizes ---- */

static void compare_layered(int models, size_t columns, size_t rows)
{
    for (int i = 0; i < models; i++) {
        Model m = draw_model(all_primes, COUNT(all_primes), columns, rows);
        count_case(layered_complaint(&m, layered_truth(&m)), &m);
    }
}

static void compare_mixed(int models, size_t limit)
{
    for (int i = 0; i < models; i++) {
        Model m = draw_mixed(all_primes, COUNT(all_primes), limit), form = layered_form(&m);
        count_case(mixed_complaint(&m, mixed_rank(&m), layered_truth(&form)), &m);
    }
}

void compare_random_models(void)
{
    begin_category("layered models up to 12 columns and rows");
    compare_layered(20000, 12, 12);
    begin_category("layered models of all sizes");
    compare_layered(6000, WUNDRESKA_COLUMNS_MAX, WUNDRESKA_ROWS_MAX);
    begin_category("mixed models up to 12 columns of the layered form");
    compare_mixed(10000, 12);
    begin_category("mixed models of all sizes");
    compare_mixed(4000, WUNDRESKA_COLUMNS_MAX);
}
