/* What blocks a column that is not placed, in sound models: the calls compared with the reference, in files and handed over, and the
 * reference with the definition, with the two properties that make a set a reason, and with what was planted. */
#include "brute.h"
#include "multipliers.h"
#include "planted.h"
#include "why.h"

#include <string.h>

/* At least so many columns are to be compared, and of each kind so many planted sets to be what blocks a column. */
enum { ENOUGH = 100000, PLANTED_FOUND = 1000 };

/* ---- all reasons of a model ---- */

/* The reasons of all columns make the short set. */
static const char *reasons_complaint(const Model *m, const Reasons *found)
{
    Truth truth = layered_truth(m);
    Set all = 0;
    for (size_t x = 0; x < m->n; x++)
        all |= found->sets[x];
    if (found->placed != truth.placed)
        return "the reference has two placed sets";
    return all == truth.short_set ? NULL : "the reasons do not make the short set";
}

/* ---- bench models ---- */

/* The reason is due with one multiplier at most. */
static const struct {
    const char *name;
    size_t column;
    Set set;
    unsigned given;
    size_t other;
    uint16_t multiplier;
} bench_reasons[] = {
    {"s1", 0, 1, 1, 0, 0},
    {"s3", 1, 3, 1, 0, 1},
    {"s4", 3, 12, 1, 2, 1},
    {"s5", 1, 3, 1, 0, 2},
    {"s10", 1, 2, 1, 0, 0},
    {"chilled_water_loop", 7, 192, 1, 6, 1020},
    {"milk_preheater", 7, 254, 0, 0, 0},
    {"heat_recovery_open", 95, ((Set)1 << 96) - 1, 0, 0, 0},
};

static void try_bench_model(const char *folder, size_t i)
{
    Model m = {0};
    if (load_model(folder, bench_reasons[i].name, &m) != 0) {
        count_case("the file is not a model", &m);
        return;
    }
    Reasons found = find_reasons(&m);
    Reason reason = reason_with(&m, found.sets[bench_reasons[i].column], bench_reasons[i].column);
    Reason due = {.set = bench_reasons[i].set, .given = bench_reasons[i].given};
    due.multipliers[bench_reasons[i].other] = bench_reasons[i].multiplier;
    count_case(same_reason(&reason, &due) ? NULL : "the reference differs from what is due", &m);
    try_all_columns(&m, &found);
}

static void compare_bench_reasons(const char *folder)
{
    begin_category("reasons in bench models, with the numbers that are due");
    for (size_t i = 0; i < COUNT(bench_reasons); i++)
        try_bench_model(folder, i);
}

/* ---- against the definition ---- */

static const char *definition_complaint(const Model *m, const Reasons *found)
{
    Enumerated e = enumerate_layered(m);
    if (!e.reasons_are_single)
        return "the definition gives no reason, or two";
    if (found->placed != e.placed || memcmp(found->sets, e.reasons, sizeof e.reasons))
        return "the reference differs from the definition";
    for (size_t x = 0; x < m->n; x++) {
        Set others = e.reasons[x] & ~just(x);
        if (has(e.placed, x) || rows_touching(m, e.reasons[x]) > 0)
            continue;
        Multipliers enumerated = enumerate_multipliers(m, others, x), multipliers = find_multipliers(m, others, x);
        if (enumerated.outcome != WUNDRESKA_DEPENDS || !same_multipliers(&enumerated, &multipliers))
            return "the reference's multipliers differ from the definition";
    }
    return NULL;
}

static void try_enumerated(const Model *m)
{
    Reasons found = find_reasons(m);
    const char *complaint = definition_complaint(m, &found);
    count_case(complaint ? complaint : reasons_complaint(m, &found), m);
    try_all_columns(m, &found);
}

static void try_every_model(uint32_t p, size_t columns, size_t rows)
{
    for (size_t n = 1; n <= columns; n++)
        for (size_t a = 0; a <= rows; a++)
            for (size_t b = 0; b <= rows; b++) {
                Model m = {.p = p, .n = n, .a = a, .b = b};
                do
                    try_enumerated(&m);
                while (next_filling(&m));
            }
}

static void compare_by_definition(void)
{
    static const uint32_t small_primes[] = {2, 3, 5};
    begin_category("reasons in every model up to 3 columns, 2 + 2 rows at p 2, and 2 columns at p 3, by the definition");
    try_every_model(2, 3, 2);
    try_every_model(3, 2, 2);
    begin_category("reasons in models up to 6 columns, by the definition");
    for (int i = 0; i < 16000; i++) {
        Model m = numbered_or_not(draw_model(small_primes, COUNT(small_primes), BRUTE_COLUMNS, 4));
        try_enumerated(&m);
    }
}

/* ---- reasons that are planted ---- */

enum { SETS_PLANTED = 3 };

typedef struct {
    Model model;
    size_t count;
    Set sets[SETS_PLANTED]; /* of columns that block one another, no column in two */
} Planted;

static size_t last_of(Set set)
{
    size_t last = 0;
    for (size_t c = 0; c < WUNDRESKA_COLUMNS_MAX; c++)
        if (has(set, c))
            last = c;
    return last;
}

/* Up to the most, and often all. */
static size_t draw_up_to(size_t most)
{
    return one_in(4) ? most : most > 0 ? 1 + draw(most) : 0;
}

/* Plants a set at the first columns of an order that has so many; how many it takes. */
static size_t plant_set(Planted *t, const size_t *order, size_t count, int by_constants, int by_parameters)
{
    Model *m = &t->model;
    size_t constants = by_constants ? draw_up_to(smaller(m->a, (count - 1) / (1 + by_parameters))) : 0;
    size_t parameters = by_parameters ? draw_up_to(smaller(m->b, count - 1 - constants)) : 0;
    size_t taken = constants + parameters + 1;
    plant_blocking(m, order, constants, parameters);
    t->sets[t->count] = 0;
    for (size_t i = 0; i < taken; i++)
        t->sets[t->count] |= just(order[i]);
    t->count++;
    return taken;
}

static const struct {
    const char *category;
    int by_constants, by_parameters;
    size_t sets;
} plants[] = {
    {"reasons that are a column of zeros", 0, 0, 1},
    {"reasons in constants alone", 1, 0, 1},
    {"reasons in parameter rows alone", 0, 1, 1},
    {"reasons in constants and parameter rows", 1, 1, 1},
    {"reasons in constants and parameter rows, several in a model", 1, 1, SETS_PLANTED},
};

static void plant_sets(Planted *t, size_t kind)
{
    size_t order[WUNDRESKA_COLUMNS_MAX], taken = 0, n = t->model.n;
    shuffle(order, n);
    for (size_t i = 0; i < plants[kind].sets && taken < n; i++) {
        size_t left = i + 1 == plants[kind].sets ? n - taken : 1 + (n - taken - 1) / 2;
        taken += plant_set(t, order + taken, left, plants[kind].by_constants, plants[kind].by_parameters);
    }
}

/* How many planted sets were what blocks their last column, of the present kind. */
static size_t planted_found;

/* Where all of a planted set is placed but its last column, it is what blocks that one. */
static const char *planted_complaint(const Planted *t, const Reasons *found)
{
    for (size_t i = 0; i < t->count; i++) {
        size_t last = last_of(t->sets[i]);
        if ((t->sets[i] & ~found->placed) != just(last))
            continue;
        if (found->sets[last] != t->sets[i])
            return "the reference's reason is not the planted one";
        planted_found++;
    }
    return NULL;
}

/* The last column of each planted set, and about one in so many others that are not placed. */
static void try_planted(size_t kind, Model model, uint64_t rare)
{
    static Planted t;
    Set chosen = 0;
    t = (Planted){.model = model};
    plant_sets(&t, kind);
    if (one_in(2))
        stir(&t.model);
    if (model.numbered)
        draw_numbers(&t.model);
    for (size_t i = 0; i < t.count; i++)
        chosen |= just(last_of(t.sets[i]));
    Reasons found = find_reasons(&t.model);
    count_case(planted_complaint(&t, &found), &t.model);
    try_columns(&t.model, &found, chosen, rare);
}

static void compare_planted_reasons(void)
{
    static const Model none;
    for (size_t kind = 0; kind < COUNT(plants); kind++) {
        begin_category(plants[kind].category);
        planted_found = 0;
        for (int i = 0; i < 4000; i++)
            try_planted(kind, draw_any(SMALL, SMALL), 1);
        for (int i = 0; i < 400; i++)
            try_planted(kind, draw_sized(draw_wide(), draw(SMALL), draw(SMALL)), FEW);
        for (int i = 0; i < 60; i++)
            try_planted(kind, draw_sized(draw_edge(), draw_edge(), draw(SMALL)), FEW);
        for (int i = 0; i < 60; i++)
            try_planted(kind, draw_sized(draw_edge(), draw(SMALL), draw_edge()), FEW);
        for (int i = 0; i < 30; i++)
            try_planted(kind, draw_any(WUNDRESKA_COLUMNS_MAX, WUNDRESKA_ROWS_MAX), FEW);
        count_case(planted_found >= PLANTED_FOUND ? NULL : "too few planted sets were reasons", &none);
    }
}

/* ---- models drawn at random, and every pair of columns ---- */

static void try_drawn(Model m)
{
    Reasons found = find_reasons(&m);
    count_case(reasons_complaint(&m, &found), &m);
    try_all_columns(&m, &found);
}

/* More columns than rows in all, and few places empty: most reasons have almost as many columns as there are rows. */
static Model draw_dense(void)
{
    size_t n = draw_wide(), rows = n / 2 + draw(n / 2), b = draw(rows + 1);
    Model m = {.p = all_primes[draw(COUNT(all_primes))], .n = n, .a = rows - b, .b = b};
    uint64_t spread = 1 + draw(FEW);
    for (size_t i = 0; i < m.a * m.n; i++)
        m.constants[i] = draw(m.p);
    for (size_t i = 0; i < m.b * m.n; i++)
        m.parameters[i / m.n] |= one_in(spread) ? just(i % m.n) : 0;
    return numbered_or_not(m);
}

/* Two columns in one row, of constants or of parameters, and all others empty. */
static void try_pair(size_t first, size_t second)
{
    int constant = one_in(2);
    Model m = {.p = all_primes[draw(COUNT(all_primes))], .n = WUNDRESKA_COLUMNS_MAX, .a = constant, .b = !constant};
    if (constant) {
        m.constants[first] = 1 + draw(m.p - 1);
        m.constants[second] = 1 + draw(m.p - 1);
    } else
        m.parameters[0] = just(first) | just(second);
    Reasons found = find_reasons(&m);
    int due = found.placed == just(first) && found.sets[second] == (just(first) | just(second));
    count_case(due ? NULL : "the reference's reason is not the pair", &m);
    try_columns(&m, &found, just(second), WUNDRESKA_COLUMNS_MAX);
}

static void compare_drawn_reasons(void)
{
    begin_category("reasons in models drawn at random, up to 12 columns and rows");
    for (int i = 0; i < 12000; i++)
        try_drawn(draw_any(SMALL, SMALL));
    begin_category("reasons in models drawn at random, of all sizes");
    for (int i = 0; i < 150; i++)
        try_drawn(draw_any(WUNDRESKA_COLUMNS_MAX, WUNDRESKA_ROWS_MAX));
    begin_category("reasons in dense models, on both sides of a word's columns and with the most");
    for (int i = 0; i < 150; i++)
        try_drawn(draw_dense());
    begin_category("every pair of columns that block one another, with the most columns");
    for (size_t second = 1; second < WUNDRESKA_COLUMNS_MAX; second++)
        for (size_t first = 0; first < second; first++)
            try_pair(first, second);
}

void compare_reasons(const char *folder)
{
    static const Model none;
    compare_bench_reasons(folder);
    compare_by_definition();
    compare_planted_reasons();
    compare_drawn_reasons();
    count_case(columns_compared() >= ENOUGH ? NULL : "too few columns were compared", &none);
    print_count(columns_compared(), "columns that are not placed, in these models, each by both calls");
}
