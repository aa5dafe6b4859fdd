/* Blocks of sound models: the calls compared with the reference, in files and handed over, and the reference with the definition, by
 * the sums of all column sets, and with the ranks of changed models. It is counted how many models tell a listing with a fault. */
#include "blocks.h"
#include "brute.h"
#include "doubled.h"
#include "sums.h"

#include <stdio.h>

/* At least so many models are to be compared by the sums of all column sets, by ranks, and of more columns than sums are for. Of small
 * and of larger ones, so many are to have several blocks that no other rule puts first or last, and so many to tell each fault. */
enum {
    DEFINED_ENOUGH = 120000,
    RANKED_ENOUGH = 120000,
    LARGER_ENOUGH = 20000,
    SEVERAL = 3,
    SEVERAL_ENOUGH = 10000,
    TELLING_ENOUGH = 2000
};

/* ---- what the models compared were ---- */

/* Of the small ones and of the larger ones. */
static struct {
    unsigned long models, defined, ranked, several, telling[WRONG_LISTINGS], most;
} seen[2];

static size_t blocks_between(const Graph *graph, const Blocks *blocks)
{
    return blocks->count - (graph->first != 0) - (graph->last != 0);
}

/* About the reference's own listing too, which must be the one that has no fault. */
static const char *note_model(const Graph *graph, const Blocks *blocks)
{
    int larger = graph->n > SUMS_COLUMNS;
    Blocks right = list_wrongly(graph, WRONG_LISTINGS);
    seen[larger].models++;
    seen[larger].several += blocks_between(graph, blocks) >= SEVERAL;
    seen[larger].most = blocks->count > seen[larger].most ? blocks->count : seen[larger].most;
    for (int wrong = 0; wrong < WRONG_LISTINGS; wrong++) {
        Blocks listed = list_wrongly(graph, wrong);
        seen[larger].telling[wrong] += !same_blocks(&listed, blocks);
    }
    return same_blocks(&right, blocks) ? NULL : "the reference has two listings";
}

/* ---- the reference against the definition and against ranks ---- */

/* The only one, of all orders of its blocks, that keeps the rules; where there are many blocks, in some models alone. */
static const char *order_complaint(const Brought *brought, const Blocks *blocks)
{
    enum { MANY = 4, MOST = 7, RARE = 60 };
    if (blocks->count > MOST || (blocks->count > MANY && !one_in(RARE)))
        return NULL;
    return orders_that_keep_rules(brought, blocks) == 1 ? NULL : "not one order of the blocks keeps the rules";
}

static const char *brought_complaint(const Brought *brought, const Blocks *blocks)
{
    Blocks listed = list_blocks(brought);
    const char *complaint = blocks_complaint(brought, blocks);
    return complaint || same_blocks(&listed, blocks) ? complaint : "the listing is not that of the rules";
}

static const char *sums_complaint(const Model *m, const Blocks *blocks)
{
    static size_t sums[SUMS];
    find_sums(m, sums);
    Brought brought = brought_by_sums(m->n, sums);
    const char *complaint = brought_complaint(&brought, blocks);
    seen[0].defined++;
    return complaint ? complaint : order_complaint(&brought, blocks);
}

static const char *ranks_complaint(const Model *m, const Blocks *blocks)
{
    Brought brought = brought_by_doubling(m);
    seen[m->n > SUMS_COLUMNS].ranked++;
    return brought_complaint(&brought, blocks);
}

/* Ranks take long in large models, so they are asked for in one of so many. */
static void try_model(const Model *m, uint64_t ranked_rare)
{
    Graph graph = graph_of(m);
    Blocks blocks = blocks_of_graph(&graph);
    const char *complaint = note_model(&graph, &blocks);
    if (!complaint && m->n <= SUMS_COLUMNS)
        complaint = sums_complaint(m, &blocks);
    if (!complaint && one_in(ranked_rare))
        complaint = ranks_complaint(m, &blocks);
    count_case(complaint, m);
    try_blocks(m, &blocks);
}

static void try_drawn(Model m)
{
    try_model(&m, 1);
}

/* ---- models stated with their blocks ---- */

static void try_stated(const Model *m, const uint8_t *numbers, size_t count)
{
    Graph graph = graph_of(m);
    Blocks blocks = blocks_of_graph(&graph), stated = no_blocks();
    stated.count = count;
    for (size_t c = 0; c < m->n; c++)
        stated.numbers[c] = numbers[c];
    count_case(same_blocks(&blocks, &stated) ? NULL : "the reference differs from what is stated", m);
    try_model(m, 1);
    try_blocks(m, &stated);
}

/* The number of each column's block. */
static const struct {
    const char *name;
    size_t count;
    uint8_t numbers[SUMS_COLUMNS];
} stated[] = {
    {"s1", 1, {0}},
    {"s2", 2, {0, 1}},
    {"s3", 1, {0, 0}},
    {"s4", 2, {0, 0, 1, 1, 0}},
    {"s5", 1, {0, 0}},
    {"s6", 2, {0, 1}},
    {"s10", 2, {0, 1}},
    {"s11", 1, {0}},
};

/* Document 001, Example 3.1: {0, 4}, {5}, {1, 3, 6}, {2}. Its blocks stand there from the last to the first. */
static const Model example = {.p = 1021, .n = 7, .a = 3, .b = 4,
                              .constants = {1020, 0, 1, 1020, 0, 1, 1, 1019, 0, 1, 1019, 0, 0, 2, 2, 0, 0, 1, 1, 1, 1020},
                              .parameters = {1 | 32, 1 | 16, 2 | 8 | 16, 2 | 8 | 16 | 64}};
static const uint8_t example_numbers[] = {0, 2, 3, 2, 0, 1, 2};

static void compare_stated(const char *folder)
{
    begin_category("blocks of bench models and of document 001's Example 3.1, with the numbers that are due");
    try_stated(&example, example_numbers, 4);
    for (size_t i = 0; i < COUNT(stated); i++) {
        Model m = {0};
        if (load_model(folder, stated[i].name, &m) == 0)
            try_stated(&m, stated[i].numbers, stated[i].count);
        else
            count_case("the file is not a model", &m);
    }
}

static void compare_bench(const char *folder)
{
    static const char *const names[] = {"s7", "s8", "s9", "s12", "chilled_water_loop", "chilled_water_loop_filled",
                                        "chilled_water_loop_numbered", "chilled_water_loop_square", "milk_preheater", "two_meters",
                                        "heat_recovery", "heat_recovery_open"};
    begin_category("blocks of the other models in files");
    for (size_t i = 0; i < COUNT(names); i++) {
        Model m = {0};
        count_case(load_model(folder, names[i], &m) == 0 ? NULL : "the file is not a model", &m);
        try_model(&m, 1);
    }
}

/* ---- against the definition, run as it stands ---- */

/* The sums by every assignment and coefficient vector. */
static void try_enumerated(const Model *m)
{
    static size_t sums[SUMS];
    Enumerated e = enumerate_layered(m);
    Brought defined = brought_by_sums(m->n, e.sums);
    find_sums(m, sums);
    Brought brought = brought_by_sums(m->n, sums);
    count_case(same_brought(&defined, &brought) ? NULL : "the sums differ from the definition", m);
    try_model(m, 1);
}

static void try_every_model(uint32_t p, size_t columns, size_t rows)
{
    for (size_t n = 1; n <= columns; n++)
        for (size_t a = 0; a <= rows; a++)
            for (size_t b = 0; b <= rows; b++) {
                Model m = {.p = p, .n = n, .a = a, .b = b};
                do
                    try_enumerated(&m);
                while (next_filling(&m));
            }
}

static void compare_by_definition(void)
{
    static const uint32_t small_primes[] = {2, 3, 5};
    begin_category("blocks of every model up to 3 columns, 2 + 2 rows at p 2, and 2 columns at p 3, by the definition");
    try_every_model(2, 3, 2);
    try_every_model(3, 2, 2);
    begin_category("blocks of models up to 6 columns, by the definition");
    for (int i = 0; i < 5000; i++) {
        Model m = numbered_or_not(draw_model(small_primes, COUNT(small_primes), BRUTE_COLUMNS, 4));
        try_enumerated(&m);
    }
}

/* ---- small models ---- */

static size_t draw_few_columns(void)
{
    return one_in(4) ? SUMS_COLUMNS : 1 + draw(SUMS_COLUMNS);
}

/* Every row has the columns from one on, or up to one: chains of rows within rows, of constants or of parameters. */
static Model draw_stairs(size_t n)
{
    int upper = one_in(2), constant = one_in(2);
    Model m = {.p = all_primes[draw(COUNT(all_primes))], .n = n, .a = constant ? n : 0, .b = constant ? 0 : n};
    uint64_t spread = 1 + draw(3);
    for (size_t r = 0; r < n; r++)
        for (size_t c = 0; c < n; c++) {
            if (c != r && ((upper ? c < r : c > r) || !one_in(spread)))
                continue;
            if (constant)
                m.constants[r * n + c] = 1 + draw(m.p - 1);
            else
                m.parameters[r] |= just(c);
        }
    return numbered_or_not(m);
}

/* No rows at all, or rows that are empty. */
static Model draw_empty(size_t n)
{
    return (Model){.p = all_primes[draw(COUNT(all_primes))], .n = n, .a = one_in(2) ? draw(3) : 0, .b = one_in(2) ? draw(3) : 0};
}

/* A cascade with a place changed: most keep their blocks or have two of them joined. */
static Model draw_changed(size_t n)
{
    Model m = draw_cascade(n);
    size_t c = draw(n);
    m.numbered = 0;
    if (m.b > 0 && (m.a == 0 || one_in(2)))
        m.parameters[draw(m.b)] ^= just(c);
    else if (m.a > 0)
        m.constants[draw(m.a) * n + c] = draw(m.p);
    return m;
}

static void compare_small(void)
{
    begin_category("blocks of models up to 10 columns, drawn at random");
    for (int i = 0; i < 45000; i++)
        try_drawn(draw_any(SUMS_COLUMNS, SUMS_COLUMNS));
    begin_category("blocks of models up to 10 columns, of a rank that is drawn");
    for (int i = 0; i < 15000; i++)
        try_drawn(draw_sized(draw_few_columns(), draw(SUMS_COLUMNS), draw(SUMS_COLUMNS)));
    begin_category("blocks of cascades up to 10 columns");
    for (int i = 0; i < 45000; i++)
        try_drawn(draw_cascade(draw_few_columns()));
    begin_category("blocks of cascades up to 10 columns, with a place changed");
    for (int i = 0; i < 15000; i++)
        try_drawn(draw_changed(draw_few_columns()));
    begin_category("blocks of stairs up to 10 columns, upper and lower ones");
    for (int i = 0; i < 5000; i++)
        try_drawn(draw_stairs(draw_few_columns()));
    begin_category("blocks of models without rows, or with empty ones, for every n");
    for (size_t n = 1; n <= WUNDRESKA_COLUMNS_MAX; n++)
        try_drawn(draw_empty(n));
}

/* ---- larger models ---- */

enum { MIDDLE = 32 };

static void try_larger(Model m)
{
    try_model(&m, m.n <= MIDDLE ? 4 : 100);
}

static size_t draw_middle(void)
{
    return SUMS_COLUMNS + 1 + draw(MIDDLE - SUMS_COLUMNS);
}

static size_t draw_many(void)
{
    return one_in(3) ? draw_edge() : MIDDLE + 1 + draw(WUNDRESKA_COLUMNS_MAX - MIDDLE);
}

static void compare_larger(void)
{
    begin_category("blocks of cascades of 11 to 32 columns");
    for (int i = 0; i < 10000; i++)
        try_larger(draw_cascade(draw_middle()));
    begin_category("blocks of cascades of 33 to 96 columns");
    for (int i = 0; i < 9000; i++)
        try_larger(draw_cascade(draw_many()));
    begin_category("blocks of cascades of 33 to 96 columns, with a place changed");
    for (int i = 0; i < 3000; i++)
        try_larger(draw_changed(draw_many()));
    begin_category("blocks of stairs of 11 to 96 columns, upper and lower ones");
    for (int i = 0; i < 1500; i++)
        try_larger(draw_stairs(one_in(2) ? draw_middle() : draw_many()));
    begin_category("blocks of models of 11 to 96 columns, drawn at random");
    for (int i = 0; i < 3000; i++)
        try_larger(draw_sized(one_in(2) ? draw_middle() : draw_many(), draw(MIDDLE), draw(MIDDLE)));
    for (int i = 0; i < 1000; i++)
        try_larger(draw_any(WUNDRESKA_COLUMNS_MAX, WUNDRESKA_ROWS_MAX));
}

/* ---- what all models were ---- */

static void require(unsigned long count, unsigned long least, const char *complaint)
{
    static const Model none;
    count_case(count >= least ? NULL : complaint, &none);
}

static const char *const told[WRONG_LISTINGS] = {
    [JOINED_ONE_WAY] = "models tell a listing whose blocks are joined by arcs one way",
    [TURNED] = "models tell a listing that is turned",
    [LARGEST_FIRST] = "models tell a listing by the largest smallest column",
    [BY_LARGEST_COLUMN] = "models tell a listing by the smallest largest column",
    [IN_LAYERS] = "models tell a listing in layers",
    [BY_COLUMN_ALONE] = "models tell a listing by columns alone",
    [FIRST_PARTED] = "models tell a listing whose first block is parted",
    [FIRST_LATER] = "models tell a listing whose first block is not first",
    [LAST_PARTED] = "models tell a listing whose short set is parted",
    [LAST_EARLIER] = "models tell a listing whose short set is not last",
};

static void require_all(void)
{
    begin_category("how many models were compared, and of which kinds");
    require(seen[0].defined, DEFINED_ENOUGH, "too few models were compared by the definition");
    require(seen[0].ranked + seen[1].ranked, RANKED_ENOUGH, "too few models were compared by ranks");
    require(seen[1].models, LARGER_ENOUGH, "too few larger models were compared");
    require(seen[1].most, WUNDRESKA_COLUMNS_MAX, "no model has as many blocks as there may be");
    for (int larger = 0; larger < 2; larger++) {
        require(seen[larger].several, SEVERAL_ENOUGH, "too few models have several blocks between the first and the last");
        for (int wrong = 0; wrong < WRONG_LISTINGS; wrong++)
            require(seen[larger].telling[wrong], TELLING_ENOUGH, "too few models tell a listing with a fault");
    }
}

static void print_kinds(void)
{
    char line[120];
    print_count(seen[0].several + seen[1].several, "models have three blocks or more between the first and the last");
    for (int wrong = 0; wrong < WRONG_LISTINGS; wrong++)
        print_count(seen[0].telling[wrong] + seen[1].telling[wrong], told[wrong]);
    print_count(seen[0].defined, "models compared with the sums of all column sets");
    print_count(seen[0].ranked + seen[1].ranked, "models compared with ranks of changed models");
    snprintf(line, sizeof line, "models in all, %lu of them of more than %d columns, compared with a graph's parts, each by both calls",
             seen[1].models, SUMS_COLUMNS);
    print_count(seen[0].models + seen[1].models, line);
}

void compare_blocks(const char *folder)
{
    compare_stated(folder);
    compare_bench(folder);
    compare_by_definition();
    compare_small();
    compare_larger();
    require_all();
    print_kinds();
}
