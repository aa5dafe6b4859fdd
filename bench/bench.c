/* Times the library's layered call, the same in plain Rust, and FLINT's ranks, on the same models in one process; then the longest
 * file against that of the same model unnumbered; then the calls about a column against the layered call and FLINT's solving; then
 * the call about a claim against the layered call and FLINT's ranks; then the call about blocks against the layered call and against
 * the reference's blocks, in plain C; then the call about a degree against the layered call and against the reference's shortest ways;
 * then an edit of an open model and its answer against the layered call, handed over and in an area.
 * Prints a line for each kind of model: its table, its name, then microseconds a call of each method, parted by '|'. */
#define _POSIX_C_SOURCE 200809L
#include "harness.h"
#include "model.h"
#include "parts.h"
#include "rounds.h"
#include "ways.h"
#include "wundreska.h"

#include <flint/nmod_mat.h>
#include <stdio.h>
#include <stdlib.h>
#include <string.h>
#include <time.h>

ModelCall plain_layered;

enum { MODELS = 16, ROUNDS = 25, FEW_ROUNDS = 5, PARAMETERS_A_ROW = 3, CONSTANTS_A_ROW = 3, FEW_CONSTANT_ROWS = 16 };
static const double long_round = 2e5; /* microseconds, above which few rounds are run */
static const uint64_t large_prime = (UINT64_C(1) << 61) - 1;

/* ---- the models ---- */

static void put_parameters(Model *m, size_t many)
{
    for (size_t r = 0; r < m->b; r++)
        while (size_of_set(m->parameters[r]) < many)
            m->parameters[r] |= just(draw(m->n));
}

/* As many columns as a word has bits, and as many as there may be. */
enum { WORD = 64, MOST = WUNDRESKA_COLUMNS_MAX };

static Model dense_rows(uint32_t p, size_t n, size_t a, size_t b)
{
    Model m = {.p = p, .n = n, .a = a, .b = b};
    for (size_t i = 0; i < m.a * m.n; i++)
        m.constants[i] = draw(p);
    put_parameters(&m, PARAMETERS_A_ROW);
    return m;
}

static Model dense(uint32_t p, size_t n, size_t b) { return dense_rows(p, n, n, b); }

/* Balances: each constant row has a few plus and minus ones. */
static Model balances(size_t n, size_t a, size_t b, size_t parameters)
{
    Model m = {.p = 1021, .n = n, .a = a, .b = b};
    for (size_t i = 0; i < m.a * CONSTANTS_A_ROW; i++)
        m.constants[i / CONSTANTS_A_ROW * m.n + draw(m.n)] = one_in(2) ? 1 : m.p - 1;
    put_parameters(&m, parameters);
    return m;
}

static Model plant_like(void) { return balances(WORD, WORD, WORD, PARAMETERS_A_ROW); }
static Model plant_like_most(void) { return balances(MOST, MOST, MOST, PARAMETERS_A_ROW); }

/* As many rows as columns; a parameter row has half of the columns, drawn. */
static Model many_parameters(void)
{
    return balances(WORD, FEW_CONSTANT_ROWS, WORD - FEW_CONSTANT_ROWS, WORD / 2);
}

/* Parameter row r has the columns r - 1 and r. Each column but the last takes the later of its rows; the last has one row only, and
 * gets it when all others have moved. */
static Model chain_of(size_t n)
{
    Model m = {.p = 1021, .n = n, .a = 0, .b = n};
    for (size_t r = 0; r < m.b; r++)
        m.parameters[r] = just(r) | (r ? just(r - 1) : 0);
    return m;
}

static Model chain(void) { return chain_of(WORD); }

static Model dense_1021(void) { return dense(1021, WORD, WORD); }
static Model dense_largest(void) { return dense(WUNDRESKA_PRIME_MAX, WORD, WORD); }
static Model dense_most(void) { return dense(1021, MOST, MOST); }
static Model constants_2(void) { return dense(2, WORD, 0); }
static Model constants_1021(void) { return dense(1021, WORD, 0); }
static Model constants_largest(void) { return dense(WUNDRESKA_PRIME_MAX, WORD, 0); }
static Model constants_most(void) { return dense(1021, MOST, 0); }
static Model constants_half(void) { return dense_rows(1021, MOST, MOST / 2, 0); }
static Model tiny(void) { return (Model){.p = 1021, .n = 2, .a = 1, .b = 1, .constants = {1, 0}, .parameters = {2}}; }

/* ---- what is timed ---- */

typedef struct {
    uint8_t bytes[WUNDRESKA_FILE_MAX];
    size_t length;
} File;

typedef struct {
    Model model;
    uint64_t rows[WUNDRESKA_ROWS_MAX * ROW_WORDS]; /* the parameter rows as the calls take them */
    nmod_mat_t substituted; /* constants above random numbers, modulo the large prime */
    nmod_mat_t constants;   /* modulo p */
    nmod_mat_t held, named, multipliers; /* the columns but the last, the last one, and what it is of them, modulo p */
    nmod_mat_t side; /* the columns on the constant side of the largest claim, modulo p */
    uint8_t ours[WUNDRESKA_CLAIM_SIZE], largest[WUNDRESKA_CLAIM_SIZE]; /* claims */
    File numbered, unnumbered; /* the longest file, and that of its model without numbers */
    uint8_t answer[WUNDRESKA_REASON_SIZE]; /* the longest that there is */
    slong rank;
    Assignment assignment; /* the reference's own, */
    Blocks blocks;         /* and its blocks */
    Powers powers;         /* as the call takes them, */
    Weights weights;       /* and as the reference does, */
    Heaviest heaviest;     /* with what it finds; */
    size_t rounds;         /* and how many the descent takes */
    uint8_t present[WUNDRESKA_SET_SIZE], half[WUNDRESKA_SET_SIZE]; /* all columns, and every other one */
    File open, half_open;  /* the open models with these columns, as areas */
} Work;

typedef void Method(Work *work);

static void call(ModelCall *layered, Work *w)
{
    const Model *m = &w->model;
    memset(w->answer, 0, WUNDRESKA_ANSWER_SIZE);
    if (layered(m->p, m->n, m->a, m->b, m->constants, m->a * m->n, w->rows, m->b * ROW_WORDS, false, NULL, 0, w->answer,
                WUNDRESKA_ANSWER_SIZE))
        abort();
}

static void library(Work *w) { call(harness_layered, w); }
static void plain(Work *w) { call(plain_layered, w); }
static void substituted_rank(Work *w) { w->rank = nmod_mat_rank(w->substituted); }
static void constants_rank(Work *w) { w->rank = nmod_mat_rank(w->constants); }

/* Constants above p / 2 are negative numbers to whoever wrote them. */
static uint64_t signed_residue(uint32_t constant, uint32_t p)
{
    return constant > p / 2 ? large_prime - (p - constant) : constant;
}

static void prepare(Work *w, Model model)
{
    Model *m = &w->model;
    *m = model;
    for (size_t r = 0; r < m->b; r++)
        put_words(m->parameters[r], w->rows + r * ROW_WORDS);
    nmod_mat_init(w->substituted, m->a + m->b, m->n, large_prime);
    nmod_mat_init(w->constants, m->a, m->n, m->p);
    for (size_t c = 0; c < m->n; c++) {
        for (size_t r = 0; r < m->a; r++) {
            nmod_mat_entry(w->constants, r, c) = m->constants[r * m->n + c];
            nmod_mat_entry(w->substituted, r, c) = signed_residue(m->constants[r * m->n + c], m->p);
        }
        for (size_t r = 0; r < m->b; r++)
            nmod_mat_entry(w->substituted, m->a + r, c) = has(m->parameters[r], c) ? 1 + draw(large_prime - 1) : 0;
    }
}

/* The library and plain Rust agree on all that the rules do not leave open. */
static void check_agreement(Work *w)
{
    uint8_t answer[WUNDRESKA_ANSWER_SIZE];
    library(w);
    memcpy(answer, w->answer, sizeof answer);
    plain(w);
    if (memcmp(answer, w->answer, WUNDRESKA_CONSTANTS) ||
        memcmp(answer + WUNDRESKA_SHORT, w->answer + WUNDRESKA_SHORT, WUNDRESKA_SET_SIZE)) {
        fprintf(stderr, "the library and plain Rust differ\n");
        exit(1);
    }
}

/* ---- timing ---- */

static double now(void)
{
    struct timespec t;
    clock_gettime(CLOCK_MONOTONIC, &t);
    return t.tv_sec * 1e6 + t.tv_nsec / 1e3;
}

/* Microseconds a call, over all models so many times. */
static double time_once(Method *method, Work *works, int repeats)
{
    double start = now();
    for (int i = 0; i < repeats; i++)
        for (int k = 0; k < MODELS; k++)
            method(&works[k]);
    return (now() - start) / repeats / MODELS;
}

/* The least of several rounds for each method; the methods take turns, so that a busy machine hits them alike. */
static void time_all(Method *const *methods, int count, Work *works, double *best)
{
    int repeats[4];
    double all = 0;
    for (int i = 0; i < count; i++) {
        best[i] = time_once(methods[i], works, 1);
        repeats[i] = 1 + (int)(5000 / (best[i] * MODELS));
        all += best[i] * MODELS * repeats[i];
    }
    for (int round = 0; round < (all > long_round ? FEW_ROUNDS : ROUNDS); round++)
        for (int i = 0; i < count; i++) {
            double t = time_once(methods[i], works, repeats[i]);
            best[i] = t < best[i] ? t : best[i];
        }
}

static void clear_works(Work *works)
{
    for (int k = 0; k < MODELS; k++) {
        nmod_mat_clear(works[k].substituted);
        nmod_mat_clear(works[k].constants);
    }
}

static void print_times(const char *table, const char *kind, const Model *m, const double *times, int count)
{
    printf("%s|%s %zu/%zu/%zu, p %u", table, kind, m->n, m->a, m->b, (unsigned)m->p);
    for (int i = 0; i < count; i++)
        printf("|%f", times[i]);
    printf("\n");
    fflush(stdout);
}

static void measure(const char *kind, Model (*make)(void))
{
    static Work works[MODELS];
    static Method *const methods[] = {library, plain, substituted_rank, constants_rank};
    double t[4];
    for (int k = 0; k < MODELS; k++) {
        prepare(&works[k], make());
        check_agreement(&works[k]);
    }
    const Model *m = &works[0].model;
    int only_constants = m->b == 0;
    time_all(methods, only_constants ? 4 : 3, works, t);
    print_times("rank", kind, m, t, only_constants ? 4 : 3);
    clear_works(works);
}

/* ---- the longest file against that of the same model unnumbered ---- */

static Model longest(void)
{
    Model m = dense(1021, MOST, MOST);
    for (size_t r = 0; r < m.b; r++)
        m.parameters[r] = all_below(m.n);
    draw_numbers(&m);
    return m;
}

static void ask(Work *w, const File *file, size_t missing, uint32_t due)
{
    if (wundreska_check(file->bytes, file->length - missing, w->answer, WUNDRESKA_ANSWER_SIZE) != due)
        abort();
}

static void check_numbered(Work *w) { ask(w, &w->numbered, 0, WUNDRESKA_ACCEPTED); }
static void check_unnumbered(Work *w) { ask(w, &w->unnumbered, 0, WUNDRESKA_ACCEPTED); }
/* Without its last byte a file is judged, and not answered. */
static void judge_numbered(Work *w) { ask(w, &w->numbered, 1, WUNDRESKA_TRUNCATED); }
static void judge_unnumbered(Work *w) { ask(w, &w->unnumbered, 1, WUNDRESKA_TRUNCATED); }

static void measure_numbers(void)
{
    static Work works[MODELS];
    static Method *const methods[] = {check_numbered, check_unnumbered, judge_numbered, judge_unnumbered};
    double t[4];
    for (int k = 0; k < MODELS; k++) {
        Model m = longest();
        works[k].numbered.length = write_file(&m, works[k].numbered.bytes);
        m.numbered = 0;
        works[k].unnumbered.length = write_file(&m, works[k].unnumbered.bytes);
    }
    time_all(methods, 4, works, t);
    printf("file|checked|%f|%f\nfile|judged|%f|%f\n", t[0], t[1], t[2], t[3]);
}

/* ---- the last column by all others, and what blocks it, against the layered call on the same model and FLINT's solving ---- */

/* Makes the last column a sum of the others. */
static void plant_sum(Model *m)
{
    size_t last = m->n - 1;
    uint32_t factors[MOST];
    for (size_t c = 0; c < last; c++)
        factors[c] = draw(m->p);
    for (size_t r = 0; r < m->a; r++) {
        uint64_t total = 0;
        for (size_t c = 0; c < last; c++)
            total += (uint64_t)m->constants[r * m->n + c] * factors[c];
        m->constants[r * m->n + last] = total % m->p;
    }
}

static void prepare_sum(Work *w, Model model)
{
    Model *m = &w->model;
    size_t last = model.n - 1;
    *m = model;
    plant_sum(m);
    nmod_mat_init(w->held, m->a, last, m->p);
    nmod_mat_init(w->named, m->a, 1, m->p);
    nmod_mat_init(w->multipliers, last, 1, m->p);
    for (size_t r = 0; r < m->a; r++) {
        for (size_t c = 0; c < last; c++)
            nmod_mat_entry(w->held, r, c) = m->constants[r * m->n + c];
        nmod_mat_entry(w->named, r, 0) = m->constants[r * m->n + last];
    }
}

static void clear_sums(Work *works)
{
    for (int k = 0; k < MODELS; k++) {
        nmod_mat_clear(works[k].held);
        nmod_mat_clear(works[k].named);
        nmod_mat_clear(works[k].multipliers);
    }
}

static void multipliers(Work *w)
{
    const Model *m = &w->model;
    size_t last = m->n - 1;
    uint8_t held[WUNDRESKA_SET_SIZE];
    for (size_t i = 0; i < sizeof held; i++)
        held[i] = all_below(last) >> 8 * i & 255;
    memset(w->answer, 0, WUNDRESKA_MULTIPLIERS_SIZE);
    if (harness_multipliers(m->p, m->n, m->a, m->b, m->constants, m->a * m->n, NULL, 0, false, NULL, 0, held, sizeof held, last,
                            w->answer, WUNDRESKA_MULTIPLIERS_SIZE))
        abort();
}

/* The others are placed where they are independent, as nearly all drawn ones are, and the last column then is not. */
static void reason(Work *w)
{
    const Model *m = &w->model;
    memset(w->answer, 0, WUNDRESKA_REASON_SIZE);
    if (harness_reason(m->p, m->n, m->a, m->b, m->constants, m->a * m->n, NULL, 0, false, NULL, 0, m->n - 1, w->answer,
                       WUNDRESKA_REASON_SIZE))
        abort();
}

static void solved(Work *w)
{
    if (!nmod_mat_can_solve(w->multipliers, w->held, w->named))
        abort();
}

/* Whether an answer that says so gives FLINT's multipliers, from where they start. */
static int gives(const Work *w, int said, size_t at)
{
    for (size_t c = 0; c + 1 < w->model.n; c++) {
        const uint8_t *given = w->answer + at + 2 * c;
        said = said && nmod_mat_entry(w->multipliers, c, 0) == given[0] + 256u * given[1];
    }
    return said;
}

/* The library, by both calls, and FLINT give the same multipliers. */
static void check_multipliers(Work *w)
{
    int same;
    solved(w);
    multipliers(w);
    same = gives(w, w->answer[WUNDRESKA_OUTCOME] == WUNDRESKA_DEPENDS, WUNDRESKA_MULTIPLIERS);
    reason(w);
    if (!same || !gives(w, w->answer[WUNDRESKA_GIVEN] == 1, WUNDRESKA_REASON_MULTIPLIERS)) {
        fprintf(stderr, "the library and FLINT differ\n");
        exit(1);
    }
}

static void measure_multipliers(const char *kind, Model (*make)(void))
{
    static Work works[MODELS];
    static Method *const methods[] = {multipliers, library, solved, reason};
    double t[4];
    for (int k = 0; k < MODELS; k++) {
        prepare_sum(&works[k], make());
        check_multipliers(&works[k]);
    }
    time_all(methods, 4, works, t);
    print_times("column", kind, &works[0].model, t, 4);
    clear_sums(works);
}

/* ---- claims, our own answer and one that takes the most, against the layered call on the same model and FLINT's ranks ---- */

static void put_set(Set set, uint8_t *bytes)
{
    for (size_t i = 0; i < WUNDRESKA_SET_SIZE; i++)
        bytes[i] = set >> 8 * i & 255;
}

static void prepare_ours(Work *w)
{
    library(w);
    w->ours[WUNDRESKA_CLAIM_RANK] = w->answer[WUNDRESKA_RANK];
    memcpy(w->ours + WUNDRESKA_CLAIM_CONSTANTS, w->answer + WUNDRESKA_CONSTANTS, WUNDRESKA_SET_SIZE);
    memcpy(w->ours + WUNDRESKA_CLAIM_ROWS, w->answer + WUNDRESKA_ROWS, WUNDRESKA_ROWS_SIZE);
    memcpy(w->ours + WUNDRESKA_CLAIM_SET, w->answer + WUNDRESKA_SHORT, WUNDRESKA_SET_SIZE);
}

/* As many columns on the constant side as can be, which are those placed where there are no parameter rows, and all in the set: no
 * claim has more to eliminate. */
static void prepare_largest(Work *w)
{
    const Model *m = &w->model;
    if (harness_layered(m->p, m->n, m->a, 0, m->constants, m->a * m->n, NULL, 0, false, NULL, 0, w->answer, WUNDRESKA_ANSWER_SIZE))
        abort();
    w->largest[WUNDRESKA_CLAIM_RANK] = w->answer[WUNDRESKA_RANK];
    memcpy(w->largest + WUNDRESKA_CLAIM_CONSTANTS, w->answer + WUNDRESKA_PLACED, WUNDRESKA_SET_SIZE);
    memset(w->largest + WUNDRESKA_CLAIM_ROWS, WUNDRESKA_NO_COLUMN, WUNDRESKA_ROWS_SIZE);
    put_set(all_below(m->n), w->largest + WUNDRESKA_CLAIM_SET);
}

static void prepare_side(Work *w)
{
    const Model *m = &w->model;
    Set side = set_at(w->largest + WUNDRESKA_CLAIM_CONSTANTS);
    size_t column = 0;
    nmod_mat_init(w->side, m->a, size_of_set(side), m->p);
    for (size_t c = 0; c < m->n; c++) {
        if (!has(side, c))
            continue;
        for (size_t r = 0; r < m->a; r++)
            nmod_mat_entry(w->side, r, column) = m->constants[r * m->n + c];
        column++;
    }
}

static void prepare_claims(Work *w, Model model)
{
    prepare(w, model);
    prepare_ours(w);
    prepare_largest(w);
    prepare_side(w);
}

static void clear_claims(Work *works)
{
    clear_works(works);
    for (int k = 0; k < MODELS; k++)
        nmod_mat_clear(works[k].side);
}

static void claim(Work *w, const uint8_t *claimed)
{
    const Model *m = &w->model;
    memset(w->answer, 0, WUNDRESKA_ACCEPTS_SIZE);
    if (harness_accepts(m->p, m->n, m->a, m->b, m->constants, m->a * m->n, w->rows, m->b * ROW_WORDS, false, NULL, 0, claimed,
                        WUNDRESKA_CLAIM_SIZE, w->answer, WUNDRESKA_ACCEPTS_SIZE))
        abort();
}

static void claim_ours(Work *w) { claim(w, w->ours); }
static void claim_largest(Work *w) { claim(w, w->largest); }
static void both_ranks(Work *w) { w->rank = nmod_mat_rank(w->side) + nmod_mat_rank(w->constants); }

/* Our own claim is accepted. By FLINT's ranks the largest one is legal, and is accepted unless a row touches the set. */
static void check_claims(Work *w)
{
    int touched = 0, same;
    claim_ours(w);
    same = w->answer[WUNDRESKA_CLAIM_HOLDS] == 1;
    for (size_t r = 0; r < w->model.b; r++)
        touched = touched || w->model.parameters[r];
    claim_largest(w);
    both_ranks(w);
    if (!same || w->answer[WUNDRESKA_CLAIM_HOLDS] != !touched || w->rank != 2 * w->largest[WUNDRESKA_CLAIM_RANK]) {
        fprintf(stderr, "the library and FLINT differ about a claim\n");
        exit(1);
    }
}

static void measure_claims(const char *kind, Model (*make)(void))
{
    static Work works[MODELS];
    static Method *const methods[] = {claim_ours, claim_largest, library, both_ranks};
    double t[4];
    for (int k = 0; k < MODELS; k++) {
        prepare_claims(&works[k], make());
        check_claims(&works[k]);
    }
    time_all(methods, 4, works, t);
    print_times("claim", kind, &works[0].model, t, 4);
    clear_claims(works);
}

/* ---- blocks, against the layered call on the same model and the reference's own search ---- */

static Model blocks_constants(size_t n) { return dense(1021, n, 0); }
static Model blocks_halves(size_t n) { return dense_rows(1021, n, n / 2, n / 2); }
static Model blocks_dense(size_t n) { return dense(1021, n, n); }
static Model blocks_plant(size_t n) { return balances(n, n, n, PARAMETERS_A_ROW); }

/* As many rows in all as columns, so that blocks are neither few nor small alone. */
static Model blocks_square_plant(size_t n) { return balances(n, n / 2, n / 2, PARAMETERS_A_ROW); }

/* Row r has the columns r and r + 1. Each column finds its own row free, and the last one is the first block. */
static Model blocks_falling(size_t n)
{
    Model m = {.p = 1021, .n = n, .a = 0, .b = n};
    for (size_t r = 0; r < n; r++)
        m.parameters[r] = just(r) | (r + 1 < n ? just(r + 1) : 0);
    return m;
}

/* The rows of a chain, the last one first, so that here too each column finds its own row free; the first one is the first block. */
static Model blocks_rising(size_t n)
{
    Model m = chain_of(n), turned = m;
    for (size_t r = 0; r < n; r++)
        turned.parameters[r] = m.parameters[n - 1 - r];
    return turned;
}

static Model blocks_diagonal(size_t n)
{
    Model m = {.p = 1021, .n = n, .a = 0, .b = n};
    for (size_t r = 0; r < n; r++)
        m.parameters[r] = just(r);
    return m;
}

/* All columns from a row's own on, or up to it. */
static Model triangle(size_t n, int upper, int constant)
{
    Model m = {.p = 1021, .n = n, .a = constant ? n : 0, .b = constant ? 0 : n};
    for (size_t r = 0; r < n; r++)
        for (size_t c = upper ? r : 0; c < (upper ? n : r + 1); c++) {
            if (constant)
                m.constants[r * n + c] = 1 + draw(m.p - 1);
            else
                m.parameters[r] |= just(c);
        }
    return m;
}

static Model blocks_upper_constants(size_t n) { return triangle(n, 1, 1); }
static Model blocks_lower_constants(size_t n) { return triangle(n, 0, 1); }
static Model blocks_upper(size_t n) { return triangle(n, 1, 0); }
static Model blocks_lower(size_t n) { return triangle(n, 0, 0); }

static const struct {
    const char *kind;
    Model (*make)(size_t n);
} cut[] = {
    {"dense", blocks_constants},
    {"dense", blocks_halves},
    {"dense", blocks_dense},
    {"plant-like", blocks_plant},
    {"plant-like", blocks_square_plant},
    {"chain", chain_of},
    {"falling chain", blocks_falling},
    {"rising chain", blocks_rising},
    {"diagonal", blocks_diagonal},
    {"upper triangle", blocks_upper},
    {"lower triangle", blocks_lower},
    {"upper triangle", blocks_upper_constants},
    {"lower triangle", blocks_lower_constants},
};

static void blocks(Work *w)
{
    const Model *m = &w->model;
    memset(w->answer, 0, WUNDRESKA_BLOCKS_SIZE);
    if (harness_blocks(m->p, m->n, m->a, m->b, m->constants, m->a * m->n, w->rows, m->b * ROW_WORDS, false, NULL, 0, w->answer,
                       WUNDRESKA_BLOCKS_SIZE))
        abort();
}

static void reference_parts(Work *w)
{
    Graph graph = graph_by(&w->assignment);
    w->blocks = blocks_of_graph(&graph);
}

static void reference_blocks(Work *w)
{
    find_assignment(&w->model, &w->assignment);
    reference_parts(w);
}

static void check_blocks(Work *w)
{
    reference_blocks(w);
    blocks(w);
    Blocks given = blocks_in(w->answer);
    if (!same_blocks(&given, &w->blocks)) {
        fprintf(stderr, "the library and the reference differ about blocks\n");
        exit(1);
    }
}

static void measure_blocks(const char *kind, Model (*make)(size_t n), size_t n)
{
    static Work works[MODELS];
    static Method *const methods[] = {blocks, library, reference_blocks, reference_parts};
    double t[4];
    for (int k = 0; k < MODELS; k++) {
        prepare(&works[k], make(n));
        check_blocks(&works[k]);
    }
    time_all(methods, 4, works, t);
    print_times("blocks", kind, &works[0].model, t, 4);
    clear_works(works);
}

/* ---- degrees, against the layered call on the same model and the reference's shortest ways ---- */

/* The column that is planted for each row, so that most models are determined. */
static Model with_planted(Model m)
{
    for (size_t r = 0; r < m.a; r++)
        m.constants[r * m.n + r] = 1;
    for (size_t r = 0; r < m.b; r++)
        m.parameters[r] |= just(m.a + r);
    return m;
}

static Model degree_plant(size_t n) { return with_planted(balances(n, n / 2, n - n / 2, PARAMETERS_A_ROW)); }
static Model degree_halves(size_t n) { return with_planted(dense_rows(1021, n, n / 2, n - n / 2)); }
static Model degree_constants(size_t n) { return with_planted(dense_rows(1021, n, n, 0)); }
static Model degree_parameters(size_t n) { return with_planted(dense_rows(1021, n, 0, n)); }

static Model degree_full(size_t n)
{
    Model m = {.p = 1021, .n = n, .a = 0, .b = n};
    for (size_t r = 0; r < n; r++)
        m.parameters[r] = all_below(n);
    return m;
}

/* Row i, a constant one where it is odd, has its own column and so many more. */
static Model alternating(size_t n, size_t more)
{
    Model m = {.p = 1021, .n = n, .a = n / 2, .b = n - n / 2};
    for (size_t i = 0; i < n; i++)
        for (size_t c = i; c < n && c <= i + more; c++) {
            if (i % 2)
                m.constants[i / 2 * n + c] = 1 + draw(m.p - 1);
            else
                m.parameters[i / 2] |= just(c);
        }
    return m;
}

static Model degree_alternating(size_t n) { return alternating(n, 1); }
static Model degree_alternating_triangle(size_t n) { return alternating(n, n); }

typedef void Fill(const Model *model, Powers *powers);

static void fill_all(const Model *m, Powers *powers, uint64_t (*power)(void))
{
    for (size_t r = 0; r < m->a; r++)
        powers->rows[r] = power();
    for (size_t c = 0; c < m->n; c++)
        powers->columns[c] = power();
    for (size_t i = 0; i < m->b * m->n; i++)
        powers->parameters[i] = power();
}

static uint64_t any_power(void) { return draw(WUNDRESKA_POWER_MAX + 1); }
static uint64_t no_power(void) { return 0; }
static void drawn_powers(const Model *m, Powers *powers) { fill_all(m, powers, any_power); }
static void no_powers(const Model *m, Powers *powers) { fill_all(m, powers, no_power); }

/* A row has the power 0 at its own column, so that this column has to rise above all others which the row has. In a model with constant
 * rows every other row is one. */
static void own_powers_0(const Model *m, Powers *powers)
{
    size_t step = m->a > 0 ? 2 : 1;
    for (size_t r = 0; r < m->b; r++)
        powers->parameters[r * m->n + r * step] = 0;
    for (size_t c = 1; c < m->n && m->a > 0; c += 2)
        powers->columns[c] = 0;
}

static uint64_t most_power(void) { return WUNDRESKA_POWER_MAX; }

/* In a chain a row has the most at the next column. There the first column rises the highest that any does. */
static void chain_powers(const Model *m, Powers *powers)
{
    fill_all(m, powers, most_power);
    own_powers_0(m, powers);
}

static void triangle_powers(const Model *m, Powers *powers)
{
    drawn_powers(m, powers);
    own_powers_0(m, powers);
}

static const struct {
    const char *kind;
    Model (*make)(size_t n);
    Fill *fill;
} dynamic[] = {
    {"plant-like", degree_plant, drawn_powers},
    {"dense constants", degree_halves, drawn_powers},
    {"dense constants", degree_constants, drawn_powers},
    {"few parameters a row", degree_parameters, drawn_powers},
    {"all parameters", degree_full, drawn_powers},
    {"dense constants, powers 0", degree_halves, no_powers},
    {"chain, powers 0 and 15", blocks_falling, chain_powers},
    {"alternating chain, powers 0 and 15", degree_alternating, chain_powers},
    {"triangle, own powers 0", blocks_upper, triangle_powers},
    {"alternating triangle, own powers 0", degree_alternating_triangle, triangle_powers},
};

static void degree(Work *w)
{
    const Model *m = &w->model;
    memset(w->answer, 0, WUNDRESKA_DEGREE_SIZE);
    if (harness_degree(m->p, m->n, m->a, m->b, m->constants, m->a * m->n, w->rows, m->b * ROW_WORDS, false, NULL, 0, w->powers.rows,
                       m->a, w->powers.columns, m->n, w->powers.parameters, m->b * m->n, w->answer, WUNDRESKA_DEGREE_SIZE))
        abort();
}

static void reference_degree(Work *w)
{
    w->heaviest = find_heaviest(&w->model, &w->weights);
}

/* A determined model, and its powers. */
static void prepare_degree(Work *w, Model (*make)(size_t n), Fill *fill, size_t n)
{
    for (;;) {
        prepare(w, make(n));
        library(w);
        if (w->answer[WUNDRESKA_VERDICT] == WUNDRESKA_DETERMINED)
            break;
        nmod_mat_clear(w->substituted);
        nmod_mat_clear(w->constants);
    }
    fill(&w->model, &w->powers);
    weigh(&w->model, &w->powers, &w->weights);
}

static void check_degree(Work *w)
{
    reference_degree(w);
    degree(w);
    Descent descent = descend(&w->model, &w->powers);
    int given = w->answer[WUNDRESKA_DEGREE] + 256 * w->answer[WUNDRESKA_DEGREE + 1];
    w->rounds = descent.rounds;
    if (given != w->heaviest.total || descent.degree != w->heaviest.total) {
        fprintf(stderr, "the library and the reference differ about a degree\n");
        exit(1);
    }
}

static double mean_rounds(const Work *works)
{
    double rounds = 0;
    for (int k = 0; k < MODELS; k++)
        rounds += works[k].rounds;
    return rounds / MODELS;
}

static void measure_degree(const char *kind, Model (*make)(size_t n), Fill *fill, size_t n)
{
    static Work works[MODELS];
    static Method *const methods[] = {degree, library, reference_degree};
    double t[4];
    for (int k = 0; k < MODELS; k++) {
        prepare_degree(&works[k], make, fill, n);
        check_degree(&works[k]);
    }
    time_all(methods, 3, works, t);
    t[3] = mean_rounds(works);
    print_times("degree", kind, &works[0].model, t, 4);
    clear_works(works);
}

/* ---- an open model edited and answered, against the layered call on the model as opened ---- */

/* The columns 0, 2, and so on. */
static Set every_other(size_t n)
{
    Set columns = 0;
    for (size_t c = 0; c < n; c += 2)
        columns |= just(c);
    return columns;
}

static void prepare_open(Work *w, Model model)
{
    const Model *m = &w->model;
    prepare(w, model);
    put_set(all_below(m->n), w->present);
    put_set(every_other(m->n), w->half);
    w->unnumbered.length = write_file(m, w->unnumbered.bytes);
    w->open.length = w->half_open.length = WUNDRESKA_OPEN_FILE + w->unnumbered.length;
    if (wundreska_open(w->unnumbered.bytes, w->unnumbered.length, w->open.bytes, w->open.length))
        abort();
    w->half_open = w->open;
    put_set(every_other(m->n), w->half_open.bytes + WUNDRESKA_OPEN_PRESENT);
}

/* The first column is taken off and put back in turn. */
static unsigned next_kind(const uint8_t *present)
{
    return present[0] & 1 ? WUNDRESKA_TAKE_OFF : WUNDRESKA_PUT_BACK;
}

static void edit(Work *w)
{
    const Model *m = &w->model;
    if (harness_edit(m->p, m->n, m->a, m->b, m->constants, m->a * m->n, w->rows, m->b * ROW_WORDS, w->present, sizeof w->present,
                     next_kind(w->present), 0, 0))
        abort();
}

static void answer(Work *w, const uint8_t *present)
{
    const Model *m = &w->model;
    memset(w->answer, 0, WUNDRESKA_ANSWER_SIZE);
    if (harness_answer(m->p, m->n, m->a, m->b, m->constants, m->a * m->n, w->rows, m->b * ROW_WORDS, present, WUNDRESKA_SET_SIZE,
                       w->answer, WUNDRESKA_ANSWER_SIZE))
        abort();
}

/* The edit before may have left the first column out. */
static void answer_all(Work *w)
{
    w->present[0] |= 1;
    answer(w, w->present);
}

static void answer_half(Work *w) { answer(w, w->half); }

static void edit_area(Work *w)
{
    uint8_t sent[WUNDRESKA_EDIT_LENGTH] = {next_kind(w->open.bytes + WUNDRESKA_OPEN_PRESENT), 0, 0};
    if (wundreska_edit(w->open.bytes, w->open.length, sent, sizeof sent))
        abort();
}

static void ask_area(Work *w, const File *area)
{
    memset(w->answer, 0, WUNDRESKA_ANSWER_SIZE);
    if (wundreska_answer(area->bytes, area->length, w->answer, WUNDRESKA_ANSWER_SIZE))
        abort();
}

static void ask_area_all(Work *w)
{
    w->open.bytes[WUNDRESKA_OPEN_PRESENT] |= 1;
    ask_area(w, &w->open);
}

static void ask_area_half(Work *w) { ask_area(w, &w->half_open); }

static void check_file(Work *w)
{
    memset(w->answer, 0, WUNDRESKA_ANSWER_SIZE);
    ask(w, &w->unnumbered, 0, WUNDRESKA_ACCEPTED);
}

/* With all columns present the answer is that of the layered call, but for what the rules leave open; with half of them it has the rank
 * of the model that has these alone; and in an area it is the same. */
static void check_open(Work *w)
{
    static Work alone;
    uint8_t given[WUNDRESKA_ANSWER_SIZE];
    int same;
    library(w);
    memcpy(given, w->answer, sizeof given);
    answer_all(w);
    same = !memcmp(given, w->answer, WUNDRESKA_CONSTANTS) &&
           !memcmp(given + WUNDRESKA_SHORT, w->answer + WUNDRESKA_SHORT, WUNDRESKA_SET_SIZE);
    memcpy(given, w->answer, sizeof given);
    ask_area_all(w);
    same = same && !memcmp(given, w->answer, sizeof given);
    answer_half(w);
    memcpy(given, w->answer, sizeof given);
    ask_area_half(w);
    same = same && !memcmp(given, w->answer, sizeof given);
    prepare(&alone, only_columns(&w->model, every_other(w->model.n)));
    library(&alone);
    same = same && !memcmp(given, alone.answer, WUNDRESKA_PLACED);
    nmod_mat_clear(alone.substituted);
    nmod_mat_clear(alone.constants);
    if (!same) {
        fprintf(stderr, "the answer of an open model is not that of its columns\n");
        exit(1);
    }
}

static void measure_open(const char *kind, Model (*make)(void))
{
    static Work works[MODELS];
    static Method *const handed[] = {edit, answer_all, answer_half, library};
    static Method *const in_area[] = {edit_area, ask_area_all, ask_area_half, check_file};
    char named[80];
    double t[4];
    for (int k = 0; k < MODELS; k++) {
        prepare_open(&works[k], make());
        check_open(&works[k]);
    }
    time_all(handed, 4, works, t);
    print_times("open", kind, &works[0].model, t, 4);
    time_all(in_area, 4, works, t);
    snprintf(named, sizeof named, "%s, in an area", kind);
    print_times("open", named, &works[0].model, t, 4);
    clear_works(works);
}

int main(void)
{
    measure("dense", dense_1021);
    measure("dense", dense_largest);
    measure("plant-like", plant_like);
    measure("many parameters", many_parameters);
    measure("chain", chain);
    measure("dense", constants_2);
    measure("dense", constants_1021);
    measure("dense", constants_largest);
    measure("tiny", tiny);
    measure("dense", dense_most);
    measure("plant-like", plant_like_most);
    measure("dense", constants_most);
    measure_numbers();
    measure_multipliers("dense", constants_1021);
    measure_multipliers("dense", constants_largest);
    measure_multipliers("dense", constants_most);
    measure_claims("dense", constants_1021);
    measure_claims("dense", constants_largest);
    measure_claims("dense", constants_most);
    measure_claims("dense", constants_half);
    measure_claims("dense", dense_1021);
    measure_claims("dense", dense_most);
    measure_claims("plant-like", plant_like);
    measure_claims("plant-like", plant_like_most);
    for (size_t i = 0; i < sizeof cut / sizeof *cut; i++) {
        measure_blocks(cut[i].kind, cut[i].make, WORD);
        measure_blocks(cut[i].kind, cut[i].make, MOST);
    }
    for (size_t i = 0; i < sizeof dynamic / sizeof *dynamic; i++) {
        measure_degree(dynamic[i].kind, dynamic[i].make, dynamic[i].fill, WORD / 2);
        measure_degree(dynamic[i].kind, dynamic[i].make, dynamic[i].fill, WORD);
        measure_degree(dynamic[i].kind, dynamic[i].make, dynamic[i].fill, MOST);
    }
    measure_open("dense", dense_1021);
    measure_open("dense", dense_most);
    measure_open("dense", constants_most);
    measure_open("plant-like", plant_like);
    measure_open("plant-like", plant_like_most);
    measure_open("tiny", tiny);
    return 0;
}
