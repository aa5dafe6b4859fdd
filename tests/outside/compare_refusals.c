/* Models handed over that must be refused, and with which number. */
#include "compare.h"
#include "numbers.h"

/* ---- the edges that document 01 names, with its numbers ---- */

static void expect_file(const uint8_t *file, size_t length, const Model *m, uint32_t refusal)
{
    Called c = call_file(wundreska_check, file, length, WUNDRESKA_ANSWER_SIZE, WUNDRESKA_ANSWER_SIZE);
    write_number(file, length, refusal);
    count_case(refusal_complaint(&c, refusal), m);
}

/* By file and handed over. */
static void expect(uint32_t p, size_t n, uint16_t constant, uint32_t refusal)
{
    static uint8_t file[WUNDRESKA_FILE_MAX];
    Model m = {.p = p, .n = n, .a = 1};
    m.constants[0] = constant;
    Called c = call_model(harness_layered, &m, exact_lengths(&m, WUNDRESKA_ANSWER_SIZE), WUNDRESKA_ANSWER_SIZE);
    count_case(refusal_complaint(&c, refusal), &m);
    expect_file(file, write_file(&m, file), &m, refusal);
}

/* By file and handed over. */
static void expect_mixed(size_t n, size_t a, size_t b, uint32_t refusal)
{
    Model m = {.p = 1021, .n = n, .a = a, .b = b};
    static uint8_t file[WUNDRESKA_FILE_MAX];
    Called c = call_model(harness_mixed, &m, exact_lengths(&m, WUNDRESKA_MIXED_SIZE), WUNDRESKA_MIXED_SIZE);
    count_case(refusal_complaint(&c, refusal), &m);
    c = call_file(wundreska_mixed, file, write_file(&m, file), WUNDRESKA_MIXED_SIZE, WUNDRESKA_MIXED_SIZE);
    count_case(refusal_complaint(&c, refusal), &m);
}

/* A mixed place whose constant is dropped keeps the rank and spoils the short set. */
static void compare_shortcut(void)
{
    Model m = {.p = 1021, .n = 2, .a = 1, .b = 1, .constants = {1, 0}, .parameters = {3}}, form = layered_form(&m);
    Truth truth = layered_truth(&form);
    count_case(truth.short_set == 7 ? mixed_complaint(&m, 1, truth) : "the reference differs from the paper", &m);
}

void compare_edges(void)
{
    static uint8_t file[WUNDRESKA_FILE_MAX + 1];
    begin_category("edges, with the paper's numbers");
    expect(1021, WUNDRESKA_COLUMNS_MAX, 0, 0);
    expect(1021, 0, 0, 4);
    expect(1021, WUNDRESKA_COLUMNS_MAX + 1, 0, 4);
    expect(2, 1, 0, 0);
    expect(WUNDRESKA_PRIME_MAX, 1, 0, 0);
    expect(1, 1, 0, 3);
    expect(65535, 1, 0, 3);
    expect(1021, 1, 1020, 0);
    expect(1021, 1, 1021, 5);
    expect_mixed(WUNDRESKA_COLUMNS_MAX - 1, 1, 1, 0);
    expect_mixed(WUNDRESKA_COLUMNS_MAX, 1, 1, 10);
    expect_mixed(2, 1, 2, 10);
    Model m = draw_model(all_primes, COUNT(all_primes), 8, 8);
    size_t length = write_file(&m, file);
    file[length] = 0;
    expect_file(file, length - 1, &m, 1);
    expect_file(file, length + 1, &m, 7);
    expect_file(file, 0, &m, 1);
    compare_shortcut();
}

void compare_mixed_sizes(void)
{
    begin_category("every n and a = b, mixed");
    for (size_t n = 1; n <= WUNDRESKA_COLUMNS_MAX; n++)
        for (size_t a = 0; a <= WUNDRESKA_ROWS_MAX; a++)
            expect_mixed(n, a, a, a + n > WUNDRESKA_COLUMNS_MAX ? 10 : 0);
}

/* ---- models handed over with several faults at once ---- */

static void spoil_prime(Model *m)
{
    static const uint32_t others[] = {0, 1, 4, 1023, 65520, 65535, 65536, 65537, 1021 * 1021, UINT32_MAX, 2, 3};
    m->p = others[draw(COUNT(others))];
}

static void spoil_size(Model *m)
{
    static const size_t others[] = {WUNDRESKA_COLUMNS_MAX + 1, WUNDRESKA_ROWS_MAX + 2, 2 * WUNDRESKA_COLUMNS_MAX, 256, 257,
                                    SIZE_MAX, (size_t)1 << 32, ((size_t)1 << 32) + 1};
    size_t *sizes[] = {&m->n, &m->a, &m->b};
    *sizes[draw(3)] = one_in(4) ? 0 : others[draw(COUNT(others))];
}

static void spoil_constant(Model *m)
{
    m->constants[draw(m->a * m->n + 1)] = m->p + draw(UINT16_MAX + 1 - m->p);
}

static void spoil_parameter(Model *m)
{
    if (m->n < WIDTH)
        m->parameters[draw(m->b + 1)] |= just(m->n + draw(WIDTH - m->n));
}

Lengths spoil(Model *m, size_t written)
{
    Lengths l = exact_lengths(m, written);
    if (one_in(3))
        spoil_constant(m);
    if (one_in(3))
        spoil_parameter(m);
    size_t *lengths[] = {&l.constants, &l.rows, &l.out};
    for (int i = 0; i < 3; i++)
        *lengths[i] += one_in(3) ? draw(5) : 0;
    for (int i = 0; i < 3; i++)
        *lengths[i] -= *lengths[i] > 0 && one_in(6);
    if (one_in(4))
        spoil_size(m);
    if (one_in(4))
        spoil_prime(m);
    return l;
}

void compare_spoilt_models(void)
{
    static uint8_t file[WUNDRESKA_FILE_MAX];
    begin_category("layered models handed over with several faults");
    for (int i = 0; i < 40000; i++) {
        Model m = draw_model(all_primes, COUNT(all_primes), 10, 8);
        Lengths l = spoil(&m, WUNDRESKA_ANSWER_SIZE);
        count_case(handed_complaint(&layered_question, &m, l), &m);
    }
    begin_category("mixed models handed over with several faults");
    for (int i = 0; i < 40000; i++) {
        Model m = one_in(3) ? draw_model(all_primes, COUNT(all_primes), WUNDRESKA_COLUMNS_MAX, 10)
                            : draw_mixed(all_primes, COUNT(all_primes), 10);
        Lengths l = spoil(&m, WUNDRESKA_MIXED_SIZE);
        count_case(handed_complaint(&mixed_question, &m, l), &m);
    }
    begin_category("models to write, with several faults");
    for (int i = 0; i < 40000; i++) {
        Model m = draw_model(all_primes, COUNT(all_primes), 10, 8);
        Lengths l = spoil(&m, write_file(&m, file));
        count_case(write_complaint(&m, l), &m);
    }
}
