/* Files: written, checked, damaged; every prime and size. */
#include "compare.h"
#include "numbers.h"

#include <string.h>

void compare_files(void)
{
    static uint8_t file[WUNDRESKA_FILE_MAX];
    begin_category("files written, into areas just right, short by one and longer");
    for (int i = 0; i < 3000; i++) {
        Model m = draw_model(all_primes, COUNT(all_primes), WUNDRESKA_COLUMNS_MAX, WUNDRESKA_ROWS_MAX);
        size_t length = write_file(&m, file), room = one_in(3) ? length - 1 : length + draw(50);
        count_case(write_complaint(&m, exact_lengths(&m, room)), &m);
    }
    begin_category("files checked, with answer areas just right, short and longer");
    for (int i = 0; i < 2000; i++) {
        Model m = draw_model(all_primes, COUNT(all_primes), WUNDRESKA_COLUMNS_MAX, WUNDRESKA_ROWS_MAX);
        try_file(&layered_question, file, write_file(&m, file));
    }
    begin_category("files checked, with answer areas of every length up to twice the answer");
    try_areas_of_every_length(&layered_question);
}

/* ---- damaged files ---- */

void try_prefixes(const Question *q, const uint8_t *file, size_t length)
{
    for (size_t cut = 0; cut < length; cut++)
        try_file(q, file, cut);
}

void try_flips(const Question *q, uint8_t *file, size_t length)
{
    for (size_t bit = 0; bit < 8 * length; bit++) {
        file[bit / 8] ^= 1 << bit % 8;
        try_file(q, file, length);
        file[bit / 8] ^= 1 << bit % 8;
    }
}

void try_damages(const Question *q, const uint8_t *file, size_t length, size_t count)
{
    static uint8_t damaged[WUNDRESKA_FILE_MAX + DAMAGE_ROOM];
    for (size_t i = 0; i < count; i++) {
        memcpy(damaged, file, length);
        try_file(q, damaged, damage_file(damaged, length));
    }
}

void compare_damaged_files(void)
{
    static uint8_t file[WUNDRESKA_FILE_MAX];
    begin_category("damaged small files: every prefix, every bit turned, random damage");
    for (int i = 0; i < 100; i++) {
        Model m = draw_model(all_primes, COUNT(all_primes), 8, 6);
        size_t length = write_file(&m, file);
        try_prefixes(&layered_question, file, length);
        try_flips(&layered_question, file, length);
        try_damages(&layered_question, file, length, 3 * length);
    }
    begin_category("damaged large files: every prefix, random damage");
    for (int i = 0; i < 12; i++) {
        Model m = draw_model(all_primes, COUNT(all_primes), WUNDRESKA_COLUMNS_MAX, WUNDRESKA_ROWS_MAX);
        size_t length = write_file(&m, file);
        try_prefixes(&layered_question, file, length);
        try_damages(&layered_question, file, length, 400);
    }
}

/* The content alone is wrong: a constant of p or more, or a parameter past the last column. */
static Model draw_wrong_content(void)
{
    Model m;
    do
        m = draw_model(all_primes, COUNT(all_primes), one_in(20) ? WUNDRESKA_COLUMNS_MAX : 8, 6);
    while (m.a == 0 && (m.b == 0 || m.n == WUNDRESKA_COLUMNS_MAX));
    int constant = m.a > 0, parameter = m.b > 0 && m.n < WUNDRESKA_COLUMNS_MAX;
    if (constant && (!parameter || one_in(2)))
        m.constants[draw(m.a * m.n)] = m.p + draw(UINT16_MAX + 1 - m.p);
    if (parameter && (!constant || one_in(2)))
        m.parameters[draw(m.b)] |= just(m.n);
    return m;
}

void compare_wrong_contents(void)
{
    static uint8_t file[WUNDRESKA_FILE_MAX + DAMAGE_ROOM];
    begin_category("files with constants of p and more, and parameters past the last column; damaged besides");
    for (int i = 0; i < 3000; i++) {
        Model m = draw_wrong_content();
        size_t length = write_file(&m, file);
        try_file(&layered_question, file, length);
        try_file(&layered_question, file, damage_file(file, length));
    }
}

/* ---- primes and sizes ---- */

void compare_primes(void)
{
    static uint8_t file[WUNDRESKA_FILE_MAX];
    begin_category("every p of two bytes, in a file");
    for (uint32_t p = 0; p <= UINT16_MAX; p++) {
        Model m = {.p = p, .n = 1}, judged;
        size_t length = write_file(&m, file);
        uint32_t refusal = judge_file(file, length, &judged);
        Called c = call_file(wundreska_check, file, length, WUNDRESKA_ANSWER_SIZE, WUNDRESKA_ANSWER_SIZE);
        write_number(file, length, refusal);
        count_case(refusal_complaint(&c, refusal), &m);
    }
    begin_category("p up to 70,000 and larger ones, handed over");
    for (uint32_t p = 0, i = 0; i < 75000; i++) {
        p = i <= 70000 ? i : 65537 + draw(UINT32_MAX - 65537);
        Model m = {.p = p, .n = 1};
        Called c = call_model(harness_layered, &m, exact_lengths(&m, WUNDRESKA_ANSWER_SIZE), WUNDRESKA_ANSWER_SIZE);
        count_case(refusal_complaint(&c, judge_areas(&m, 0, 0, 0)), &m);
    }
}

void compare_sizes(void)
{
    static uint8_t file[WUNDRESKA_FILE_MAX];
    begin_category("every n, a and b of one byte, in files made for another");
    for (int i = 0; i < 3 * 256 * 4; i++) {
        Model m = draw_model(all_primes, COUNT(all_primes), 8, 6);
        size_t length = write_file(&m, file);
        file[SIZES_AT + i % 3] = i / 3 % 256;
        try_file(&layered_question, file, length);
    }
}
