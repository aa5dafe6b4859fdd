/* Models of more columns than a word has bits, and those on both sides of that edge and of the limit. A parameter row of up to WORD
 * columns has the bytes of one word in the file. */
#include "compare.h"
#include "harness.h"

#include <string.h>

/* ---- models of more than a word's columns ---- */

static Model draw_wide(size_t rows)
{
    Model m;
    do
        m = draw_model(all_primes, COUNT(all_primes), WUNDRESKA_COLUMNS_MAX, rows);
    while (m.n <= WORD);
    return m;
}

static Model draw_wide_form(size_t rows)
{
    Model m;
    do {
        m = draw_wide(rows);
        m.a = m.b = m.a < m.b ? m.a : m.b;
    } while (m.a + m.n > WUNDRESKA_COLUMNS_MAX);
    return m;
}

static void try_layered(const Model *m)
{
    static uint8_t file[WUNDRESKA_FILE_MAX];
    count_case(layered_complaint(m, layered_truth(m)), m);
    try_file(&layered_question, file, write_file(m, file));
}

static void try_mixed(const Model *m)
{
    static uint8_t file[WUNDRESKA_FILE_MAX];
    Model form = layered_form(m);
    count_case(mixed_complaint(m, mixed_rank(m), layered_truth(&form)), m);
    try_file(&mixed_question, file, write_file(m, file));
}

static void compare_wide_models(void)
{
    begin_category("layered models of 65 to 96 columns, handed over and in files");
    for (int i = 0; i < 36000; i++) {
        Model m = draw_wide(FEW);
        try_layered(&m);
    }
    for (int i = 0; i < 600; i++) {
        Model m = draw_wide(WUNDRESKA_ROWS_MAX);
        try_layered(&m);
    }
    begin_category("mixed models of 65 to 96 columns, handed over and in files");
    for (int i = 0; i < 16000; i++) {
        Model m = draw_wide_form(FEW);
        try_mixed(&m);
    }
}

/* ---- damaged files ---- */

static void compare_wide_damages(void)
{
    static uint8_t file[WUNDRESKA_FILE_MAX], damaged[WUNDRESKA_FILE_MAX + DAMAGE_ROOM];
    begin_category("damaged files of 65 to 96 columns: every prefix, random damage");
    for (int i = 0; i < 80; i++) {
        Model m = draw_wide(4);
        size_t length = write_file(&m, file);
        for (size_t cut = 0; cut < length; cut++)
            try_file(&layered_question, file, cut);
        for (size_t k = 0; k < 3 * length; k++) {
            memcpy(damaged, file, length);
            try_file(k % 2 ? &layered_question : &mixed_question, damaged, damage_file(damaged, length));
        }
    }
}

/* The file of a model without its constant rows, said to have another number of columns; its parameter rows keep their length. */
static size_t write_as(const Model *m, size_t columns, uint8_t *file)
{
    Model other = *m;
    other.a = 0;
    size_t length = write_file(&other, file);
    file[SIZES_AT] = columns;
    return length;
}

static void compare_row_lengths(void)
{
    static uint8_t file[WUNDRESKA_FILE_MAX];
    begin_category("files whose parameter rows have the other width's length");
    for (int i = 0; i < 20000; i++) {
        int widened = one_in(2);
        Model m = widened ? draw_model(all_primes, COUNT(all_primes), WORD, FEW) : draw_wide(FEW);
        size_t columns = widened ? WORD + 1 + draw(WUNDRESKA_COLUMNS_MAX - WORD) : 1 + draw(WORD);
        try_file(&layered_question, file, write_as(&m, columns, file));
    }
}

/* ---- on both sides of a word and of the limit ---- */

static const size_t edges[] = {WORD - 1, WORD, WORD + 1, WUNDRESKA_COLUMNS_MAX - 1, WUNDRESKA_COLUMNS_MAX};

static Model draw_at(Kind kind, size_t n, size_t a, size_t b)
{
    size_t rows = kind == LAYERED ? a + b : a;
    return draw_of_rank(kind, all_primes[draw(COUNT(all_primes))], n, a, b, draw(smaller(n, rows) + 1));
}

/* Of all sizes up to the most: at an edge, or few. */
static size_t draw_rows(void)
{
    return one_in(3) ? draw(FEW) : edges[draw(COUNT(edges))];
}

static void compare_edge_models(void)
{
    begin_category("layered models of 63, 64, 65, 95 and 96 columns and rows");
    for (int i = 0; i < 1500; i++) {
        Model m = draw_at(LAYERED, edges[i % COUNT(edges)], draw_rows(), draw_rows());
        try_layered(&m);
    }
    begin_category("mixed models whose layered form has 64, 65, 95 and 96 columns");
    for (int i = 0; i < 3000; i++) {
        size_t columns = edges[1 + i % (COUNT(edges) - 1)], rows = draw(columns);
        Model m = draw_at(MIXED, columns - rows, rows, rows);
        try_mixed(&m);
    }
    begin_category("mixed models whose layered form has 97 columns");
    for (size_t rows = 1; rows <= WUNDRESKA_ROWS_MAX; rows++) {
        static uint8_t file[WUNDRESKA_FILE_MAX];
        Model m = draw_at(MIXED, WUNDRESKA_COLUMNS_MAX + 1 - rows, rows, rows);
        try_file(&mixed_question, file, write_file(&m, file));
    }
}

/* ---- areas of parameter rows that end within a row ---- */

static void compare_odd_areas(void)
{
    static const Model none;
    uint64_t words[ROW_WORDS * FEW + 1] = {0};
    uint8_t answer[WUNDRESKA_ANSWER_SIZE];
    begin_category("areas of parameter rows with a word more and a word less than the rows have");
    for (size_t b = 0; b <= FEW; b++) {
        uint32_t longer = harness_layered(2, 1, 0, b, NULL, 0, words, ROW_WORDS * b + 1, false, NULL, 0, answer, sizeof answer);
        count_case(longer == 0 ? NULL : "a word more than the rows have is refused", &none);
        if (b > 0) {
            uint32_t shorter = harness_layered(2, 1, 0, b, NULL, 0, words, ROW_WORDS * b - 1, false, NULL, 0, answer, sizeof answer);
            count_case(shorter == WUNDRESKA_AREA_SHORT ? NULL : "a word less than the rows have is accepted", &none);
        }
    }
}

void compare_wide(void)
{
    compare_wide_models();
    compare_wide_damages();
    compare_row_lengths();
    compare_edge_models();
    compare_odd_areas();
}
