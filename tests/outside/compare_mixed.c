/* The mixed question about a file, as a host asks it. */
#include "compare.h"

static void try_mixed_models(int count, size_t limit)
{
    static uint8_t file[WUNDRESKA_FILE_MAX];
    for (int i = 0; i < count; i++) {
        Model m = draw_mixed(all_primes, COUNT(all_primes), limit);
        try_file(&mixed_question, file, write_file(&m, file));
    }
}

/* Most have different numbers of rows, or too many columns for the layered form. */
static void try_layered_models(int count, size_t columns, size_t rows)
{
    static uint8_t file[WUNDRESKA_FILE_MAX];
    for (int i = 0; i < count; i++) {
        Model m = draw_model(all_primes, COUNT(all_primes), columns, rows);
        if (one_in(2))
            m.a = m.b = m.a < m.b ? m.a : m.b;
        try_file(&mixed_question, file, write_file(&m, file));
    }
}

static void try_damaged(int count)
{
    static uint8_t file[WUNDRESKA_FILE_MAX + DAMAGE_ROOM];
    for (int i = 0; i < count; i++) {
        Model m = draw_mixed(all_primes, COUNT(all_primes), 12);
        try_file(&mixed_question, file, damage_file(file, write_file(&m, file)));
    }
}

void compare_mixed_files(void)
{
    begin_category("mixed models in files, up to 12 columns of the layered form");
    try_mixed_models(60000, 12);
    begin_category("mixed models in files, of all sizes");
    try_mixed_models(6000, WUNDRESKA_COLUMNS_MAX);
    begin_category("files that hold no mixed model, asked the mixed question");
    try_layered_models(8000, 10, 8);
    try_layered_models(6000, WUNDRESKA_COLUMNS_MAX, WUNDRESKA_ROWS_MAX);
    begin_category("damaged files of mixed models");
    try_damaged(20000);
    begin_category("mixed models in files, with answer areas of every length up to twice the answer");
    try_areas_of_every_length(&mixed_question);
}
