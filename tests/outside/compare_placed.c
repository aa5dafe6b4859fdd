/* Questions why a column is not placed that are refused, and with which number: for a column that is placed or none of the model's,
 * for the area, and for the model or its file. */
#include "why.h"

/* ---- columns that are placed, and at n and later ---- */

/* In a file and handed over, with an answer area of this length. */
static void try_named(const Model *m, size_t column, size_t room)
{
    static uint8_t file[WUNDRESKA_FILE_MAX];
    name_column(column);
    count_case(handed_complaint(&why_question, m, exact_lengths(m, room)), m);
    try_area(&why_question, file, write_file(m, file), room);
}

static void compare_named(void)
{
    begin_category("every column of small models, placed or not");
    for (int i = 0; i < 3000; i++) {
        Model m = draw_any(FEW, FEW);
        for (size_t column = 0; column < m.n; column++)
            try_named(&m, column, draw_room(WUNDRESKA_REASON_SIZE));
    }
    begin_category("a column that is placed or not, about n and far behind it, for every n");
    for (size_t n = 1; n <= WUNDRESKA_COLUMNS_MAX; n++) {
        Model m = draw_sized(n, draw(FEW), draw(FEW));
        size_t named[NAMED];
        list_named(n, named);
        for (size_t i = 0; i < NAMED; i++)
            try_named(&m, named[i], draw_room(WUNDRESKA_REASON_SIZE));
    }
}

/* ---- several faults, so that their order shows ---- */

static void compare_areas(void)
{
    begin_category("reasons asked for with answer areas of every length");
    for (size_t room = 0; room <= WUNDRESKA_REASON_SIZE + 1; room++)
        for (int i = 0; i < 20; i++) {
            Model m = draw_any(FEW, FEW);
            try_named(&m, draw_faulty_named(m.n), room);
        }
}

static void try_faulty_file(const Model *m)
{
    static File file;
    file.length = write_file(m, file.bytes);
    if (one_in(3))
        file.length = damage_file(file.bytes, file.length);
    name_column(draw_faulty_named(m->n));
    try_area(&why_question, file.bytes, file.length, draw_length(WUNDRESKA_REASON_SIZE));
}

static void compare_faults(void)
{
    begin_category("reasons asked of files, with several faults of the file and the question");
    for (int i = 0; i < 30000; i++) {
        Model m = draw_with_twice();
        try_faulty_file(&m);
    }
    begin_category("reasons asked of models handed over, with several faults of the question");
    for (int i = 0; i < 20000; i++) {
        Model m = draw_with_twice();
        name_column(draw_faulty_named(m.n));
        count_case(handed_complaint(&why_question, &m, exact_lengths(&m, draw_length(WUNDRESKA_REASON_SIZE))), &m);
    }
    begin_category("reasons asked of models handed over, with several faults of the model besides");
    for (int i = 0; i < 30000; i++) {
        Model m = draw_any(FEW, FEW);
        name_column(draw_faulty_named(m.n));
        draw_numbers(&m);
        Lengths l = spoil_numbered(&m, WUNDRESKA_REASON_SIZE);
        count_case(handed_complaint(&why_question, &m, l), &m);
    }
}

/* ---- damaged files ---- */

static void compare_damages(void)
{
    static File file;
    begin_category("reasons asked of damaged files: every prefix, every bit turned, random damage");
    for (int i = 0; i < 20; i++) {
        Model m = draw_any(FEW, FEW);
        file.length = write_file(&m, file.bytes);
        name_column(draw(m.n));
        try_prefixes(&why_question, file.bytes, file.length);
        try_flips(&why_question, file.bytes, file.length);
        try_damages(&why_question, file.bytes, file.length, file.length);
    }
}

void compare_placed(void)
{
    compare_named();
    compare_areas();
    compare_faults();
    compare_damages();
}
