/* Questions about a column and held ones that are refused, and with which number; bytes that are not read. */
#include "asked.h"
#include "numbers.h"

#include <string.h>

/* ---- bytes that are not read ---- */

/* A file's call asked twice, and that on the model handed over, with as many bytes as are ever lent. */
static const char *surplus_complaint(const Model *m, Set held, size_t named)
{
    enum { SIZE = WUNDRESKA_MULTIPLIERS_SIZE };
    const File *file = file_of(m);
    Called once = call_multipliers(file->bytes, file->length, columns_of(held, named, READ_BY_FILE, LENT), SIZE);
    Called again = call_multipliers(file->bytes, file->length, columns_of(held, named, READ_BY_FILE, LENT), SIZE);
    Called handed = call_handed_multipliers(m, columns_of(held, named, READ_HANDED, LENT), exact_lengths(m, SIZE));
    if (once.refusal || again.refusal || handed.refusal)
        return "a question is refused for bytes that are not to be read";
    if (memcmp(once.out, again.out, SIZE) || memcmp(once.out, handed.out, SIZE))
        return "the answer changes with bytes that are not to be read";
    return NULL;
}

static void compare_surplus(void)
{
    begin_category("questions asked again, with other bytes behind those of the held columns");
    for (int i = 0; i < 3000; i++) {
        Model m = draw_any(SMALL, SMALL);
        count_case(surplus_complaint(&m, draw_held(m.n), draw(m.n)), &m);
    }
}

/* ---- columns at n and later ---- */

static void try_held_everywhere(const Model *m)
{
    const File *file = file_of(m);
    for (size_t column = 0; column < WIDTH; column++) {
        Set held = just(column) | (one_in(2) ? draw_held(m->n) : 0);
        size_t room = draw_room(WUNDRESKA_MULTIPLIERS_SIZE);
        count_case(asked_handed_complaint(m, columns_to_hand(held, draw(m->n)), exact_lengths(m, room)), m);
        if (column < WUNDRESKA_COLUMNS_MAX)
            try_asked(file->bytes, file->length, columns_for_file(held, draw(m->n)), room);
    }
}

static void try_named_anywhere(const Model *m)
{
    const File *file = file_of(m);
    size_t named[NAMED];
    list_named(m->n, named);
    for (size_t i = 0; i < NAMED; i++)
        try_sound(m, file, draw_held(m->n), named[i]);
}

static void compare_columns_beyond(void)
{
    begin_category("a held column at every place that can be shown, for every n");
    for (size_t n = 1; n <= WUNDRESKA_COLUMNS_MAX; n++) {
        Model m = draw_sized(n, draw(FEW), draw(FEW));
        try_held_everywhere(&m);
    }
    begin_category("a named column about n and far behind it, for every n");
    for (size_t n = 1; n <= WUNDRESKA_COLUMNS_MAX; n++) {
        Model m = draw_sized(n, draw(FEW), draw(FEW));
        try_named_anywhere(&m);
    }
}

/* ---- several faults, so that their order shows ---- */

static Set draw_faulty_held(size_t n, size_t width)
{
    Set beyond = n < width && one_in(4) ? just(one_in(2) ? n : n + draw(width - n)) : 0;
    return draw_held(n) | beyond;
}

static void compare_areas(void)
{
    begin_category("questions with areas of every length, of the held columns and of the answer");
    for (size_t length = 0; length <= READ_BY_FILE + 1; length++)
        for (size_t room = 0; room <= WUNDRESKA_MULTIPLIERS_SIZE + 1; room++) {
            Model m = draw_any(FEW, FEW);
            const File *file = file_of(&m);
            Set held = draw_faulty_held(m.n, WUNDRESKA_COLUMNS_MAX);
            size_t named = draw_faulty_named(m.n);
            try_asked(file->bytes, file->length, columns_of(held, named, READ_BY_FILE, length), room);
            count_case(asked_handed_complaint(&m, columns_of(held, named, READ_HANDED, length), exact_lengths(&m, room)), &m);
        }
}

static void try_faulty_file(const Model *m)
{
    static File file;
    static Model judged;
    Set held = draw_faulty_held(m->n, WUNDRESKA_COLUMNS_MAX);
    Columns columns = columns_of(held, draw_faulty_named(m->n), READ_BY_FILE, draw_length(READ_BY_FILE));
    file.length = write_file(m, file.bytes);
    if (one_in(3))
        file.length = damage_file(file.bytes, file.length);
    write_number(file.bytes, file.length, judge_file(file.bytes, file.length, &judged));
    try_asked(file.bytes, file.length, columns, draw_length(WUNDRESKA_MULTIPLIERS_SIZE));
}

/* Columns to hand over beside a model that is sound so far. */
static Columns draw_faulty_columns(const Model *m)
{
    return columns_of(draw_faulty_held(m->n, WIDTH), draw_faulty_named(m->n), READ_HANDED, draw_length(READ_HANDED));
}

static void compare_faults(void)
{
    begin_category("questions about files, with several faults of the file and the question");
    for (int i = 0; i < 30000; i++) {
        Model m = draw_with_twice();
        try_faulty_file(&m);
    }
    begin_category("questions about models handed over, with several faults of the question");
    for (int i = 0; i < 20000; i++) {
        Model m = draw_with_twice();
        Lengths l = exact_lengths(&m, draw_length(WUNDRESKA_MULTIPLIERS_SIZE));
        count_case(asked_handed_complaint(&m, draw_faulty_columns(&m), l), &m);
    }
    begin_category("questions about models handed over, with several faults of the model besides");
    for (int i = 0; i < 30000; i++) {
        Model m = draw_any(FEW, FEW);
        Columns columns = draw_faulty_columns(&m);
        draw_numbers(&m);
        Lengths l = spoil_numbered(&m, WUNDRESKA_MULTIPLIERS_SIZE);
        count_case(asked_handed_complaint(&m, columns, l), &m);
    }
}

void compare_columns(void)
{
    compare_surplus();
    compare_columns_beyond();
    compare_areas();
    compare_faults();
}
