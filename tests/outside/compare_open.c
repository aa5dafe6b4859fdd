/* Lists of edits of models held open: after each edit what the calls leave is compared with the reference, in an area and handed over, and
 * the answer with that of the model worked out afresh, for small models with the definition too. It is counted how many lists tell a
 * program with a fault. */
#include "edits.h"
#include "blocks.h"
#include "brute.h"

#include <stdio.h>
#include <string.h>

/* At least so many lists are to be made, of small models and of larger ones, and so many of more columns than a word has bits; of so many
 * edits at most. In so many the definition is run. Of small and of larger models so many are to tell each fault. */
enum {
    LISTS_ENOUGH = 20000,
    LARGER_ENOUGH = 5000,
    WIDE_ENOUGH = 1500,
    EDITS = 200,
    DEFINED_ENOUGH = 300,
    EMPTY_ENOUGH = 1000,
    TELLING_ENOUGH = 1000,
    REFUSED_ENOUGH = 10000
};

static const uint32_t causes[] = {1, 2, 9, 11, 14};

/* ---- what the lists were ---- */

static struct {
    unsigned long lists, telling[WRONG_EDITS];
} seen[2]; /* of the small models and of the larger ones */

static struct {
    unsigned long edits, refused, by_cause[COUNT(causes)], answers, wide, defined, empty, longest;
} all;

static void note_edit(uint32_t refusal)
{
    all.edits++;
    all.refused += refusal != 0;
    for (size_t i = 0; i < COUNT(causes); i++)
        all.by_cause[i] += refusal == causes[i];
}

static void note_list(const Model *m, const Wrongs *wrongs, size_t edits)
{
    int larger = m->n > SMALL;
    seen[larger].lists++;
    all.wide += m->n > WORD;
    all.longest = edits > all.longest ? edits : all.longest;
    for (int wrong = 0; wrong < WRONG_EDITS; wrong++)
        seen[larger].telling[wrong] += wrongs->told[wrong];
    count_case(wrongs->told[WRONG_EDITS] ? "the reference and the program without a fault differ" : NULL, m);
}

/* ---- a list ---- */

/* How often the answer is asked for, once in so many edits, and whether the definition is run. */
typedef struct {
    uint64_t rare;
    int defined;
} Asking;

static const char *definition_complaint(const Afresh *afresh)
{
    Enumerated e = enumerate_layered(&afresh->model);
    Truth truth = afresh->truth;
    if (e.rank != truth.rank || e.placed != truth.placed || e.short_set != truth.short_set || !e.short_is_least)
        return "the reference differs from the definition";
    return e.verdict == verdict_on(truth.rank, afresh->model.n, afresh->model.a + afresh->model.b)
               ? NULL
               : "the verdict differs from the definition";
}

/* Where nothing changed since the last question, what was worked out for that serves again. */
static void ask(const Held *held, Wrongs *wrongs, int changed, int defined)
{
    static Afresh afresh;
    if (changed)
        work_out(&held->open, &afresh);
    if (changed && defined)
        count_case(definition_complaint(&afresh), &held->open.model);
    all.answers++;
    all.empty += held->open.present == 0;
    try_answer(held, &afresh);
    answer_wrongs(wrongs, &held->open, &afresh);
}

/* About a fifth of the edits are refused. */
static Sent draw_next(const Open *open, const Habit *habit)
{
    return draw(9) < 2 ? draw_refused(open, causes[draw(COUNT(causes))]) : draw_accepted(open, habit);
}

static void try_opening(const Model *m, size_t length)
{
    static Model opened;
    const File *file = sound_file(m);
    count_case(open_complaint(file->bytes, file->length, draw_room(length), &opened), m);
    count_case(open_handed_complaint(m, exact_lengths(m, draw_room(WUNDRESKA_SET_SIZE))), m);
}

static void try_list(const Model *m, size_t edits, Asking asking)
{
    static Held held;
    static Wrongs wrongs;
    Habit habit = draw_habit();
    int changed = 1;
    hold(m, &held);
    begin_wrongs(&wrongs, m, &held);
    try_opening(m, held.length);
    for (size_t i = 1; i <= edits; i++) {
        Sent sent = draw_next(&held.open, &habit);
        uint32_t refusal = try_edit(&held, &sent);
        edit_wrongs(&wrongs, &sent, refusal, &held.open);
        note_edit(refusal);
        changed = changed || refusal == 0;
        if (i == edits || one_in(asking.rare)) {
            ask(&held, &wrongs, changed, asking.defined);
            changed = 0;
        }
    }
    all.defined += asking.defined != 0;
    note_list(m, &wrongs, edits);
}

static size_t draw_edits(void)
{
    return one_in(5) ? EDITS : 1 + draw(EDITS);
}

/* ---- small models, answered after each edit ---- */

static void try_small(Model m)
{
    try_list(&m, draw_edits(), (Asking){1, 0});
}

static size_t draw_few(void)
{
    return one_in(4) ? SMALL : 1 + draw(SMALL);
}

static void compare_bench(const char *folder)
{
    static const char *const names[] = {"s1", "s2", "s3", "s4", "s5", "s6", "s7", "s8", "s9", "s10", "s11", "s12", "chilled_water_loop",
                                        "chilled_water_loop_filled", "chilled_water_loop_numbered", "chilled_water_loop_square",
                                        "milk_preheater", "two_meters", "heat_recovery", "heat_recovery_open", "example_3_1",
                                        "example_3_4"};
    begin_category("lists of edits of bench models");
    for (size_t i = 0; i < COUNT(names); i++) {
        Model m = {0};
        count_case(load_model(folder, names[i], &m) == 0 ? NULL : "the file is not a model", &m);
        for (int k = 0; k < 5; k++)
            try_list(&m, EDITS, (Asking){m.n <= SMALL ? 1 : 10, 0});
    }
}

static void compare_small(void)
{
    static const uint32_t small_primes[] = {2, 3, 5};
    begin_category("lists of edits of models up to 6 columns, answered by the definition too");
    for (int i = 0; i < 350; i++) {
        Model m = numbered_or_not(draw_model(small_primes, COUNT(small_primes), BRUTE_COLUMNS, 4));
        try_list(&m, draw_edits(), (Asking){1, 1});
    }
    begin_category("lists of edits of models up to 12 columns, drawn at random");
    for (int i = 0; i < 8000; i++)
        try_small(draw_any(SMALL, SMALL));
    begin_category("lists of edits of models up to 12 columns, of a rank that is drawn");
    for (int i = 0; i < 3000; i++)
        try_small(draw_sized(draw_few(), draw(SMALL), draw(SMALL)));
    begin_category("lists of edits of cascades up to 12 columns");
    for (int i = 0; i < 3500; i++)
        try_small(draw_cascade(draw_few()));
}

/* ---- larger models, answered after some edits and the last ---- */

static void try_larger(Model m)
{
    try_list(&m, draw_edits(), (Asking){m.n <= WORD ? 40 : 150, 0});
}

static void compare_larger(void)
{
    begin_category("lists of edits of models of 13 to 64 columns");
    for (int i = 0; i < 2000; i++)
        try_larger(draw_cascade(SMALL + 1 + draw(WORD - SMALL)));
    for (int i = 0; i < 1600; i++)
        try_larger(draw_sized(SMALL + 1 + draw(WORD - SMALL), draw(WORD / 2), draw(WORD / 2)));
    begin_category("lists of edits of models of 65 to 96 columns");
    for (int i = 0; i < 1000; i++)
        try_larger(draw_cascade(WORD + 1 + draw(WUNDRESKA_COLUMNS_MAX - WORD)));
    for (int i = 0; i < 1000; i++)
        try_larger(draw_sized(WORD + 1 + draw(WUNDRESKA_COLUMNS_MAX - WORD), draw(WORD), draw(WORD)));
    begin_category("lists of edits of models up to 96 columns and rows, drawn at random");
    for (int i = 0; i < 100; i++)
        try_larger(draw_any(WUNDRESKA_COLUMNS_MAX, WUNDRESKA_ROWS_MAX));
}

/* ---- edits that undo each other ---- */

static Called ask_area(const Held *held)
{
    return call_file(wundreska_answer, held->area, held->length, WUNDRESKA_ANSWER_SIZE, WUNDRESKA_ANSWER_SIZE);
}

static Sent sent_as(unsigned kind, size_t row, size_t column)
{
    return (Sent){.bytes = {kind, row, column}, .length = WUNDRESKA_EDIT_LENGTH};
}

/* The second edit undoes the first: what is held is as before, and so are all bytes of the answer. */
static void try_undone(Held *held, Sent first, Sent second)
{
    static Held before;
    static Called once, again;
    before = *held;
    once = ask_area(held);
    try_edit(held, &first);
    try_edit(held, &second);
    again = ask_area(held);
    int same = !memcmp(before.area, held->area, held->length) && !memcmp(once.out, again.out, WUNDRESKA_ANSWER_SIZE);
    count_case(same ? NULL : "the answer is not the one before", &held->open.model);
}

static void try_there_and_back(Model m)
{
    static Held held;
    Habit habit = draw_habit();
    size_t c = draw(m.n), r = m.b > 0 ? draw(m.b) : 0;
    hold(&m, &held);
    for (uint64_t i = draw(SMALL); i > 0; i--) {
        Sent sent = draw_accepted(&held.open, &habit);
        try_edit(&held, &sent);
    }
    int in = has(held.open.present, c), set = has(held.open.model.parameters[r], c);
    try_undone(&held, sent_as(in ? WUNDRESKA_TAKE_OFF : WUNDRESKA_PUT_BACK, r, c),
               sent_as(in ? WUNDRESKA_PUT_BACK : WUNDRESKA_TAKE_OFF, r, c));
    if (m.b > 0)
        try_undone(&held, sent_as(set ? WUNDRESKA_CLEAR_PLACE : WUNDRESKA_SET_PLACE, r, c),
                   sent_as(set ? WUNDRESKA_SET_PLACE : WUNDRESKA_CLEAR_PLACE, r, c));
}

static void compare_undone(void)
{
    begin_category("columns taken off and put back, places set and cleared, and the other way round: the answer before");
    for (int i = 0; i < 3000; i++)
        try_there_and_back(draw_any(SMALL, SMALL));
    for (int i = 0; i < 100; i++)
        try_there_and_back(draw_cascade(draw_wide()));
}

/* ---- what all lists were ---- */

static void require(unsigned long count, unsigned long least, const char *complaint)
{
    static const Model none;
    count_case(count >= least ? NULL : complaint, &none);
}

static const char *const told[WRONG_EDITS] = {
    [PLACES_FORGOTTEN] = "lists tell a column that returns without the places set while it was out",
    [PLACES_CLEARED] = "lists tell a taking off that clears the column's places",
    [PUT_BACK_BY_SETTING] = "lists tell a setting that puts the column back",
    [ALREADY_SO_FIRST] = "lists tell 14 given before 11",
    [ROW_LATER] = "lists tell 9 given after 11",
    [ROW_OF_EVERY_KIND] = "lists tell 9 given for a column taken off or put back",
    [OUT_REFUSED] = "lists tell 14 given for a place whose column is out",
    [REFUSED_CHANGES] = "lists tell a refused edit that changes the present columns",
    [PLACES_TURNED] = "lists tell a place that is turned where it is to be set or cleared",
    [VERDICT_AS_OPENED] = "lists tell a verdict by the n as opened",
    [RENUMBERED] = "lists tell an answer by the columns' numbers among those present",
    [NUMBERS_KEPT] = "lists tell numbers that are kept",
};

static void require_all(void)
{
    begin_category("how many lists of edits were made, and of which kinds");
    require(seen[0].lists + seen[1].lists, LISTS_ENOUGH, "too few lists were made");
    require(seen[1].lists, LARGER_ENOUGH, "too few lists are of larger models");
    require(all.wide, WIDE_ENOUGH, "too few lists are of models with more columns than a word has bits");
    require(all.defined, DEFINED_ENOUGH, "too few lists were compared with the definition");
    require(all.longest, EDITS, "no list is as long as there are to be");
    require(5 * all.refused, all.edits, "fewer than a fifth of the edits are refused");
    require(all.empty, EMPTY_ENOUGH, "too few answers are asked for with no column present");
    for (size_t i = 0; i < COUNT(causes); i++)
        require(all.by_cause[i], REFUSED_ENOUGH, "too few edits are refused for one of the causes");
    for (int larger = 0; larger < 2; larger++)
        for (int wrong = 0; wrong < WRONG_EDITS; wrong++)
            require(seen[larger].telling[wrong], TELLING_ENOUGH, "too few lists tell a program with a fault");
}

static void print_kinds(void)
{
    char line[160];
    for (int wrong = 0; wrong < WRONG_EDITS; wrong++)
        print_count(seen[0].telling[wrong] + seen[1].telling[wrong], told[wrong]);
    for (size_t i = 0; i < COUNT(causes); i++) {
        snprintf(line, sizeof line, "edits are refused with %u", (unsigned)causes[i]);
        print_count(all.by_cause[i], line);
    }
    snprintf(line, sizeof line, "edits in all, %lu of them refused, each in an area and but for those cut handed over", all.refused);
    print_count(all.edits, line);
    snprintf(line, sizeof line, "answers of the model worked out afresh, %lu of them with no column present", all.empty);
    print_count(all.answers, line);
    snprintf(line, sizeof line, "lists in all, %lu of them of more than %d columns, %lu of these of more than %d", seen[1].lists, SMALL,
             all.wide, WORD);
    print_count(seen[0].lists + seen[1].lists, line);
}

void compare_open(const char *folder)
{
    compare_bench(folder);
    compare_small();
    compare_larger();
    compare_undone();
    require_all();
    print_kinds();
}
