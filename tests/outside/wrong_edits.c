/* Programs that hold a model open with one fault each: in what an edit changes, in the order of refusals, or in what is answered. */
#include "edits.h"

#include <string.h>

static int is_of_place(const Edit *edit)
{
    return edit->kind == WUNDRESKA_SET_PLACE || edit->kind == WUNDRESKA_CLEAR_PLACE;
}

/* ---- refusals ---- */

static uint32_t judge_row(const Model *m, const Edit *edit, WrongEdit wrong)
{
    return (is_of_place(edit) || wrong == ROW_OF_EVERY_KIND) && edit->row >= m->b ? 9 : 0;
}

static uint32_t judge_column(const Model *m, const Edit *edit)
{
    return edit->column >= m->n ? 11 : 0;
}

/* A column of any number is out where it is not held as present. */
static uint32_t judge_already_so(const WrongHeld *held, const Edit *edit, WrongEdit wrong)
{
    int present = edit->column < 8 * sizeof(Set) && has(held->present, edit->column);
    if (is_of_place(edit))
        return wrong == OUT_REFUSED && !present ? 14 : 0;
    return present == (edit->kind == WUNDRESKA_PUT_BACK) ? 14 : 0;
}

static uint32_t first_of(uint32_t first, uint32_t second, uint32_t third)
{
    return first ? first : second ? second : third;
}

static uint32_t judge_wrongly(const WrongHeld *held, const Model *m, const Edit *edit, WrongEdit wrong)
{
    uint32_t row = judge_row(m, edit, wrong), column = judge_column(m, edit), already = judge_already_so(held, edit, wrong);
    if (wrong == ALREADY_SO_FIRST)
        return first_of(row, already, column);
    if (wrong == ROW_LATER)
        return first_of(column, row, already);
    return first_of(row, column, already);
}

/* ---- what an edit changes ---- */

static void put_back(WrongHeld *held, Set column, WrongEdit wrong)
{
    held->present |= column;
    for (size_t r = 0; r < WUNDRESKA_ROWS_MAX; r++) {
        held->parameters[r] &= wrong == PLACES_FORGOTTEN ? ~(column & held->set_while_out[r]) : ~(Set)0;
        held->set_while_out[r] &= ~column;
    }
}

static void take_off(WrongHeld *held, Set column, WrongEdit wrong)
{
    held->present &= ~column;
    for (size_t r = 0; r < WUNDRESKA_ROWS_MAX && wrong == PLACES_CLEARED; r++)
        held->parameters[r] &= ~column;
}

static void set_place(WrongHeld *held, size_t row, Set column, WrongEdit wrong)
{
    if (!(held->present & column) && !(held->parameters[row] & column))
        held->set_while_out[row] |= column;
    held->parameters[row] ^= wrong == PLACES_TURNED ? column : column & ~held->parameters[row];
    held->present |= wrong == PUT_BACK_BY_SETTING ? column : 0;
}

static void clear_place(WrongHeld *held, size_t row, Set column, WrongEdit wrong)
{
    held->set_while_out[row] &= ~column;
    held->parameters[row] ^= wrong == PLACES_TURNED ? column : column & held->parameters[row];
}

static void make_wrongly(WrongHeld *held, const Edit *edit, WrongEdit wrong)
{
    Set column = just(edit->column);
    switch (edit->kind) {
    case WUNDRESKA_TAKE_OFF: take_off(held, column, wrong); break;
    case WUNDRESKA_PUT_BACK: put_back(held, column, wrong); break;
    case WUNDRESKA_SET_PLACE: set_place(held, edit->row, column, wrong); break;
    default: clear_place(held, edit->row, column, wrong); break;
    }
}

/* The fault changes the set of present columns although the edit is refused for its row, its column, or what it asks for. */
static uint32_t run_wrongly(WrongHeld *held, const Model *m, const Sent *sent, WrongEdit wrong)
{
    Edit edit;
    uint32_t refusal = judge_edit_bytes(sent->bytes, sent->length, &edit);
    if (refusal)
        return refusal;
    refusal = judge_wrongly(held, m, &edit, wrong);
    if (refusal == 0)
        make_wrongly(held, &edit, wrong);
    else if (wrong == REFUSED_CHANGES && edit.column < WUNDRESKA_COLUMNS_MAX)
        held->present ^= just(edit.column);
    return refusal;
}

/* ---- along a list ---- */

/* The open model of a numbered one has no more bytes than of the same unnumbered. */
void begin_wrongs(Wrongs *wrongs, const Model *m, const Held *held)
{
    static uint8_t file[WUNDRESKA_FILE_MAX];
    memset(wrongs, 0, sizeof *wrongs);
    for (int wrong = 0; wrong <= WRONG_EDITS; wrong++) {
        wrongs->held[wrong].present = held->open.present;
        memcpy(wrongs->held[wrong].parameters, m->parameters, sizeof m->parameters);
    }
    wrongs->told[NUMBERS_KEPT] = WUNDRESKA_OPEN_FILE + write_file(m, file) != held->length;
}

void edit_wrongs(Wrongs *wrongs, const Sent *sent, uint32_t refusal, const Open *due)
{
    for (int wrong = 0; wrong <= WRONG_EDITS; wrong++) {
        WrongHeld *held = &wrongs->held[wrong];
        if (wrongs->told[wrong])
            continue;
        uint32_t given = run_wrongly(held, &due->model, sent, wrong);
        wrongs->told[wrong] = given != refusal || held->present != due->present ||
                              memcmp(held->parameters, due->model.parameters, due->model.b * sizeof(Set)) != 0;
    }
}

void answer_wrongs(Wrongs *wrongs, const Open *open, const Afresh *afresh)
{
    Truth truth = afresh->truth;
    size_t rows = open->model.a + open->model.b;
    if (verdict_on(truth.rank, open->model.n, rows) != verdict_on(truth.rank, afresh->model.n, rows))
        wrongs->told[VERDICT_AS_OPENED] = 1;
    if (as_opened(truth.placed, open->present) != truth.placed || as_opened(truth.short_set, open->present) != truth.short_set)
        wrongs->told[RENUMBERED] = 1;
}
