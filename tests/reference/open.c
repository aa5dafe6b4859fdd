/* The open model as document 02 has it. The columns present are answered as a model of their own; an answer under the numbers as opened is
 * moved to that model and judged there. */
#include "open.h"

/* ---- opening ---- */

void open_model(const Model *m, Open *open)
{
    open->present = all_below(m->n);
    open->model = *m;
    open->model.numbered = 0;
}

size_t write_open(const Open *open, uint8_t *area)
{
    for (size_t i = 0; i < WUNDRESKA_SET_SIZE; i++)
        area[i] = open->present >> 8 * i & 255;
    return WUNDRESKA_OPEN_FILE + write_file(&open->model, area + WUNDRESKA_OPEN_FILE);
}

/* ---- judgement ---- */

uint32_t judge_open(const uint8_t *area, size_t length, Open *open)
{
    if (length < WUNDRESKA_OPEN_FILE)
        return 1;
    open->present = set_at(area);
    return judge_unnumbered_file(area + WUNDRESKA_OPEN_FILE, length - WUNDRESKA_OPEN_FILE, &open->model);
}

uint32_t judge_kind(unsigned kind)
{
    return kind < WUNDRESKA_TAKE_OFF || kind > WUNDRESKA_CLEAR_PLACE ? 2 : 0;
}

uint32_t judge_edit_bytes(const uint8_t *bytes, size_t length, Edit *edit)
{
    if (length < WUNDRESKA_EDIT_LENGTH)
        return 1;
    *edit = (Edit){bytes[WUNDRESKA_EDIT_KIND], bytes[WUNDRESKA_EDIT_ROW], bytes[WUNDRESKA_EDIT_COLUMN]};
    return judge_kind(edit->kind);
}

uint32_t judge_present(const Open *open)
{
    return open->present & ~all_below(open->model.n) ? 11 : 0;
}

static int is_of_place(const Edit *edit)
{
    return edit->kind == WUNDRESKA_SET_PLACE || edit->kind == WUNDRESKA_CLEAR_PLACE;
}

uint32_t judge_edit(const Open *open, const Edit *edit)
{
    if (is_of_place(edit) && edit->row >= open->model.b)
        return 9;
    if (edit->column >= open->model.n || judge_present(open))
        return 11;
    if (edit->kind == WUNDRESKA_TAKE_OFF && !has(open->present, edit->column))
        return 14;
    if (edit->kind == WUNDRESKA_PUT_BACK && has(open->present, edit->column))
        return 14;
    return 0;
}

/* ---- edits ---- */

void make_edit(Open *open, const Edit *edit)
{
    Set column = just(edit->column);
    if (edit->kind == WUNDRESKA_TAKE_OFF)
        open->present &= ~column;
    else if (edit->kind == WUNDRESKA_PUT_BACK)
        open->present |= column;
    else if (edit->kind == WUNDRESKA_SET_PLACE)
        open->model.parameters[edit->row] |= column;
    else
        open->model.parameters[edit->row] &= ~column;
}

/* ---- the answer ---- */

void work_out(const Open *open, Afresh *afresh)
{
    afresh->model = only_columns(&open->model, open->present);
    afresh->truth = layered_truth(&afresh->model);
}

Set as_opened(Set columns, Set present)
{
    Set opened = 0;
    for (; present; present &= present - 1, columns >>= 1)
        if (has(columns, 0))
            opened |= just(smallest_of(present));
    return opened;
}

/* Columns that are present, by their numbers among these. */
static Set among(Set columns, Set present)
{
    Set numbers = 0;
    for (; columns; columns &= columns - 1)
        numbers |= just(size_of_set(present & all_below(smallest_of(columns))));
    return numbers;
}

/* A column that is out is in no set, and on no row. */
static const char *out_complaint(const Open *open, const Answer *answer)
{
    if ((answer->placed | answer->constants | answer->short_set) & ~open->present)
        return "a column that is out is in a set";
    for (size_t r = 0; r < WUNDRESKA_ROWS_SIZE; r++)
        if (answer->rows[r] != WUNDRESKA_NO_COLUMN && (answer->rows[r] >= open->model.n || !has(open->present, answer->rows[r])))
            return "a column that is out is on a row";
    return NULL;
}

const char *open_answer_complaint(const Open *open, const Answer *answer, const Afresh *afresh)
{
    Answer moved = *answer;
    Set present = open->present;
    const char *complaint = out_complaint(open, answer);
    if (complaint)
        return complaint;
    moved.placed = among(answer->placed, present);
    moved.constants = among(answer->constants, present);
    moved.short_set = among(answer->short_set, present);
    for (size_t r = 0; r < WUNDRESKA_ROWS_SIZE; r++)
        if (answer->rows[r] != WUNDRESKA_NO_COLUMN)
            moved.rows[r] = size_of_set(present & all_below(answer->rows[r]));
    return answer_complaint(&afresh->model, &moved, afresh->truth);
}
