/* Edits to make, one after another: those that are accepted, and those that are refused for every cause. */
#include "edits.h"

/* ---- an edit as bytes ---- */

/* What a row is that is not judged. */
static uint8_t any_byte(void)
{
    return draw(256);
}

static Sent sent_of(unsigned kind, size_t row, size_t column)
{
    Sent sent = {.bytes = {kind, row, column}, .length = WUNDRESKA_EDIT_LENGTH + (one_in(3) ? draw(MORE + 1) : 0)};
    for (size_t i = WUNDRESKA_EDIT_LENGTH; i < EDIT_MOST; i++)
        sent.bytes[i] = any_byte();
    return sent;
}

/* ---- accepted ones ---- */

static size_t draw_from(Set set)
{
    for (size_t skip = draw(size_of_set(set)); skip > 0; skip--)
        set &= set - 1;
    return smallest_of(set);
}

Habit draw_habit(void)
{
    return (Habit){1 + draw(4), 1 + draw(4), draw(5), draw(4)};
}

/* Often in a column that is out. */
static size_t draw_place_column(const Open *open)
{
    Set out = all_below(open->model.n) & ~open->present;
    return out && one_in(2) ? draw_from(out) : draw(open->model.n);
}

static Sent draw_setting(const Open *open)
{
    return sent_of(WUNDRESKA_SET_PLACE, draw(open->model.b), draw_place_column(open));
}

/* Mostly of a place that is set. */
static Sent draw_clearing(const Open *open)
{
    size_t row = draw(open->model.b);
    Set set = open->model.parameters[row];
    return sent_of(WUNDRESKA_CLEAR_PLACE, row, set && !one_in(4) ? draw_from(set) : draw_place_column(open));
}

Sent draw_accepted(const Open *open, const Habit *habit)
{
    Set out = all_below(open->model.n) & ~open->present;
    uint64_t off = open->present ? habit->off : 0, back = out ? habit->back : 0, set = open->model.b ? habit->set : 0;
    uint64_t clear = open->model.b ? habit->clear : 0, drawn = draw(off + back + set + clear);
    if (drawn < off)
        return sent_of(WUNDRESKA_TAKE_OFF, any_byte(), draw_from(open->present));
    if (drawn < off + back)
        return sent_of(WUNDRESKA_PUT_BACK, any_byte(), draw_from(out));
    return drawn < off + back + set ? draw_setting(open) : draw_clearing(open);
}

/* ---- refused ones ---- */

/* A number of a byte that is not below the bound: just that, some about a word and the most, or any. */
static size_t draw_beyond(size_t bound)
{
    static const size_t others[] = {WORD, WORD + 1, WUNDRESKA_COLUMNS_MAX - 1, WUNDRESKA_COLUMNS_MAX, WIDTH - 1, WIDTH, 255};
    size_t other = others[draw(COUNT(others))];
    if (one_in(2))
        return bound + (one_in(3) ? draw(3) : 0);
    return other >= bound && one_in(2) ? other : bound + draw(256 - bound);
}

static unsigned draw_kind(void)
{
    return WUNDRESKA_TAKE_OFF + draw(4);
}

/* The others are of other causes, which are judged later. */
static Sent draw_cut(const Open *open)
{
    Sent sent = sent_of(one_in(2) ? draw_kind() : any_byte(), any_byte(), draw(open->model.n));
    sent.length = draw(WUNDRESKA_EDIT_LENGTH);
    return sent;
}

static Sent draw_other_kind(const Open *open)
{
    unsigned kind = one_in(2) ? (one_in(2) ? 0 : WUNDRESKA_CLEAR_PLACE + 1) : WUNDRESKA_CLEAR_PLACE + 1 + draw(251);
    return sent_of(kind, any_byte(), one_in(2) ? draw(open->model.n) : any_byte());
}

static Sent draw_row_beyond(const Open *open)
{
    unsigned kind = one_in(2) ? WUNDRESKA_SET_PLACE : WUNDRESKA_CLEAR_PLACE;
    return sent_of(kind, draw_beyond(open->model.b), one_in(3) ? draw_beyond(open->model.n) : draw(open->model.n));
}

/* Without parameter rows no place has one. */
static Sent draw_column_beyond(const Open *open)
{
    unsigned kind = open->model.b > 0 ? draw_kind() : one_in(2) ? WUNDRESKA_TAKE_OFF : WUNDRESKA_PUT_BACK;
    size_t row = kind == WUNDRESKA_TAKE_OFF || kind == WUNDRESKA_PUT_BACK ? any_byte() : draw(open->model.b);
    return sent_of(kind, row, draw_beyond(open->model.n));
}

static Sent draw_already_so(const Open *open)
{
    Set out = all_below(open->model.n) & ~open->present, in = open->present & all_below(open->model.n);
    if (out && (!in || one_in(2)))
        return sent_of(WUNDRESKA_TAKE_OFF, any_byte(), draw_from(out));
    return sent_of(WUNDRESKA_PUT_BACK, any_byte(), draw_from(in));
}

Sent draw_refused(const Open *open, uint32_t refusal)
{
    switch (refusal) {
    case WUNDRESKA_TRUNCATED: return draw_cut(open);
    case WUNDRESKA_UNEXPECTED: return draw_other_kind(open);
    case WUNDRESKA_ROW_BEYOND: return draw_row_beyond(open);
    case WUNDRESKA_COLUMN_BEYOND: return draw_column_beyond(open);
    default: return draw_already_so(open);
    }
}

Sent draw_sent_edit(const Open *open)
{
    static const Habit habit = {1, 1, 1, 1};
    static const uint32_t refusals[] = {1, 2, 9, 11, 14};
    if (one_in(2))
        return draw_accepted(open, &habit);
    return one_in(4) ? sent_of(draw_kind(), any_byte(), any_byte()) : draw_refused(open, refusals[draw(COUNT(refusals))]);
}
