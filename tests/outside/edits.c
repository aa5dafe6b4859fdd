/* Models held open: the calls on areas and on models handed over, their refusals, and complaints about what they leave and answer. */
#include "edits.h"

#include <string.h>

void hold(const Model *m, Held *held)
{
    open_model(m, &held->open);
    held->length = write_open(&held->open, held->area);
}

/* ---- opening ---- */

/* First the file's own refusals, then that of the area. */
const char *open_complaint(const uint8_t *file, size_t length, size_t area_length, Model *m)
{
    static Held due;
    uint32_t refusal = judge_file(file, length, m);
    due.length = 0;
    if (refusal == 0)
        hold(m, &due);
    if (refusal == 0 && area_length < due.length)
        refusal = 8;
    Called c = call_file(wundreska_open, file, length, area_length, due.length);
    const char *complaint = refusal_complaint(&c, refusal);
    return complaint || refusal || !memcmp(c.out, due.area, due.length) ? complaint : "the open model's bytes";
}

/* First the refusals of the model, then that of the area. */
const char *open_handed_complaint(const Model *m, Lengths l)
{
    uint32_t refusal = judge_areas(m, l.constants, l.rows, l.numbers);
    if (refusal == 0 && l.out < WUNDRESKA_SET_SIZE)
        refusal = 8;
    Called c = call_model(harness_open, m, l, WUNDRESKA_SET_SIZE);
    const char *complaint = refusal_complaint(&c, refusal);
    return complaint || refusal || set_at(c.out) == all_below(m->n) ? complaint : "the columns present";
}

/* ---- edits ---- */

static const char *edited_complaint(Edited e, uint32_t refusal)
{
    if (e.refusal != refusal)
        return "refusal number of the edit";
    return e.as_due ? NULL : refusal ? "a refused edit changed a lent byte" : "what the edit left is not as due";
}

/* First the area as a file is judged, then the edit's bytes, then what it asks for. */
const char *edit_complaint(const uint8_t *area, size_t length, const Sent *sent)
{
    static Open open;
    static uint8_t due[WUNDRESKA_OPEN_MAX];
    Edit edit;
    uint32_t refusal = judge_open(area, length, &open);
    if (refusal == 0)
        refusal = judge_edit_bytes(sent->bytes, sent->length, &edit);
    if (refusal == 0)
        refusal = judge_edit(&open, &edit);
    if (refusal == 0) {
        make_edit(&open, &edit);
        write_open(&open, due);
    }
    return edited_complaint(call_edit(area, length, sent->bytes, sent->length, due), refusal);
}

/* First the kind and the area of present columns, then the model, then what the edit asks for. */
const char *edit_handed_complaint(const Open *open, Lengths l, size_t present_length, const Edit *edit)
{
    static Open due;
    uint32_t refusal = judge_kind(edit->kind);
    if (refusal == 0 && present_length < WUNDRESKA_SET_SIZE)
        refusal = 8;
    if (refusal == 0)
        refusal = judge_areas(&open->model, l.constants, l.rows, 0);
    if (refusal == 0)
        refusal = judge_edit(open, edit);
    due = *open;
    if (refusal == 0)
        make_edit(&due, edit);
    return edited_complaint(call_handed_edit(open, l, present_length, edit, &due), refusal);
}

/* ---- the answer ---- */

static const char *given_complaint(const Open *open, const Called *c, const Afresh *afresh)
{
    Answer answer = layered_answer_in(c->out);
    return open_answer_complaint(open, &answer, afresh);
}

static const char *worked_out_complaint(const Open *open, const Called *c)
{
    static Afresh afresh;
    work_out(open, &afresh);
    return given_complaint(open, c, &afresh);
}

/* First the area as a file is judged, then that of the answer, then the columns held as present. */
const char *answered_complaint(const uint8_t *area, size_t length, size_t answer_length)
{
    static Open open;
    uint32_t refusal = judge_open(area, length, &open);
    if (refusal == 0 && answer_length < WUNDRESKA_ANSWER_SIZE)
        refusal = 8;
    if (refusal == 0)
        refusal = judge_present(&open);
    Called c = call_file(wundreska_answer, area, length, answer_length, WUNDRESKA_ANSWER_SIZE);
    const char *complaint = refusal_complaint(&c, refusal);
    return complaint || refusal ? complaint : worked_out_complaint(&open, &c);
}

/* The present columns that the next question about a model handed over comes with. */
static struct {
    const uint8_t *present;
    size_t length;
} handed;

static void hand_present(Set present, size_t length)
{
    uint8_t bytes[PRESENT_MOST];
    put_present(present, bytes);
    handed.present = lend_beside_at(BESIDE - 1, bytes, length);
    handed.length = length;
}

static uint32_t ask_handed(uint32_t p, size_t n, size_t a, size_t b, const uint16_t *constants, size_t constants_len,
                           const uint64_t *parameters, size_t parameters_len, bool numbered, const uint16_t *numbers,
                           size_t numbers_len, uint8_t *out, size_t out_len)
{
    (void)numbered, (void)numbers, (void)numbers_len;
    return harness_answer(p, n, a, b, constants, constants_len, parameters, parameters_len, handed.present, handed.length, out, out_len);
}

/* What is present in so many bytes: those that are missing count as 0. */
static Set seen_present(Set present, size_t length)
{
    return length < sizeof present ? present & all_below(8 * length) : present;
}

/* First the refusals of the model, then the columns held as present, then the area written. */
const char *answered_handed_complaint(const Open *open, Lengths l, size_t present_length)
{
    static Open shown;
    uint32_t refusal = judge_areas(&open->model, l.constants, l.rows, 0);
    shown = *open;
    shown.present = seen_present(open->present, present_length);
    if (refusal == 0)
        refusal = judge_present(&shown);
    if (refusal == 0 && l.out < WUNDRESKA_ANSWER_SIZE)
        refusal = 8;
    hand_present(open->present, present_length);
    Called c = call_model(ask_handed, &open->model, l, WUNDRESKA_ANSWER_SIZE);
    const char *complaint = refusal_complaint(&c, refusal);
    return complaint || refusal ? complaint : worked_out_complaint(&shown, &c);
}

/* ---- along a list ---- */

/* Other numbers that are refused alike: a number that is cut to a byte or to 32 bits may be one that is not. */
static size_t widen(size_t number, size_t bound)
{
    static const size_t high[] = {1 << 8, (size_t)1 << 32, SIZE_MAX / 2 + 1};
    size_t below = bound > 0 ? draw(bound) : 0;
    if (number < bound || one_in(3))
        return number;
    return one_in(6) ? SIZE_MAX - draw(2) : high[draw(COUNT(high))] + below;
}

static void try_handed_edit(const Open *open, Edit edit, uint32_t refusal, const Open *due)
{
    size_t present_length = WUNDRESKA_SET_SIZE + (one_in(3) ? draw(PRESENT_MOST - WUNDRESKA_SET_SIZE + 1) : 0);
    edit.row = widen(edit.row, open->model.b);
    edit.column = widen(edit.column, open->model.n);
    Edited e = call_handed_edit(open, exact_lengths(&open->model, 0), present_length, &edit, due);
    count_case(edited_complaint(e, refusal), &open->model);
}

/* The area is the reference's bytes, so that the open model is not refused. */
uint32_t try_edit(Held *held, const Sent *sent)
{
    static Held next;
    Edit edit;
    uint32_t refusal = judge_edit_bytes(sent->bytes, sent->length, &edit);
    if (refusal == 0)
        refusal = judge_edit(&held->open, &edit);
    next.open = held->open;
    if (refusal == 0)
        make_edit(&next.open, &edit);
    write_open(&next.open, next.area);
    count_case(edited_complaint(call_edit(held->area, held->length, sent->bytes, sent->length, next.area), refusal), &held->open.model);
    if (refusal != 1)
        try_handed_edit(&held->open, edit, refusal, &next.open);
    held->open = next.open;
    memcpy(held->area, next.area, held->length);
    return refusal;
}

static const char *accepted_complaint(const Open *open, const Called *c, const Afresh *afresh)
{
    const char *complaint = refusal_complaint(c, 0);
    return complaint ? complaint : given_complaint(open, c, afresh);
}

void try_answer(const Held *held, const Afresh *afresh)
{
    enum { SIZE = WUNDRESKA_ANSWER_SIZE };
    const Open *open = &held->open;
    Called by_area = call_file(wundreska_answer, held->area, held->length, draw_room(SIZE), SIZE);
    count_case(accepted_complaint(open, &by_area, afresh), &open->model);
    hand_present(open->present, WUNDRESKA_SET_SIZE + (one_in(3) ? draw(PRESENT_MOST - WUNDRESKA_SET_SIZE + 1) : 0));
    Called by_model = call_model(ask_handed, &open->model, exact_lengths(&open->model, draw_room(SIZE)), SIZE);
    count_case(accepted_complaint(open, &by_model, afresh), &open->model);
}
