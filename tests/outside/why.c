/* The question why a column is not placed: the calls about the column named, its refusals, complaints about the answer, and the
 * columns of sound models. */
#include "why.h"

static size_t named;

void name_column(size_t column)
{
    named = column;
}

/* ---- the calls ---- */

static uint32_t ask_file(const uint8_t *file, size_t file_len, uint8_t *answer, size_t answer_len)
{
    return wundreska_reason(file, file_len, named, answer, answer_len);
}

static uint32_t ask_handed(uint32_t p, size_t n, size_t a, size_t b, const uint16_t *constants, size_t constants_len,
                           const uint64_t *parameters, size_t parameters_len, bool numbered, const uint16_t *numbers,
                           size_t numbers_len, uint8_t *out, size_t out_len)
{
    return harness_reason(p, n, a, b, constants, constants_len, parameters, parameters_len, numbered, numbers, numbers_len, named,
                          out, out_len);
}

/* ---- the answer ---- */

static Reason reason_in(const uint8_t *bytes)
{
    Reason reason = {.set = set_at(bytes + WUNDRESKA_REASON), .given = bytes[WUNDRESKA_GIVEN]};
    get_multipliers(bytes + WUNDRESKA_REASON_MULTIPLIERS, reason.multipliers);
    return reason;
}

static const char *due_complaint(const Called *c, const Reason *due)
{
    Reason given = reason_in(c->out);
    if (given.set != due->set)
        return "the set is not the reason";
    if (given.given != due->given)
        return "whether multipliers are given";
    return same_reason(&given, due) ? NULL : "a multiplier";
}

/* By the definition, and by the reference. */
static const char *why_complaint(const Model *m, const Called *c)
{
    Reasons found = find_reasons(m);
    Reason due = reason_with(m, found.sets[named], named), given = reason_in(c->out);
    const char *complaint = reason_complaint(m, found.placed, named, &given);
    return complaint ? complaint : due_complaint(c, &due);
}

static uint32_t judge_named(const Model *m)
{
    return judge_unplaced(m, layered_truth(m).placed, named);
}

const Question why_question = {ask_file, ask_handed, WUNDRESKA_REASON_SIZE, judge_named, why_complaint};

/* ---- the columns of a sound model ---- */

static unsigned long compared;

unsigned long columns_compared(void)
{
    return compared;
}

static const char *accepted_complaint(const Called *c, const Reason *due)
{
    const char *complaint = refusal_complaint(c, 0);
    return complaint ? complaint : due_complaint(c, due);
}

/* The due answer is held against the definition, and both calls against the due answer. */
static void try_column(const Model *m, const File *file, const Reasons *reasons, size_t column)
{
    enum { SIZE = WUNDRESKA_REASON_SIZE };
    Reason due = reason_with(m, reasons->sets[column], column);
    const char *complaint = reason_complaint(m, reasons->placed, column, &due);
    name_column(column);
    Called handed = call_model(ask_handed, m, exact_lengths(m, draw_room(SIZE)), SIZE);
    count_case(complaint ? complaint : accepted_complaint(&handed, &due), m);
    Called filed = call_file(ask_file, file->bytes, file->length, draw_room(SIZE), SIZE);
    count_case(complaint ? complaint : accepted_complaint(&filed, &due), m);
    compared++;
}

void try_columns(const Model *m, const Reasons *reasons, Set chosen, uint64_t rare)
{
    const File *file = reasons->placed == all_below(m->n) ? NULL : file_of(m);
    for (size_t x = 0; x < m->n; x++)
        if (!has(reasons->placed, x) && (has(chosen, x) || one_in(rare)))
            try_column(m, file, reasons, x);
}

void try_all_columns(const Model *m, const Reasons *reasons)
{
    try_columns(m, reasons, all_below(m->n), 1);
}
