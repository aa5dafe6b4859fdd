/* What is wrong with a call: the first thing found, or NULL. */
#include "compare.h"

#include <string.h>

const char *refusal_complaint(const Called *c, uint32_t refusal)
{
    if (c->refusal != refusal)
        return "refusal number";
    return c->intact ? NULL : "a lent byte changed";
}

/* ---- the layered answer ---- */

Answer layered_answer_in(const uint8_t *bytes)
{
    Answer answer = {.verdict = bytes[WUNDRESKA_VERDICT],
                     .rank = bytes[WUNDRESKA_RANK],
                     .placed = set_at(bytes + WUNDRESKA_PLACED),
                     .constants = set_at(bytes + WUNDRESKA_CONSTANTS),
                     .short_set = set_at(bytes + WUNDRESKA_SHORT)};
    memcpy(answer.rows, bytes + WUNDRESKA_ROWS, WUNDRESKA_ROWS_SIZE);
    return answer;
}

const char *called_complaint(const Model *m, const Called *c, Truth truth)
{
    Answer answer = layered_answer_in(c->out);
    return answer_complaint(m, &answer, truth);
}

const char *layered_complaint(const Model *m, Truth truth)
{
    Called c = call_model(harness_layered, m, exact_lengths(m, WUNDRESKA_ANSWER_SIZE), WUNDRESKA_ANSWER_SIZE);
    const char *complaint = refusal_complaint(&c, 0);
    return complaint ? complaint : called_complaint(m, &c, truth);
}

/* ---- the mixed answer ---- */

static MixedAnswer mixed_answer_in(const uint8_t *bytes)
{
    return (MixedAnswer){.verdict = bytes[WUNDRESKA_MIXED_VERDICT],
                         .rank = bytes[WUNDRESKA_MIXED_RANK],
                         .rows = set_at(bytes + WUNDRESKA_MIXED_ROWS),
                         .columns = set_at(bytes + WUNDRESKA_MIXED_COLUMNS),
                         .short_set = set_at(bytes + WUNDRESKA_MIXED_SHORT)};
}

const char *called_mixed_complaint(const Model *m, const Called *c)
{
    MixedAnswer answer = mixed_answer_in(c->out);
    return mixed_model_complaint(m, &answer);
}

const char *mixed_complaint(const Model *m, size_t rank, Truth form)
{
    Called c = call_model(harness_mixed, m, exact_lengths(m, WUNDRESKA_MIXED_SIZE), WUNDRESKA_MIXED_SIZE);
    const char *complaint = refusal_complaint(&c, 0);
    MixedAnswer answer = mixed_answer_in(c.out);
    return complaint ? complaint : mixed_answer_complaint(m, &answer, rank, form);
}
