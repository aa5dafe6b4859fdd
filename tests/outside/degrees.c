/* The question about a degree: the calls with the powers handed over, their refusals, complaints about the answer, and sound models. */
#include "degrees.h"

#include "claims.h"

#include <string.h>

/* ---- the powers handed over ---- */

static struct {
    Powers powers;
    PowersLengths lengths;
    const uint8_t *rows, *columns, *parameters;
} handed;

void hand_powers(const Powers *powers, PowersLengths l)
{
    handed.powers = *powers;
    handed.lengths = l;
    handed.rows = lend_beside_at(0, powers->rows, l.rows);
    handed.columns = lend_beside_at(1, powers->columns, l.columns);
    handed.parameters = lend_beside_at(2, powers->parameters, l.parameters);
}

PowersLengths exact_powers(const Model *m)
{
    return (PowersLengths){m->a, m->n, m->b * m->n};
}

static size_t draw_enough(size_t needed)
{
    return needed + (one_in(3) ? draw(POWERS_BEHIND + 1) : 0);
}

PowersLengths draw_enough_powers(const Model *m)
{
    return (PowersLengths){draw_enough(m->a), draw_enough(m->n), draw_enough(m->b * m->n)};
}

/* An area that needs no byte cannot be too short. */
static size_t draw_any_length(size_t needed)
{
    return needed > 0 && one_in(8) ? (one_in(2) ? needed - 1 : draw(needed)) : draw_enough(needed);
}

PowersLengths draw_any_powers(const Model *m)
{
    return (PowersLengths){draw_any_length(m->a), draw_any_length(m->n), draw_any_length(m->b * m->n)};
}

/* ---- the calls ---- */

static uint32_t ask_file(const uint8_t *file, size_t file_len, uint8_t *answer, size_t answer_len)
{
    return wundreska_degree(file, file_len, handed.rows, handed.lengths.rows, handed.columns, handed.lengths.columns,
                            handed.parameters, handed.lengths.parameters, answer, answer_len);
}

static uint32_t ask_handed(uint32_t p, size_t n, size_t a, size_t b, const uint16_t *constants, size_t constants_len,
                           const uint64_t *parameters, size_t parameters_len, bool numbered, const uint16_t *numbers,
                           size_t numbers_len, uint8_t *out, size_t out_len)
{
    return harness_degree(p, n, a, b, constants, constants_len, parameters, parameters_len, numbered, numbers, numbers_len,
                          handed.rows, handed.lengths.rows, handed.columns, handed.lengths.columns, handed.parameters,
                          handed.lengths.parameters, out, out_len);
}

/* ---- refusals and the answer ---- */

static int powers_are_enough(const Model *m)
{
    PowersLengths l = handed.lengths;
    return l.rows >= m->a && l.columns >= m->n && l.parameters >= m->b * m->n;
}

/* In a file's call all areas come after the file. */
static uint32_t judge_handed(const Model *m)
{
    return powers_are_enough(m) ? judge_degree(m, &handed.powers) : 8;
}

static const char *handed_powers_complaint(const Model *m, const Called *c)
{
    static Weights weights;
    weigh(m, &handed.powers, &weights);
    Heaviest heaviest = find_heaviest(m, &weights);
    Degree shown = degree_in(c->out);
    return heaviest.found ? degree_complaint(m, &handed.powers, &shown, heaviest.total) : "the reference has no degree";
}

const Question degree_question = {ask_file, ask_handed, WUNDRESKA_DEGREE_SIZE, judge_handed, handed_powers_complaint};

/* First the refusals of the model, with those of its areas and of the powers', then that of the question, then that of the answer. */
const char *degree_handed_complaint(const Model *m, Lengths l)
{
    uint32_t refusal = judge_areas_beside(m, l.constants, l.rows, l.numbers, powers_are_enough(m));
    if (refusal == 0)
        refusal = judge_degree(m, &handed.powers);
    if (refusal == 0 && l.out < WUNDRESKA_DEGREE_SIZE)
        refusal = 8;
    Called c = call_model(ask_handed, m, l, WUNDRESKA_DEGREE_SIZE);
    const char *complaint = refusal_complaint(&c, refusal);
    return complaint || refusal ? complaint : handed_powers_complaint(m, &c);
}

/* ---- sound models ---- */

static const char *accepted_complaint(const Model *m, const Powers *powers, const Called *c, unsigned due)
{
    const char *complaint = refusal_complaint(c, 0);
    Degree shown = degree_in(c->out);
    return complaint ? complaint : degree_complaint(m, powers, &shown, due);
}

/* The answers of two calls about one file. */
static const char *claim_complaint(const Model *m, const File *file, const Called *called)
{
    Degree shown = degree_in(called->out);
    Claim claim = {.rank = m->n, .constants = shown.constants};
    memcpy(claim.rows, shown.rows, sizeof claim.rows);
    send_claim(&claim, WUNDRESKA_CLAIM_SIZE);
    Called c = call_file(claim_question.call, file->bytes, file->length, WUNDRESKA_ACCEPTS_SIZE, WUNDRESKA_ACCEPTS_SIZE);
    int accepted = c.refusal == 0 && c.out[WUNDRESKA_CLAIM_HOLDS] == 1;
    return accepted ? NULL : "the assignment shown is not accepted as a claim of the rank n";
}

void try_degree(const Model *m, const Powers *powers, unsigned due)
{
    enum { SIZE = WUNDRESKA_DEGREE_SIZE };
    const File *file = sound_file(m);
    hand_powers(powers, draw_enough_powers(m));
    Called by_model = call_model(ask_handed, m, exact_lengths(m, draw_room(SIZE)), SIZE);
    count_case(accepted_complaint(m, powers, &by_model, due), m);
    hand_powers(powers, draw_enough_powers(m));
    Called by_file = call_file(ask_file, file->bytes, file->length, draw_room(SIZE), SIZE);
    count_case(accepted_complaint(m, powers, &by_file, due), m);
    count_case(claim_complaint(m, file, &by_file), m);
}
