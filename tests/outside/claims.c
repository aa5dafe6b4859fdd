/* The question whether a claim is accepted: the calls about the claim sent, its refusals, complaints about the answer, and claims
 * about a sound model. */
#include "claims.h"

#include <string.h>

static struct {
    Claim claim;
    const uint8_t *bytes;
    size_t length;
} sent;

void send_claim(const Claim *claim, size_t length)
{
    uint8_t bytes[SENT_MOST];
    put_claim(claim, bytes);
    for (size_t i = WUNDRESKA_CLAIM_SIZE; i < SENT_MOST; i++)
        bytes[i] = draw(256);
    sent.claim = *claim;
    sent.bytes = lend_beside(bytes, length);
    sent.length = length;
}

size_t draw_sent(void)
{
    return WUNDRESKA_CLAIM_SIZE + (one_in(3) ? draw(MORE + 1) : 0);
}

/* ---- the calls ---- */

static uint32_t ask_file(const uint8_t *file, size_t file_len, uint8_t *answer, size_t answer_len)
{
    return wundreska_accepts(file, file_len, sent.bytes, sent.length, answer, answer_len);
}

static uint32_t ask_handed(uint32_t p, size_t n, size_t a, size_t b, const uint16_t *constants, size_t constants_len,
                           const uint64_t *parameters, size_t parameters_len, bool numbered, const uint16_t *numbers,
                           size_t numbers_len, uint8_t *out, size_t out_len)
{
    return harness_accepts(p, n, a, b, constants, constants_len, parameters, parameters_len, numbered, numbers, numbers_len,
                           sent.bytes, sent.length, out, out_len);
}

/* ---- the answer ---- */

static const char *due_complaint(const Called *c, int accepted)
{
    unsigned given = c->out[WUNDRESKA_CLAIM_HOLDS];
    if (given > 1)
        return "the answer is neither 0 nor 1";
    if (given == (unsigned)accepted)
        return NULL;
    return given ? "a claim with a fault is accepted" : "a claim without a fault is not accepted";
}

static const char *sent_complaint(const Model *m, const Called *c)
{
    return due_complaint(c, faults_of(m, &sent.claim) == 0);
}

/* The area of the claim is judged behind the model. */
static uint32_t judge_sent(const Model *m)
{
    (void)m;
    return sent.length < WUNDRESKA_CLAIM_SIZE ? 8 : 0;
}

const Question claim_question = {ask_file, ask_handed, WUNDRESKA_ACCEPTS_SIZE, judge_sent, sent_complaint};

/* ---- claims about a sound model ---- */

Claim claim_of(const uint8_t *answer)
{
    Claim claim = {.rank = answer[WUNDRESKA_RANK],
                   .constants = set_at(answer + WUNDRESKA_CONSTANTS),
                   .set = set_at(answer + WUNDRESKA_SHORT)};
    memcpy(claim.rows, answer + WUNDRESKA_ROWS, sizeof claim.rows);
    return claim;
}

Subject subject_of(const Model *m)
{
    Subject s = {.model = m, .file = file_of(m)};
    Called c = call_file(wundreska_check, s.file->bytes, s.file->length, WUNDRESKA_ANSWER_SIZE, WUNDRESKA_ANSWER_SIZE);
    s.ours = claim_of(c.out);
    return s;
}

/* What follows where a claim is accepted. */
static const char *consequence_complaint(const Subject *s, const Claim *claim)
{
    if (claim->rank != s->ours.rank)
        return "an accepted rank is not that of the answer";
    return s->ours.set & ~claim->set ? "an accepted set lacks a column of the short set" : NULL;
}

static const char *accepted_complaint(const Called *c, int accepted)
{
    const char *complaint = refusal_complaint(c, 0);
    return complaint ? complaint : due_complaint(c, accepted);
}

unsigned try_claim(const Subject *s, const Claim *claim)
{
    enum { SIZE = WUNDRESKA_ACCEPTS_SIZE };
    unsigned faults = faults_of(s->model, claim);
    const char *complaint = faults ? NULL : consequence_complaint(s, claim);
    send_claim(claim, draw_sent());
    Called handed = call_model(ask_handed, s->model, exact_lengths(s->model, draw_room(SIZE)), SIZE);
    count_case(complaint ? complaint : accepted_complaint(&handed, faults == 0), s->model);
    send_claim(claim, draw_sent());
    Called filed = call_file(ask_file, s->file->bytes, s->file->length, draw_room(SIZE), SIZE);
    count_case(complaint ? complaint : accepted_complaint(&filed, faults == 0), s->model);
    return faults;
}
