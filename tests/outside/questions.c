/* A file or a model handed over, an area for the answer, and a question: judged in their orders, the answer held against the
 * reference. Models written, and files read. */
#include "compare.h"
#include "numbers.h"

#include <string.h>

uint32_t judge_nothing(const Model *m)
{
    (void)m;
    return 0;
}

static const char *called_layered_complaint(const Model *m, const Called *c)
{
    return called_complaint(m, c, layered_truth(m));
}

const Question layered_question = {wundreska_check, harness_layered, WUNDRESKA_ANSWER_SIZE, judge_nothing, called_layered_complaint};
const Question mixed_question = {wundreska_mixed, harness_mixed, WUNDRESKA_MIXED_SIZE, judge_mixed, called_mixed_complaint};

/* First the file's own refusals, then that of the area, then those of the question. */
const char *file_complaint(const Question *q, const uint8_t *file, size_t length, size_t answer_length, Model *m)
{
    uint32_t refusal = judge_file(file, length, m);
    write_number(file, length, refusal);
    if (refusal == 0 && answer_length < q->size)
        refusal = 8;
    if (refusal == 0)
        refusal = q->judge(m);
    Called c = call_file(q->call, file, length, answer_length, q->size);
    const char *complaint = refusal_complaint(&c, refusal);
    return complaint || refusal ? complaint : q->complaint(m, &c);
}

/* First the refusals of the model, then those of the question, then that of the area. */
const char *handed_complaint(const Question *q, const Model *m, Lengths l)
{
    uint32_t refusal = judge_areas(m, l.constants, l.rows, l.numbers);
    if (refusal == 0)
        refusal = q->judge(m);
    if (refusal == 0 && l.out < q->size)
        refusal = 8;
    Called c = call_model(q->handed, m, l, q->size);
    const char *complaint = refusal_complaint(&c, refusal);
    return complaint || refusal ? complaint : q->complaint(m, &c);
}

const char *write_complaint(const Model *m, Lengths l)
{
    static uint8_t file[WUNDRESKA_FILE_MAX];
    uint32_t refusal = judge_areas(m, l.constants, l.rows, l.numbers);
    size_t length = refusal ? 0 : write_file(m, file);
    if (!refusal && l.out < length)
        refusal = 8;
    Called c = call_model(harness_write, m, l, length);
    const char *complaint = refusal_complaint(&c, refusal);
    return complaint || refusal || !memcmp(c.out, file, length) ? complaint : "the file's bytes";
}

const char *read_complaint(const uint8_t *file, size_t length, Lengths l, Model *m)
{
    uint32_t refusal = judge_file(file, length, m);
    if (refusal == 0 && (l.constants < m->a * m->n || l.rows < m->b || (m->numbered && l.numbers < m->b * m->n)))
        refusal = 8;
    Reading r = call_read(file, length, m, l);
    if (r.refusal != refusal)
        return "refusal number of the reading";
    return r.as_due ? NULL : "a lent byte is not as due";
}

void try_area(const Question *q, const uint8_t *file, size_t length, size_t answer_length)
{
    static Model m;
    m = (Model){0};
    const char *complaint = file_complaint(q, file, length, answer_length, &m);
    count_case(complaint, &m);
}

void try_file(const Question *q, const uint8_t *file, size_t length)
{
    size_t room = q->size;
    if (one_in(6))
        room = one_in(2) ? room - 1 : draw(room);
    else if (one_in(3))
        room += draw(100);
    try_area(q, file, length, room);
}

void try_areas_of_every_length(const Question *q)
{
    static uint8_t file[WUNDRESKA_FILE_MAX];
    for (size_t length = 0; length <= 2 * q->size; length++) {
        Model m = draw_mixed(all_primes, COUNT(all_primes), 8);
        try_area(q, file, write_file(&m, file), length);
    }
}
