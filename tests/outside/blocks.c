/* The question about blocks: the calls, complaints about the answer, and sound models. */
#include "blocks.h"

#include "claim.h"

/* ---- the answer ---- */

static const char *due_complaint(const Called *c, const Blocks *due)
{
    Blocks given = blocks_in(c->out);
    if (given.count != due->count)
        return "the number of blocks";
    return same_blocks(&given, due) ? NULL : "the number of a column's block";
}

static const char *answer_complaint_by_parts(const Model *m, const Called *c)
{
    Graph graph = graph_of(m);
    Blocks due = blocks_of_graph(&graph);
    return due_complaint(c, &due);
}

const Question blocks_question = {wundreska_blocks, harness_blocks, WUNDRESKA_BLOCKS_SIZE, judge_nothing, answer_complaint_by_parts};

/* ---- sound models ---- */

static const char *accepted_complaint(const Called *c, const Blocks *due)
{
    const char *complaint = refusal_complaint(c, 0);
    return complaint ? complaint : due_complaint(c, due);
}

/* Behind any cut, the blocks make a set whose sum is the rank. So between two cuts there are as many equations as columns. */
static const char *cut_complaint(const Model *m, const Blocks *given, size_t rank)
{
    enum { RARE = 10 };
    Set behind = 0;
    if (given->count < 2 || given->count > m->n || (m->n > SMALL && !one_in(RARE)))
        return NULL;
    for (size_t k = 1 + draw(given->count - 1); k < given->count; k++)
        behind |= columns_of_block(given, k);
    size_t sum = rank_of_columns(m, behind) + rows_touching(m, behind) + m->n - size_of_set(behind);
    return sum == rank ? NULL : "the sum of the blocks behind a cut is not the rank";
}

/* The answers of two calls about one file. */
static const char *rank_call_complaint(const Model *m, const File *file, const Called *called)
{
    Called checked = call_file(wundreska_check, file->bytes, file->length, WUNDRESKA_ANSWER_SIZE, WUNDRESKA_ANSWER_SIZE);
    Set short_set = set_at(checked.out + WUNDRESKA_SHORT);
    Blocks given = blocks_in(called->out);
    if (short_set != 0 && columns_of_block(&given, given.count - 1) != short_set)
        return "the short set of the rank call is not the last block";
    return cut_complaint(m, &given, checked.out[WUNDRESKA_RANK]);
}

void try_blocks(const Model *m, const Blocks *due)
{
    enum { SIZE = WUNDRESKA_BLOCKS_SIZE };
    const File *file = sound_file(m);
    Called handed = call_model(harness_blocks, m, exact_lengths(m, draw_room(SIZE)), SIZE);
    count_case(accepted_complaint(&handed, due), m);
    Called filed = call_file(wundreska_blocks, file->bytes, file->length, draw_room(SIZE), SIZE);
    count_case(accepted_complaint(&filed, due), m);
    count_case(rank_call_complaint(m, file, &filed), m);
}
