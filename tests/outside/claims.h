/* Claims of a rank: the question whether one is accepted, as both calls take it; claims that must be, and changes to them. */
#ifndef CLAIMS_H
#define CLAIMS_H

#include "asked.h"
#include "claim.h"

/* ---- claims.c ---- */

/* The most bytes that a claim is sent in. */
enum { SENT_MOST = WUNDRESKA_CLAIM_SIZE + MORE };

/* Sends a claim from now on, in so many bytes. Those behind it are drawn, and a call is not to read them. */
void send_claim(const Claim *claim, size_t length);

/* As many bytes as a claim has, or more. */
size_t draw_sent(void);

extern const Question claim_question;

/* A sound model, its file, and the claim that the answer of wundreska_check makes. The file lasts until that of the next model. */
typedef struct {
    const Model *model;
    const File *file;
    Claim ours;
} Subject;

Subject subject_of(const Model *model);

/* The claim that the bytes of an answer of wundreska_check make. */
Claim claim_of(const uint8_t *answer);

/* Counts two cases, the model handed over and its file: a claim, which is to be accepted exactly if it has no fault. Its faults. */
unsigned try_claim(const Subject *subject, const Claim *claim);

/* ---- sound_claims.c: claims that must be accepted ---- */

/* Gives a claim that must be accepted another legal assignment of as many columns, or a larger set of the same sum; whether one was
 * found. */
int take_other_assignment(const Model *model, Claim *claim);
int take_larger_set(const Model *model, Claim *claim);

/* ---- changed_claims.c ---- */

/* A change to a claim that must be accepted; whether the claim could be changed so. */
typedef int Change(const Model *model, Claim *claim);

Change turn_bit, raise_rank, lower_rank, draw_rank, take_row_out, name_any_column, name_column_of_a_row, name_column_of_the_side,
    name_column_beyond, name_in_row_beyond, name_without_parameter, make_side_dependent, put_beyond_on_side, change_set,
    raise_rank_to_sum, put_beyond_in_set, place_fewer, place_fewer_and_say_so, place_one_more, answer_other_model, draw_bytes,
    draw_parts;

#endif
