/* What the parts of the comparison share: the tally of cases, and the complaints about a call. */
#ifndef COMPARE_H
#define COMPARE_H

#include "calls.h"
#include "reference.h"
#include "tally.h"

/* The columns that a word and a set's words have room for; columns or rows of a small model, and of one that is smaller still. */
enum { WORD = 64, WIDTH = WORD * ROW_WORDS, SMALL = 12, FEW = 8 };

static inline size_t smaller(size_t x, size_t y)
{
    return x < y ? x : y;
}

/* ---- complaints.c: NULL where there is none ---- */

/* About the refusal number and the bytes that must not change. */
const char *refusal_complaint(const Called *called, uint32_t refusal);

/* The answer of wundreska_check in its bytes. */
Answer layered_answer_in(const uint8_t *bytes);

/* About the answer of an accepted call. */
const char *called_complaint(const Model *model, const Called *called, Truth truth);
const char *called_mixed_complaint(const Model *model, const Called *called);

/* About a call on a sound model, in areas that just hold it. */
const char *layered_complaint(const Model *model, Truth truth);
const char *mixed_complaint(const Model *model, size_t rank, Truth form);

/* ---- questions.c ---- */

/* A question that a host asks about a file, and a program about a model that it hands over. */
typedef struct {
    FileCall *call;
    ModelCall *handed;
    size_t size;                          /* bytes of its answer */
    uint32_t (*judge)(const Model *model); /* its own refusal of a sound model, or 0 */
    const char *(*complaint)(const Model *model, const Called *called);
} Question;

extern const Question layered_question, mixed_question;

/* Of a question that refuses no sound model. */
uint32_t judge_nothing(const Model *model);

/* About the call on any bytes, with an answer area of any length; the model is that of the file. */
const char *file_complaint(const Question *question, const uint8_t *file, size_t length, size_t answer_length, Model *model);

/* About the call on a model handed over in areas of any lengths, sound or not. */
const char *handed_complaint(const Question *question, const Model *model, Lengths lengths);

/* About the writing of a model, and the reading of any bytes into areas; the model is that of the file. */
const char *write_complaint(const Model *model, Lengths lengths);
const char *read_complaint(const uint8_t *file, size_t length, Lengths lengths, Model *model);

/* Where n, a and b stand in a file. */
enum { SIZES_AT = 8 };

/* Counts a case: with this answer area; with one that is mostly just right, and else short or longer. */
void try_area(const Question *question, const uint8_t *file, size_t length, size_t answer_length);
void try_file(const Question *question, const uint8_t *file, size_t length);

/* Every prefix of a file, every bit of it turned, and so many random damages, each asked the question. */
void try_prefixes(const Question *question, const uint8_t *file, size_t length);
void try_flips(const Question *question, uint8_t *file, size_t length);
void try_damages(const Question *question, const uint8_t *file, size_t length, size_t count);

/* On small models, with areas from nothing to twice the answer. */
void try_areas_of_every_length(const Question *question);

/* ---- compare_models.c ---- */

/* The refusal of a bench model's file, or 0 with its model. */
uint32_t load_model(const char *folder, const char *name, Model *model);

/* ---- compare_refusals.c ---- */

/* Puts up to all faults into a sound model, but for its numbers. The lengths are those of the sound one, some short by one, some
 * longer; a call writes so many bytes. */
Lengths spoil(Model *model, size_t written);

/* ---- compare_numbers.c ---- */

/* Gives a parameter of a numbered model, if there are two, the number of one before it. */
void plant_twice(Model *model);

/* As spoil, of a numbered model: with a number twice in every other one, and the area of the numbers short or longer too. Some
 * are numbered no longer. */
Lengths spoil_numbered(Model *model, size_t written);

/* ---- the categories ---- */

void compare_bench_models(const char *folder); /* compare_models.c */
void compare_with_definitions(void);
void compare_random_models(void);
void compare_ranks(void); /* compare_ranks.c */
void compare_files(void); /* compare_files.c */
void compare_damaged_files(void);
void compare_wrong_contents(void);
void compare_primes(void);
void compare_sizes(void);
void compare_mixed_files(void); /* compare_mixed.c */
void compare_edges(void); /* compare_refusals.c */
void compare_mixed_sizes(void);
void compare_spoilt_models(void);
void compare_rows(void); /* compare_rows.c */
void compare_wide(void); /* compare_wide.c */
void compare_numbers(void); /* compare_numbers.c */
void compare_multipliers(void); /* compare_multipliers.c */
void compare_columns(void); /* compare_columns.c */
void compare_reasons(const char *folder); /* compare_reasons.c */
void compare_placed(void); /* compare_placed.c */
void compare_claims(const char *folder); /* compare_claims.c */
void compare_sent(void); /* compare_sent.c */
void compare_blocks(const char *folder); /* compare_blocks.c */
void compare_unlisted(void); /* compare_unlisted.c */
void compare_degrees(const char *folder); /* compare_degrees.c */
void compare_powers(const char *folder); /* compare_powers.c */
void compare_open(const char *folder); /* compare_open.c */
void compare_held(void); /* compare_held.c */

#endif
