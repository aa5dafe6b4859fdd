/* Calls of the library on lent areas that end at a page which must not be touched, with a look at every lent byte
 * afterwards. */
#ifndef CALLS_H
#define CALLS_H

#include "harness.h"
#include "model.h"
#include "open.h"

typedef struct {
    uint32_t refusal;
    int intact;                            /* every lent byte is as before, but for those that an accepted call writes */
    uint8_t out[WUNDRESKA_FILE_MAX + 100]; /* the front of the area written to */
} Called;

/* How many constants, parameter rows, numbers and bytes the areas hold. */
typedef struct {
    size_t constants, rows, numbers, out;
} Lengths;

/* Areas that just hold what the model needs, no number where it is not numbered, and so many bytes to write to. */
Lengths exact_lengths(const Model *model, size_t out);

/* Lends bytes that a call reads beside a file or a model, until others are lent; at one of several places, each an area of its own, or
 * at the first. Those below see whether a call changed them. */
enum { BESIDE = 3 };
const uint8_t *lend_beside_at(size_t place, const uint8_t *bytes, size_t length);
const uint8_t *lend_beside(const uint8_t *bytes, size_t length);

/* A call on a file, with an answer area of this length, which writes `written` bytes where it is accepted. */
typedef uint32_t FileCall(const uint8_t *file, size_t file_len, uint8_t *answer, size_t answer_len);
Called call_file(FileCall *call, const uint8_t *file, size_t length, size_t answer_length, size_t written);

/* A call on a model, which writes `written` bytes where it is accepted. What the areas have beyond the model is not a
 * legal constant or parameter row. */
Called call_model(ModelCall *call, const Model *model, Lengths lengths, size_t written);

/* The columns that a question is about: the held ones as so many bytes of a set, and the one named. */
typedef struct {
    const uint8_t *held;
    size_t length, named;
} Columns;

/* A question about columns, of a file with an answer area of this length, and of a model. */
Called call_multipliers(const uint8_t *file, size_t length, Columns columns, size_t answer_length);
Called call_handed_multipliers(const Model *model, Columns columns, Lengths lengths);

/* The reading of a file into areas, the model being the one that it holds. */
typedef struct {
    uint32_t refusal;
    int as_due; /* every lent byte is as before, but where the call accepts: there the model's are at the front of the areas */
} Reading;

Reading call_read(const uint8_t *file, size_t length, const Model *model, Lengths lengths);

/* An edit of an open model, in its area or handed over. */
typedef struct {
    uint32_t refusal;
    int as_due; /* every lent byte is as before, but where the call accepts: there what is held is what the edit is to leave */
} Edited;

/* In an area, by the bytes of an edit; as many bytes are due in the area. */
Edited call_edit(const uint8_t *area, size_t length, const uint8_t *edit, size_t edit_length, const uint8_t *due);

/* Handed over in areas for so many constants and rows, with so many bytes of present columns; no other length counts. */
Edited call_handed_edit(const Open *open, Lengths lengths, size_t present_length, const Edit *edit, const Open *due);

/* The most bytes of present columns that are lent. Those behind the words of a set are drawn, and a call is not to read them. */
enum { PRESENT_MOST = ROW_WORDS * sizeof(uint64_t) + 8 };
void put_present(Set present, uint8_t *bytes);

/* A count of rows that touch a set: n and b of the call's own, how many rows the area holds, and the set's bytes. */
typedef struct {
    size_t n, b, rows;
    const uint8_t *set;
    size_t length;
} Touching;

typedef struct {
    size_t count;
    int intact; /* every lent byte is as before */
} Touched;

Touched call_touching(const Model *model, Touching touching);

#endif
