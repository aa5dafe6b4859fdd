/* A layered model as document 01 has it, its file, and models drawn at random, with planted faults or of a known rank. All
 * limits are those of the header that hosts get. */
#ifndef MODEL_H
#define MODEL_H

#include "wundreska.h"

#include <stddef.h>
#include <stdint.h>

/* A set of columns or of rows: bit i for number i. It has room for limits up to 128, so that larger ones change the header
 * alone. */
typedef unsigned __int128 Set;

_Static_assert(WUNDRESKA_COLUMNS_MAX <= 8 * sizeof(Set) && WUNDRESKA_ROWS_MAX <= 8 * sizeof(Set), "a set is too narrow");

typedef struct {
    uint32_t p;
    size_t n, a, b;
    uint16_t constants[WUNDRESKA_ROWS_MAX * WUNDRESKA_COLUMNS_MAX]; /* row by row, n to a row */
    Set parameters[WUNDRESKA_ROWS_MAX];                             /* the columns at which each row has a parameter */
    int numbered;                                                   /* whether the parameters have numbers */
    uint16_t numbers[WUNDRESKA_ROWS_MAX * WUNDRESKA_COLUMNS_MAX];   /* row by row, n to a row; void where no parameter stands */
} Model;

/* The set of one number, and whether a set has it. */
static inline Set just(size_t number)
{
    return (Set)1 << number;
}

static inline int has(Set set, size_t number)
{
    return set >> number & 1;
}

/* The smallest number of a set that is not empty. */
static inline size_t smallest_of(Set set)
{
    uint64_t low = (uint64_t)set, high = (uint64_t)(set >> 64);
    return low ? __builtin_ctzll(low) : 64 + __builtin_ctzll(high);
}

/* The set of all numbers below a bound. */
Set all_below(size_t bound);

size_t size_of_set(Set set);

/* A set as bytes and words have it, lowest first. */
Set set_at(const uint8_t *bytes);
enum { ROW_WORDS = (WUNDRESKA_SET_SIZE + 7) / 8 };
void put_words(Set set, uint64_t *words);

/* Numbers of a fixed sequence: below a bound, and whether one of so many. */
uint64_t draw(uint64_t bound);
int one_in(uint64_t many);

/* The numbers below a count, in an order drawn at random. */
void shuffle(size_t *numbers, size_t count);

/* A model with a, b and n up to the limits given, at one of the primes. */
Model draw_model(const uint32_t *primes, size_t primes_count, size_t columns, size_t rows);

/* The same with a = b and a + n up to the limit. */
Model draw_mixed(const uint32_t *primes, size_t primes_count, size_t limit);

/* Gives each parameter a number of its own. A place without a parameter repeats the one before, so that whoever reads it meets a
 * number twice. */
void draw_numbers(Model *model);

/* How a model is read: with a + b rows, or with a = b. */
typedef enum { LAYERED, MIXED } Kind;

/* A model of these sizes whose rank, by its kind, is the one given: at most n and at most the number of rows. */
Model draw_of_rank(Kind kind, uint32_t p, size_t n, size_t a, size_t b, size_t rank);

/* The primes that most tests draw from. */
static const uint32_t all_primes[] = {2, 3, 5, 7, 1021, 65519, WUNDRESKA_PRIME_MAX};
#define COUNT(list) (sizeof(list) / sizeof(list)[0])

/* The layered form of a mixed model. */
Model layered_form(const Model *mixed);

/* The model of these columns alone, without numbers. */
Model only_columns(const Model *model, Set columns);

/* The next filling of all places, counting constants to the base p and parameters to the base 2; whether there is one. */
int next_filling(Model *model);

/* ---- judge.c ---- */

/* The file's bytes; its length. */
size_t write_file(const Model *model, uint8_t *out);

/* The refusal of a file, or 0 with the model that it holds; of a numbered one, places without a parameter have number 0. */
uint32_t judge_file(const uint8_t *file, size_t length, Model *model);

/* The same where the field of numbers is not due. */
uint32_t judge_unnumbered_file(const uint8_t *file, size_t length, Model *model);

/* The refusal of a model handed over in areas for so many constants, rows and numbers, or 0; and with areas beside, which are judged
 * together with these, and are long enough or not. */
uint32_t judge_areas(const Model *model, size_t constants, size_t rows, size_t numbers);
uint32_t judge_areas_beside(const Model *model, size_t constants, size_t rows, size_t numbers, int beside_is_enough);

/* The refusal of the mixed question about a model that is not refused, or 0. */
uint32_t judge_mixed(const Model *model);

/* The refusal of a question about a column and held ones, of a model that is not refused, or 0. */
uint32_t judge_columns(const Model *model, Set held, size_t column);

/* The refusal of the question why a column is not placed, of a model that is not refused, or 0. */
uint32_t judge_unplaced(const Model *model, Set placed, size_t column);

/* ---- damage.c ---- */

/* Changes a file at random, somewhere: cut, made longer, bits turned, bytes changed, left out or put in. Room is left for
 * DAMAGE_ROOM bytes more. Its new length. */
enum { DAMAGE_ROOM = 16 };
size_t damage_file(uint8_t *file, size_t length);

#endif
