/* The library's calls for models handed over without a file, the reading of a file into areas, and the count of rows that touch a
 * set, as the crate `harness` exports them for tests and measuring.
 *
 * A ModelCall takes p, n, a, b, the constants (row by row), the parameter rows, two words each with the low one first, whether the
 * model is numbered, the numbers (row by row, b * n of them; not read where it is not) and an area to write to; lengths count
 * entries, of parameter rows words. It returns 0 or the refusal: 3, 4, 8 for the areas of constants, parameters and numbers, 5, 6,
 * 13, 10 where mixed, and last 8 for the area written. */
#ifndef HARNESS_H
#define HARNESS_H

#include <stdbool.h>
#include <stddef.h>
#include <stdint.h>

typedef uint32_t ModelCall(uint32_t p, size_t n, size_t a, size_t b, const uint16_t *constants, size_t constants_len,
                           const uint64_t *parameters, size_t parameters_len, bool numbered, const uint16_t *numbers,
                           size_t numbers_len, uint8_t *out, size_t out_len);

/* The bytes of wundreska_check's answer. */
ModelCall harness_layered;

/* The bytes of wundreska_mixed's answer. */
ModelCall harness_mixed;

/* The bytes of the model's file. */
ModelCall harness_write;

/* The bytes of wundreska_multipliers' answer. It takes the held columns and the named one before the area to write to. It returns
 * 0 or the refusal: that of a ModelCall as far as 13, then 11, and last 8 for the area written. Of the held columns 16 bytes are
 * read; those that are missing count as 0, so that no length is refused. */
uint32_t harness_multipliers(uint32_t p, size_t n, size_t a, size_t b, const uint16_t *constants, size_t constants_len,
                             const uint64_t *parameters, size_t parameters_len, bool numbered, const uint16_t *numbers,
                             size_t numbers_len, const uint8_t *held, size_t held_len, size_t column, uint8_t *out,
                             size_t out_len);

/* The bytes of wundreska_reason's answer. It takes the column before the area to write to. It returns 0 or the refusal: that of a
 * ModelCall as far as 13, then 11, then 12, and last 8 for the area written. */
uint32_t harness_reason(uint32_t p, size_t n, size_t a, size_t b, const uint16_t *constants, size_t constants_len,
                        const uint64_t *parameters, size_t parameters_len, bool numbered, const uint16_t *numbers,
                        size_t numbers_len, size_t column, uint8_t *out, size_t out_len);

/* The byte of wundreska_accepts' answer. It takes the claim before the area to write to. It returns 0 or the refusal: that of a
 * ModelCall as far as 13, and last 8 for the area of the claim or the area written. */
uint32_t harness_accepts(uint32_t p, size_t n, size_t a, size_t b, const uint16_t *constants, size_t constants_len,
                         const uint64_t *parameters, size_t parameters_len, bool numbered, const uint16_t *numbers,
                         size_t numbers_len, const uint8_t *claim, size_t claim_len, uint8_t *out, size_t out_len);

/* The bytes of wundreska_blocks' answer. */
ModelCall harness_blocks;

/* The bytes of wundreska_degree's answer. It takes the three areas of powers before the area to write to. It returns 0 or the refusal:
 * that of a ModelCall as far as 13, where the areas of powers are judged together with those of the model, then 16, and last 8 for the
 * area written. */
uint32_t harness_degree(uint32_t p, size_t n, size_t a, size_t b, const uint16_t *constants, size_t constants_len,
                        const uint64_t *parameters, size_t parameters_len, bool numbered, const uint16_t *numbers, size_t numbers_len,
                        const uint8_t *row_powers, size_t row_powers_len, const uint8_t *column_powers, size_t column_powers_len,
                        const uint8_t *parameter_powers, size_t parameter_powers_len, uint8_t *out, size_t out_len);

/* The present columns of a model that is opened, WUNDRESKA_SET_SIZE bytes: all below n. */
ModelCall harness_open;

/* Makes an edit of a model held open: its kind, and a parameter row and a column of any numbers. It changes one word of the parameter
 * rows, or a byte of the present columns, or nothing. It returns 0 or the refusal: 2 for the kind, 8 for fewer than WUNDRESKA_SET_SIZE
 * bytes of present columns, that of a ModelCall of a model that is not numbered as far as 6, then 9, 11 and 14. */
uint32_t harness_edit(uint32_t p, size_t n, size_t a, size_t b, const uint16_t *constants, size_t constants_len, uint64_t *parameters,
                      size_t parameters_len, uint8_t *present, size_t present_len, uint8_t kind, size_t row, size_t column);

/* The bytes of wundreska_answer's answer. It returns 0 or the refusal: that of a ModelCall of a model that is not numbered as far as 6,
 * then 11, and last 8 for the area written. Bytes of the present columns that are missing count as 0, so that no length is refused. */
uint32_t harness_answer(uint32_t p, size_t n, size_t a, size_t b, const uint16_t *constants, size_t constants_len,
                        const uint64_t *parameters, size_t parameters_len, const uint8_t *present, size_t present_len, uint8_t *out,
                        size_t out_len);

/* The model of a file, written to the front of areas laid out as above; the numbers are written where it is numbered, 0 where no
 * parameter stands. It returns 0 or the refusal: the file's, then 8 for the areas. */
uint32_t harness_read(const uint8_t *file, size_t file_len, uint16_t *constants, size_t constants_len, uint64_t *parameters,
                      size_t parameters_len, uint16_t *numbers, size_t numbers_len);

/* How many of the first b parameter rows have a parameter in the set that the bytes show, at a column below n. It refuses nothing. */
size_t harness_touching(size_t n, size_t b, const uint64_t *parameters, size_t parameters_len, const uint8_t *set, size_t set_len);

#endif
