/* wundreska.h: the solvability check for layered and mixed plant models, as a C host calls it.
 *
 * A call judges a model file and, if it is accepted, answers a question about the model. wundreska_check for a layered model and
 * wundreska_mixed for a mixed one say whether it determines all its unknowns with no equation left over: start a solver on
 * WUNDRESKA_DETERMINED alone. wundreska_reason says what blocks a column that wundreska_check does not place, and
 * wundreska_multipliers how the constants of one column depend on those of others. wundreska_blocks cuts the model into blocks, which
 * those who solve a determined model can solve one after another. wundreska_accepts checks a rank that another program found, by the
 * assignment and the column set that come with it. wundreska_degree gives the degree in s of the determinant of a determined model
 * whose entries have powers of s. wundreska_open, wundreska_edit and wundreska_answer are for a model that changes: the host holds it
 * open in an area of its own, edits it there, and asks about what it has become.
 *
 * Words. A model has a prime p, n columns (the unknowns), a constant rows and b parameter rows. Rows and columns count
 * from 0. A constant is a whole number from 0 to p - 1 (minus one is p - 1); a parameter row only says at which columns it
 * has a parameter. All ranks are taken modulo p. A mixed model has a = b = m, and its row i is the sum of constant row i and
 * parameter row i; a place may hold both. The same file can be asked every question. Powers, from 0 to WUNDRESKA_POWER_MAX, are not in
 * the file: a host hands them to wundreska_degree beside it.
 *
 * The file. Fields, each a one-byte tag, a two-byte length and the body; numbers have their low byte first. In this order:
 *
 *   tag         length  body
 *   1           2       p
 *   2           3       n, a, b, one byte each
 *   3, a times  2n      one constant row, two bytes an entry
 *   4, b times  8 or 12 one parameter row, a set of columns: length 8 where n is at most 64, and 12 above
 *   6           2k      in a numbered model, behind each parameter row: the numbers, 0 to 65535, of the row's k parameters, two
 *                       bytes each, by ascending column
 *   5           0       end; nothing follows
 *
 * Its length is 14 + a * (3 + 2n) + b * (3 + WUNDRESKA_ROW_SIZE(n)) bytes, and where the model is numbered 3 * b more and two for
 * each parameter. tools/model makes a file from readable text and prints one back.
 *
 * Numbers. They name the parameters, so that one that stands at two places is found and refused; they change no answer. Either
 * every parameter row has the field of tag 6, one of length 0 where it has no parameter, or none has it: whether it follows the
 * first parameter row decides. A model without parameter rows is not numbered.
 *
 * A set of columns or rows is WUNDRESKA_SET_SIZE bytes in an answer and where a call takes one, and WUNDRESKA_ROW_SIZE(n) bytes
 * in the file: column c is bit c % 8 (lowest is 0) of byte c / 8.
 *
 * Every call. It takes the bytes of a file and an answer area, and returns WUNDRESKA_ACCEPTED or the number of the refusal.
 * wundreska_multipliers and wundreska_reason also take the number of a column, the first of them the bytes of a set, held,
 * wundreska_accepts the bytes of a claim, and wundreska_degree three areas of powers, one byte each. In wundreska_answer the area of an
 * open model stands in the place of the file; in wundreska_open, which writes one, in the place of the answer area; and wundreska_edit
 * takes such an area, which it changes, and the bytes of an edit.
 * - Accepted: exactly the bytes of the answer are written, over the front of the area; the surplus is left as it was.
 * - Refused: no byte of the answer area, or of an area that is edited, is changed. The file, the set, the claim, the powers and the
 *   edit are never changed.
 * - Pointers: file points to file_len bytes that can be read, held to held_len, claim to claim_len, edit to edit_len and each area of
 *   powers to as many such bytes as its length says, answer to answer_len bytes that can be written, area to area_len that can be
 *   written, but that wundreska_answer only reads. An area that is written overlaps no other. Where its length is 0 a pointer may be
 *   NULL: nothing is read or written through it.
 * - Threads: a call keeps nothing, shares nothing and allocates nothing; what an open model has become stands in the host's area alone.
 *   It may run on any thread, several at once, the same file, set, claim, powers, edit and area that is only read included, as long as
 *   nothing else writes these or touches the area written meanwhile. So two threads may not edit one area at a time, and none may ask
 *   about an area while another edits it.
 * - Stack: a call needs less than WUNDRESKA_STACK_MAX bytes of it (measured: 43 KB, for a mixed question 62 KB), and wundreska_degree
 *   less than WUNDRESKA_DEGREE_STACK_MAX (measured: 105 KB).
 * - Platform: the archive is for x86-64 Linux, can stand in a shared object, and takes memcpy, memmove and memset of the host.
 *
 * Linking: tools/archive solvability
 *          gcc host.c -Iinclude target/staticlib/libsolvability.a -o host
 *      or, after tools/install PREFIX,
 *          gcc host.c $(pkg-config --cflags --libs wundreska) -o host
 */
#ifndef WUNDRESKA_H
#define WUNDRESKA_H

#include <stddef.h>
#include <stdint.h>

#ifdef __cplusplus
extern "C" {
#endif

/* The version of this header and of the archive that it comes with. */
#define WUNDRESKA_VERSION "3.7.0"
#define WUNDRESKA_VERSION_MAJOR 3
#define WUNDRESKA_VERSION_MINOR 7
#define WUNDRESKA_VERSION_PATCH 0

/* The limits: p is a prime from 2 to WUNDRESKA_PRIME_MAX, n is 1 to WUNDRESKA_COLUMNS_MAX, a and b are 0 to WUNDRESKA_ROWS_MAX
 * each, a power is 0 to WUNDRESKA_POWER_MAX. */
#define WUNDRESKA_PRIME_MAX 65521
#define WUNDRESKA_COLUMNS_MAX 96
#define WUNDRESKA_ROWS_MAX 96
#define WUNDRESKA_POWER_MAX 15
#define WUNDRESKA_SET_SIZE 12
#define WUNDRESKA_STACK_MAX 81920
#define WUNDRESKA_DEGREE_STACK_MAX 114688
/* How many bytes a parameter row has in the file, in a model of n columns. */
#define WUNDRESKA_ROW_SIZE(n) ((n) <= 64 ? 8 : WUNDRESKA_SET_SIZE)
/* The longest file that is accepted, a numbered one with a parameter at every place. A host may cut its reading one byte above: the
 * refusal is that of the whole file. The launcher ./check takes the number from here. */
#define WUNDRESKA_FILE_MAX 38894

/* The verdicts of a layered and of a mixed model, by the rank, the n columns and the rows: a + b of them, in a mixed model m. */
#define WUNDRESKA_OPEN 0       /* the rank is below n: equations are lacking */
#define WUNDRESKA_DETERMINED 1 /* the rank equals n and the number of rows: all columns can be placed, and every row is needed for it */
#define WUNDRESKA_SURPLUS 2    /* the rank equals n and rows are more: all columns can be placed, and the rows left over may contradict */

/* What a call returns. */
#define WUNDRESKA_ACCEPTED 0 /* the answer is written; whether a claim is accepted stands there, and not in this number */
/* Whoever wrote the file causes these. The file is judged from its front (for each field: head, tag and length, body, content),
 * and the first number met is returned. In wundreska_edit the first two are of the edit's bytes, too. */
#define WUNDRESKA_TRUNCATED 1        /* fewer than three bytes remain for a field's head, or fewer than its length for its body */
#define WUNDRESKA_UNEXPECTED 2       /* the tag or length is not the one due */
#define WUNDRESKA_NOT_PRIME 3        /* p is not prime (0 and 1 are not) or is above WUNDRESKA_PRIME_MAX */
#define WUNDRESKA_SIZES_BEYOND 4     /* n, a or b is beyond its limit */
#define WUNDRESKA_CONSTANT_BEYOND 5  /* a constant is p or more */
#define WUNDRESKA_PARAMETER_BEYOND 6 /* a parameter stands at column n or later */
#define WUNDRESKA_TRAILING 7         /* bytes follow the end field */
#define WUNDRESKA_NUMBER_TWICE 13    /* a parameter's number is that of a parameter before it, in the same field or an earlier one */
/* The calling program causes this one. It comes after those of the file. wundreska_edit, which has no answer area, does not return it. */
#define WUNDRESKA_AREA_SHORT 8       /* an area beside the file is shorter than what the call writes or reads there */
/* The modeller with a mixed question causes this one, in wundreska_mixed alone. It comes last. */
#define WUNDRESKA_NOT_MIXED 10       /* a differs from b, or a + n exceeds WUNDRESKA_COLUMNS_MAX */
/* Whoever asks about a column causes these: the first in wundreska_multipliers and wundreska_reason, the second in wundreska_reason
 * alone. They come last, in this order. The first is also of wundreska_answer, and of wundreska_edit, where 14 comes after it. */
#define WUNDRESKA_COLUMN_BEYOND 11   /* the named column, or a held one, is n or more; of an open model, one that is held as present */
#define WUNDRESKA_COLUMN_PLACED 12   /* the named column is placed, so that nothing blocks it */
/* Whoever edits an open model causes these, in wundreska_edit alone: the first comes before WUNDRESKA_COLUMN_BEYOND, the second after
 * it and last. */
#define WUNDRESKA_ROW_BEYOND 9       /* the parameter row of a place that is set or cleared is b or more */
#define WUNDRESKA_ALREADY_SO 14      /* a column is taken off that is out, or put back that is in */
/* Whoever asks for a degree causes this one, in wundreska_degree alone. It comes last. */
#define WUNDRESKA_NO_DEGREE 16       /* the model's verdict is not WUNDRESKA_DETERMINED, or a power is above WUNDRESKA_POWER_MAX */

/* The answer to a layered model: where each part starts, and the size of all. */
#define WUNDRESKA_VERDICT 0 /* 1 byte: one of the verdicts above */
#define WUNDRESKA_RANK 1    /* 1 byte, 0 to n: how many columns can be placed at once */
#define WUNDRESKA_PLACED 2  /* a set: the placed columns, as many as the rank; first in column order among such sets */
#define WUNDRESKA_CONSTANTS (WUNDRESKA_PLACED + WUNDRESKA_SET_SIZE) /* a set: those determined by the constant rows */
#define WUNDRESKA_SHORT (WUNDRESKA_CONSTANTS + WUNDRESKA_SET_SIZE)  /* a set: where equations are lacking; none unless open */
#define WUNDRESKA_ROWS (WUNDRESKA_SHORT + WUNDRESKA_SET_SIZE) /* for each parameter row, one byte: the column it determines, or */
#define WUNDRESKA_NO_COLUMN 255 /* where it determines none, and for every row from b on */
#define WUNDRESKA_ROWS_SIZE WUNDRESKA_ROWS_MAX
#define WUNDRESKA_ANSWER_SIZE (WUNDRESKA_ROWS + WUNDRESKA_ROWS_SIZE) /* 134 */

/* The layered question. Of an accepted model:
 * - the rank is the largest number of columns that can be placed: each on the constant side, where the placed columns are
 *   linearly independent modulo p, or on a parameter row of its own that has a parameter there;
 * - which side and row a placed column is shown with is one choice of possibly many; the other bytes have no choice;
 * - the short set is the smallest column set K for which the rank of the constant columns in K, plus the parameter rows
 *   with a parameter in K, plus the columns outside K, make the rank. Of an open model it says where equations are lacking:
 *   those that touch the short columns determine fewer unknowns than there are, and equations elsewhere cannot help. */
uint32_t wundreska_check(const uint8_t *file, size_t file_len, uint8_t *answer, size_t answer_len);

/* The answer to a mixed model: where each part starts, and the size of all. */
#define WUNDRESKA_MIXED_VERDICT 0 /* 1 byte: one of the verdicts above */
#define WUNDRESKA_MIXED_RANK 1    /* 1 byte, 0 to n */
#define WUNDRESKA_MIXED_ROWS 2    /* a set of rows, I */
#define WUNDRESKA_MIXED_COLUMNS (WUNDRESKA_MIXED_ROWS + WUNDRESKA_SET_SIZE)  /* a set of columns, J */
#define WUNDRESKA_MIXED_SHORT (WUNDRESKA_MIXED_COLUMNS + WUNDRESKA_SET_SIZE) /* a set of columns of the layered form */
#define WUNDRESKA_MIXED_SIZE (WUNDRESKA_MIXED_SHORT + WUNDRESKA_SET_SIZE)    /* 38 */

/* The mixed question. Of an accepted model:
 * - the rank is the largest sum of the rank of the constants on some rows I and columns J, and the size of a matching of
 *   parameters on all other rows and columns;
 * - I and J are one choice that reaches the rank; the other bytes have no choice;
 * - the short set is that of the layered form of the model, which has 2m rows and m + n columns. Its constant rows are the unit
 *   matrix followed by the constants; its parameter row i has a parameter at column i, and those of parameter row i moved m
 *   columns up. So column m + c of the form is column c of the model. The set is empty unless the model is open. */
uint32_t wundreska_mixed(const uint8_t *file, size_t file_len, uint8_t *answer, size_t answer_len);

/* The answer about a column: where each part starts, and the size of all. */
#define WUNDRESKA_OUTCOME 0     /* 1 byte: one of the outcomes below */
#define WUNDRESKA_MULTIPLIERS 1 /* the multiplier of each column, two bytes, low byte first: that of column c is 2 * c bytes on */
#define WUNDRESKA_MULTIPLIERS_SIZE (WUNDRESKA_MULTIPLIERS + 2 * WUNDRESKA_COLUMNS_MAX) /* 193 */

/* The outcomes. In the first two the held columns are linearly independent. */
#define WUNDRESKA_INDEPENDENT 0    /* the named column does not depend on the held ones */
#define WUNDRESKA_DEPENDS 1        /* it depends on them, with the multipliers given */
#define WUNDRESKA_HELD_DEPENDENT 2 /* the held columns are linearly dependent */

/* The question about a column: how the one named, column, depends on the held ones. It is asked of the constant rows alone,
 * modulo p; parameter rows play no part. The first WUNDRESKA_SET_SIZE bytes of held are the set of held columns, and the surplus is
 * not read. Of an accepted model:
 * - where the outcome is WUNDRESKA_DEPENDS, each held column has a multiplier below p, and in every constant row the constants of
 *   the held columns, each times its column's multiplier, sum to the constant of the named column modulo p. No others do so;
 * - all other multipliers are 0: those of columns that are not held, or from n on, and with another outcome those of all columns;
 * - a named column that is held itself, with independent held columns, has multiplier 1 at itself and 0 elsewhere;
 * - the empty set is independent. A named column whose constants are all 0 depends on every independent set, the empty one
 *   included, and all multipliers are 0. */
uint32_t wundreska_multipliers(const uint8_t *file, size_t file_len, const uint8_t *held, size_t held_len, size_t column,
                               uint8_t *answer, size_t answer_len);

/* The answer about a column that is not placed: where each part starts, and the size of all. */
#define WUNDRESKA_REASON 0 /* a set: the columns that block one another, the named one among them */
#define WUNDRESKA_GIVEN (WUNDRESKA_REASON + WUNDRESKA_SET_SIZE) /* 1 byte: 1 where multipliers are given, else 0 */
#define WUNDRESKA_REASON_MULTIPLIERS (WUNDRESKA_GIVEN + 1) /* the multiplier of each column, laid out as those above */
#define WUNDRESKA_REASON_SIZE (WUNDRESKA_REASON_MULTIPLIERS + 2 * WUNDRESKA_COLUMNS_MAX) /* 205 */

/* The question about a column that is not placed: what blocks the one named, column. The placed columns are those of
 * wundreska_check. Of an accepted model:
 * - the reason is the set of columns, drawn from the named one and the placed ones, that cannot be placed at once, while dropping
 *   any one column of it leaves columns that can. No other set drawn from these is so. The named column is in it;
 * - the equations that touch the reason thus determine one unknown fewer than it has columns. The reasons for all columns that are
 *   not placed, taken together, are the short set of wundreska_check;
 * - where no parameter row has a parameter at a column of the reason, multipliers are given: in every constant row the constants of
 *   the reason's other columns, each times its column's multiplier, sum to the constant of the named column modulo p. No others do
 *   so, and each is above 0 and below p. wundreska_multipliers gives the same where it holds the reason's other columns;
 * - all other multipliers are 0: those of the named column, of columns outside the reason or from n on, and where none are given
 *   those of all columns;
 * - a named column whose constants are all 0, and that has no parameter, is the whole reason. Multipliers are given, and all are
 *   0. */
uint32_t wundreska_reason(const uint8_t *file, size_t file_len, size_t column, uint8_t *answer, size_t answer_len);

/* The answer about blocks: where each part starts, and the size of all. */
#define WUNDRESKA_BLOCK_COUNT 0 /* 1 byte, 1 to n: how many blocks there are */
#define WUNDRESKA_BLOCKS (WUNDRESKA_BLOCK_COUNT + 1) /* for each column, one byte: the number of its block, from 0 on, or */
#define WUNDRESKA_NO_BLOCK 255 /* for every column from n on */
#define WUNDRESKA_BLOCKS_SIZE (WUNDRESKA_BLOCKS + WUNDRESKA_COLUMNS_MAX) /* 97 */

/* The question about blocks: which unknowns are to be solved together, and in which order. It depends on the tight sets: the column sets
 * K for which the rank of the constant columns in K, plus the parameter rows with a parameter in K, plus the columns outside K, make
 * the rank of wundreska_check. The short set is the smallest of them. Of an accepted model:
 * - each column below n is in one block, and each block has a column;
 * - two columns share a block exactly if every tight set has both or neither;
 * - a block must come before another one if every tight set that has it has the other one, too. The blocks are numbered so that this
 *   holds: the next number always goes to the block with the smallest column, among the blocks for which every block that must come
 *   before has its number. Nothing is left open;
 * - the columns that no tight set has, where there are any, are the first block; the short set, unless it is empty, is the last one;
 * - any block but the first, together with all later ones, makes a tight set. So a block that is neither the first nor the last has as
 *   many equations of its own as columns: the parameter rows that touch it and no later block, and as many constant equations as its
 *   columns add to the rank of the constants of the later ones. In a determined model this holds of every block.
 * So a host that starts on a determined model can take the blocks one after another, in the order of their numbers. The refusals are
 * those of wundreska_check. */
uint32_t wundreska_blocks(const uint8_t *file, size_t file_len, uint8_t *answer, size_t answer_len);

/* A claim, which is a rank, an assignment and a column set: where each part starts, and the size of all. */
#define WUNDRESKA_CLAIM_RANK 0 /* 1 byte */
#define WUNDRESKA_CLAIM_CONSTANTS (WUNDRESKA_CLAIM_RANK + 1) /* a set: the assignment's columns on the constant side */
#define WUNDRESKA_CLAIM_ROWS (WUNDRESKA_CLAIM_CONSTANTS + WUNDRESKA_SET_SIZE) /* those on rows, laid out as at WUNDRESKA_ROWS */
#define WUNDRESKA_CLAIM_SET (WUNDRESKA_CLAIM_ROWS + WUNDRESKA_ROWS_SIZE) /* a set: the column set */
#define WUNDRESKA_CLAIM_SIZE (WUNDRESKA_CLAIM_SET + WUNDRESKA_SET_SIZE)  /* 121 */

/* The answer about a claim: where it starts, and its size. */
#define WUNDRESKA_CLAIM_HOLDS 0 /* 1 byte: 1 where the claim is accepted, else 0 */
#define WUNDRESKA_ACCEPTS_SIZE 1

/* The question about a claim: whether the rank that another program sends, with an assignment and a column set, is to be accepted.
 * The first WUNDRESKA_CLAIM_SIZE bytes of claim are read, and the surplus is not.
 *
 * The number that the call returns is about the file and the areas alone; a file that wundreska_check refuses gets the same number
 * here. A claim that is not accepted is no refusal: the call returns WUNDRESKA_ACCEPTED and writes 0 at WUNDRESKA_CLAIM_HOLDS. So a
 * host looks at the number first, and then at that byte.
 *
 * Of an accepted model, a claim is accepted if all of this holds, and otherwise not, whatever its bytes are:
 * - the assignment is legal: the columns on the constant side are linearly independent modulo p; a parameter row with a column has
 *   a parameter there; no column stands on two rows, or on the constant side and on a row;
 * - no column of it is n or more, and no row from b on has a column;
 * - it has as many columns, on the constant side and on rows together, as the rank says;
 * - the column set has no column from n on, and its sum is the rank: the rank of the constant columns in the set, plus the
 *   parameter rows with a parameter in the set, plus the columns outside the set. It need not be the smallest such set.
 * From this follows:
 * - an accepted rank is the one that wundreska_check reports, whoever sent it, and an accepted set has every column of the short
 *   set;
 * - the rank and the short set that wundreska_check reports are accepted with the assignment that it shows, and with every other
 *   legal one of as many columns. */
uint32_t wundreska_accepts(const uint8_t *file, size_t file_len, const uint8_t *claim, size_t claim_len, uint8_t *answer,
                           size_t answer_len);

/* The answer about a degree: where each part starts, and the size of all. */
#define WUNDRESKA_DEGREE 0 /* 2 bytes, low byte first: the degree */
#define WUNDRESKA_DEGREE_CONSTANTS (WUNDRESKA_DEGREE + 2) /* a set: the columns on the constant side, in an assignment that reaches it */
#define WUNDRESKA_DEGREE_ROWS (WUNDRESKA_DEGREE_CONSTANTS + WUNDRESKA_SET_SIZE) /* those on rows, laid out as at WUNDRESKA_ROWS */
#define WUNDRESKA_DEGREE_SIZE (WUNDRESKA_DEGREE_ROWS + WUNDRESKA_ROWS_SIZE)     /* 110 */

/* The question about a degree: the degree in s of the determinant of a determined model, whose places have powers of s. Constant row h
 * stands for the row that has, at column c, its constant times s to the power of row h and that of column c together; parameter row r
 * for one that has, at each column where it has a parameter, this parameter times s to a power of its own.
 *
 * The powers are one byte each, and what stands behind them is not read:
 * - row_powers: those of the a constant rows;
 * - column_powers: those of the n columns;
 * - parameter_powers: b * n bytes, row by row; that of row r at column c is byte r * n + c. Where row r has no parameter at column c
 *   the byte is not read, and may be anything.
 *
 * The file is judged as by wundreska_check, then the lengths of all areas. After that a model whose verdict is not
 * WUNDRESKA_DETERMINED, and a power that is read and above WUNDRESKA_POWER_MAX, are refused as WUNDRESKA_NO_DEGREE. Of an accepted
 * model:
 * - a legal assignment, as at wundreska_accepts, that places all n columns has a total: the powers of all constant rows, plus those of
 *   the columns on the constant side, plus those of the parameters that it uses, each at its row and the column there. A column on a
 *   parameter row adds nothing by its own power;
 * - the degree is the largest total, which no such assignment exceeds. It is 0 where all powers are 0;
 * - the assignment shown is legal, places all n columns, and its total is the degree. Which one it is, is one choice of possibly many;
 *   each parameter row below b has a column there, every row from b on has WUNDRESKA_NO_COLUMN, and no column from n on is shown;
 * - so it is the degree in s of the determinant of these rows, with the constants modulo p and the parameters as letters. That follows
 *   by a theorem of the field (valuated matroids) and is tested; what is proved of the call is the points above.
 * wundreska_accepts accepts the assignment shown, with the rank n and the empty set. */
uint32_t wundreska_degree(const uint8_t *file, size_t file_len, const uint8_t *row_powers, size_t row_powers_len,
                          const uint8_t *column_powers, size_t column_powers_len, const uint8_t *parameter_powers,
                          size_t parameter_powers_len, uint8_t *answer, size_t answer_len);

/* An open model, which lies in an area that the host keeps: where each part starts, and the size of all. */
#define WUNDRESKA_OPEN_PRESENT 0 /* a set: the columns that are present; the others are out */
#define WUNDRESKA_OPEN_FILE (WUNDRESKA_OPEN_PRESENT + WUNDRESKA_SET_SIZE) /* 12; the model's file, without numbers of parameters */
/* How many bytes the open model of n columns, a constant rows and b parameter rows has, and the largest of all. In a file that is
 * accepted n, a and b are bytes 8, 9 and 10. */
#define WUNDRESKA_OPEN_LENGTH(n, a, b) (WUNDRESKA_OPEN_FILE + 14 + (a) * (3 + 2 * (n)) + (b) * (3 + WUNDRESKA_ROW_SIZE(n)))
#define WUNDRESKA_OPEN_MAX WUNDRESKA_OPEN_LENGTH(WUNDRESKA_COLUMNS_MAX, WUNDRESKA_ROWS_MAX, WUNDRESKA_ROWS_MAX) /* 20186 */

/* Opens a model: judges the file as wundreska_check does, then whether the area holds the open model of this very file. Accepted, it
 * writes the open model over the front of the area: all columns below n are present, and parameter numbers are dropped, so that each
 * place is a parameter of its own. The file is not needed any more. The surplus of the area is neither read nor written, and is no part
 * of the open model: later calls are given the length WUNDRESKA_OPEN_LENGTH(n, a, b) in place of the area's. */
uint32_t wundreska_open(const uint8_t *file, size_t file_len, uint8_t *area, size_t area_len);

/* An edit: three bytes, which are its kind, a parameter row, and a column. */
#define WUNDRESKA_EDIT_KIND 0   /* 1 byte: one of the kinds below */
#define WUNDRESKA_EDIT_ROW 1    /* 1 byte: of a place; for the first two kinds it may be anything */
#define WUNDRESKA_EDIT_COLUMN 2 /* 1 byte */
#define WUNDRESKA_EDIT_LENGTH 3

/* The kinds. */
#define WUNDRESKA_TAKE_OFF 1    /* the column is taken off: it is out */
#define WUNDRESKA_PUT_BACK 2    /* the column is put back, with the places as they are by now: it is present */
#define WUNDRESKA_SET_PLACE 3   /* the row has a parameter at the column */
#define WUNDRESKA_CLEAR_PLACE 4 /* the row has none there */

/* Edits an open model in its area. The first WUNDRESKA_EDIT_LENGTH bytes of edit are read, and the surplus is not. Judged are, in this
 * order:
 * - the area, at each call and whatever the host has done to it: its bytes from WUNDRESKA_OPEN_FILE on as a file is (1 to 7), with the
 *   field of tag 6 never due. An area of fewer bytes than that has no byte of a file, and is refused as WUNDRESKA_TRUNCATED; surplus
 *   behind the open model is refused as WUNDRESKA_TRAILING;
 * - the edit: one of fewer than three bytes is refused as WUNDRESKA_TRUNCATED, and one of another kind as WUNDRESKA_UNEXPECTED;
 * - a row of b or more, where a place is set or cleared, as WUNDRESKA_ROW_BEYOND; then a column of n or more, named by the edit or held
 *   as present in the area, as WUNDRESKA_COLUMN_BEYOND; then WUNDRESKA_ALREADY_SO.
 * An accepted edit changes one bit of the area or none:
 * - taking a column off, or putting one back, changes whether it is present and nothing else. Its places stay as they are;
 * - setting a place that is set, and clearing one that is clear, is accepted and changes nothing;
 * - a place can be set or cleared while its column is out, and counts once that is put back.
 * An area that was opened, and that nothing else changed, is accepted by every later call, after any edits, whether these were accepted
 * or refused. */
uint32_t wundreska_edit(uint8_t *area, size_t area_len, const uint8_t *edit, size_t edit_len);

/* The question of wundreska_check, asked of an open model. The area is judged as by wundreska_edit, then the length of the answer area,
 * then whether a column that is n or more is held as present. The WUNDRESKA_ANSWER_SIZE bytes of the answer are those of wundreska_check:
 * the answer of the model that has the columns present alone, worked out afresh, under their numbers as opened.
 * - A column that is out is in no set and on no row.
 * - The number of columns is that of those present: the verdict is WUNDRESKA_DETERMINED where the rank equals it and a + b,
 *   WUNDRESKA_SURPLUS where the rank equals it and rows are more, else WUNDRESKA_OPEN.
 * - With no column present the rank is 0, the short set empty, and the verdict WUNDRESKA_DETERMINED where there are no rows, else
 *   WUNDRESKA_SURPLUS. */
uint32_t wundreska_answer(const uint8_t *area, size_t area_len, uint8_t *answer, size_t answer_len);

#ifdef __cplusplus
}
#endif

#endif
