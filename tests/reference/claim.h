/* Claims of a rank, shown by an assignment and a column set, from document 02's text: all that is wrong with one, by an elimination
 * modulo p that shares nothing with the library's. */
#ifndef CLAIM_H
#define CLAIM_H

#include "model.h"

typedef struct {
    unsigned rank;                     /* one byte */
    Set constants;                     /* the columns on the constant side */
    uint8_t rows[WUNDRESKA_ROWS_SIZE]; /* the column of each parameter row, or WUNDRESKA_NO_COLUMN */
    Set set;
} Claim;

/* A claim and its bytes; each says all of the other. */
Claim claim_in(const uint8_t *bytes);
void put_claim(const Claim *claim, uint8_t *bytes);

/* The parameter rows that name a column, and the columns, up to the most, that a row or the constant side names. */
Set rows_naming(const Claim *claim);
Set columns_named(const Claim *claim);

/* What a claim can fail by. */
typedef enum {
    SIDE_BEYOND,    /* the constant side has a column at n or later */
    SIDE_DEPENDENT, /* its columns below n are dependent */
    ROW_BEYOND,     /* a row at b or later names a column */
    NAMED_BEYOND,   /* an earlier row names a column at n or later */
    NO_PARAMETER,   /* or a column below n at which it has no parameter */
    ON_TWO_ROWS,    /* two rows name one column */
    ON_BOTH_SIDES,  /* a row names a column of the constant side */
    OTHER_SIZE,     /* the columns named, on the constant side and by rows, are more or fewer than the rank */
    SET_BEYOND,     /* the set has a column at n or later */
    OTHER_SUM,      /* the sum of its columns below n is not the rank */
    FAULTS
} Fault;

/* All faults of a claim about a sound model, as the sum of 1 << fault: 0 where it is to be accepted. */
unsigned faults_of(const Model *model, const Claim *claim);

/* The rank modulo p of these columns of the constants, and all columns below n that depend on them. */
size_t rank_of_columns(const Model *model, Set columns);
Set columns_spanned(const Model *model, Set columns);

#endif
