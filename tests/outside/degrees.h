/* The question about a degree, as both calls take it; determined models and powers to ask about; and answers with a fault. */
#ifndef DEGREES_H
#define DEGREES_H

#include "asked.h"
#include "degree.h"
#include "ways.h"

/* ---- degrees.c ---- */

/* How many bytes the areas of powers have. */
typedef struct {
    size_t rows, columns, parameters;
} PowersLengths;

PowersLengths exact_powers(const Model *model);

/* Areas that are just right or longer, each by itself; and such that are mostly so, else short. */
PowersLengths draw_enough_powers(const Model *model);
PowersLengths draw_any_powers(const Model *model);

/* Hands these powers over from now on, in areas of these lengths. */
void hand_powers(const Powers *powers, PowersLengths lengths);

extern const Question degree_question;

/* About the call on a model handed over in areas of any lengths, sound or not: the areas of powers are judged with the model's own. */
const char *degree_handed_complaint(const Model *model, Lengths lengths);

/* Counts three cases: a determined model handed over, and its file, which are to have this degree; and whether the claim that the
 * assignment shown makes is accepted. */
void try_degree(const Model *model, const Powers *powers, unsigned due);

/* ---- dynamics.c ---- */

typedef struct {
    Model model;
    Powers powers;
} Dynamics;

/* A determined model of so many columns, numbered or not: a legal assignment of all columns is planted, and other places are filled. */
Model draw_determined(size_t columns);

/* How powers are drawn: all 0; all the most; any; few different ones; mostly 0; those of rows, columns or parameters alone; near the
 * most; and such that many assignments come near to the degree. */
typedef enum { NO_POWERS, FULL, ANY, FEW_DIFFERENT, SPARSE, OF_ROWS, OF_COLUMNS, OF_PARAMETERS, HIGH, NEAR, POWERS_DRAWN } DrawnPowers;

/* Bytes that are not read, at places without a parameter and behind the powers, are drawn too, and most would be refused. */
void draw_powers(const Model *model, Powers *powers, DrawnPowers drawn);

/* A determined model of so many columns in which a row's parameter or constant at its own column has a low power, and at the next
 * row's column a high one: the columns compete for rows all along. In some more places are filled, by which others serve better. In a
 * long one the powers are 0 and the most, with no other place filled, and parameter rows alone or every other one a constant row. In a
 * triangle a row has more of the later columns, at any power. */
void draw_chain(Dynamics *dynamics, size_t columns);
void draw_long_chain(Dynamics *dynamics, size_t columns);
void draw_triangle(Dynamics *dynamics, size_t columns);

/* ---- wrong_degrees.c: answers that a faulty program would give ---- */

typedef enum {
    ROWS_LEFT_OUT,           /* the constant rows' powers are left out */
    SEATED_COLUMNS_COUNTED,  /* a column's power counts on a parameter row too */
    SMALLEST_TOTAL,          /* the smallest total for the largest */
    ANY_TOTAL,               /* that of any legal assignment */
    OTHER_ASSIGNMENT_SHOWN,  /* the degree, with any legal assignment of all columns */
    LARGEST_POWERS_FIRST,    /* seats by descending powers, each taken if all columns can still be placed */
    CONSTANTS_AS_PARAMETERS, /* constants count as if they were parameters */
    BY_COLUMNS,              /* parameters' powers are read column by column */
    ONE_MORE,                /* the degree and one, */
    ONE_LESS,                /* less one, */
    LOW_BYTE_ALONE,          /* or without its high byte */
    OPEN_ACCEPTED,           /* a model is answered whose verdict is 0, */
    SURPLUS_ACCEPTED,        /* or 2 */
    ROW_ABOVE_ACCEPTED,      /* a power of one more than the most is accepted, of a row, */
    COLUMN_ABOVE_ACCEPTED,   /* of a column, */
    PARAMETER_ABOVE_ACCEPTED, /* or of a parameter */
    UNREAD_REFUSED,          /* a power is judged where no parameter stands */
    WRONG_DEGREES
} WrongDegree;

/* What the call returns, and the answer where that is 0. */
typedef struct {
    uint32_t refusal;
    Degree shown;
} DegreeOutcome;

/* A heaviest assignment shown with its total, or a refusal where there is none. */
DegreeOutcome outcome_of(const Heaviest *heaviest);

/* The right outcome for a sound model; that of the fault; and whether the comparison tells them apart, as it would the library's. */
DegreeOutcome answer_rightly(const Model *model, const Powers *powers);
DegreeOutcome answer_wrongly(const Model *model, const Powers *powers, const DegreeOutcome *right, WrongDegree wrong);
int is_told(const Model *model, const Powers *powers, const DegreeOutcome *right, const DegreeOutcome *wrong);

#endif
