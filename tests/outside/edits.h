/* Models held open: what is held along a list of edits, complaints about the calls, edits to make, and programs with a fault. */
#ifndef EDITS_H
#define EDITS_H

#include "asked.h"

/* An edit as it is sent. The bytes behind it are drawn, and a call is not to read them. */
enum { EDIT_MOST = WUNDRESKA_EDIT_LENGTH + MORE };
typedef struct {
    uint8_t bytes[EDIT_MOST];
    size_t length;
} Sent;

/* An open model by the reference, and its bytes. */
typedef struct {
    Open open;
    uint8_t area[WUNDRESKA_OPEN_MAX + DAMAGE_ROOM];
    size_t length;
} Held;

void hold(const Model *model, Held *held);

/* ---- edits.c: NULL where there is no complaint ---- */

/* About opening: the file of a model in an area of this length, any bytes, and a model handed over in areas of any lengths. The model is
 * that of the file. */
const char *open_complaint(const uint8_t *file, size_t length, size_t area_length, Model *model);
const char *open_handed_complaint(const Model *model, Lengths lengths);

/* About an edit, and about a question with an answer area of any length, where the area is any bytes. */
const char *edit_complaint(const uint8_t *area, size_t length, const Sent *sent);
const char *answered_complaint(const uint8_t *area, size_t length, size_t answer_length);

/* About the same calls on a model handed over in areas of any lengths, sound or not. */
const char *edit_handed_complaint(const Open *open, Lengths lengths, size_t present_length, const Edit *edit);
const char *answered_handed_complaint(const Open *open, Lengths lengths, size_t present_length);

/* Counts an edit of what is held, in its area and handed over, and makes it, unless it is refused; its refusal. */
uint32_t try_edit(Held *held, const Sent *sent);

/* Counts two cases, the question asked of what is held, in its area and handed over. */
void try_answer(const Held *held, const Afresh *afresh);

/* ---- lists.c ---- */

/* How often columns are taken off and put back, and places set and cleared, in a list. */
typedef struct {
    uint64_t off, back, set, clear;
} Habit;

Habit draw_habit(void);

/* An edit of what is held that is accepted, and one that is refused with this number, 1, 2, 9, 11 or 14. */
Sent draw_accepted(const Open *open, const Habit *habit);
Sent draw_refused(const Open *open, uint32_t refusal);

/* One of either, or of no meaning. */
Sent draw_sent_edit(const Open *open);

/* ---- wrong_edits.c: programs with a fault ---- */

typedef enum {
    PLACES_FORGOTTEN,      /* a column that returns forgets the places set while it was out */
    PLACES_CLEARED,        /* taking a column off clears its places */
    PUT_BACK_BY_SETTING,   /* setting a place puts its column back */
    ALREADY_SO_FIRST,      /* 14 is given before 11, */
    ROW_LATER,             /* 9 after 11, */
    ROW_OF_EVERY_KIND,     /* 9 for taking off and putting back too, */
    OUT_REFUSED,           /* or 14 for a place whose column is out */
    REFUSED_CHANGES,       /* a refused edit changes whether its column is present */
    PLACES_TURNED,         /* setting a set place clears it, and clearing a clear one sets it */
    VERDICT_AS_OPENED,     /* the verdict goes by the n as opened */
    RENUMBERED,            /* the answer has the columns' numbers among those present */
    NUMBERS_KEPT,          /* the open model has the parameters' numbers */
    WRONG_EDITS
} WrongEdit;

/* What such programs hold along a list, and which of them the list has told. The last one has no fault, and must not be told. */
typedef struct {
    Set present, parameters[WUNDRESKA_ROWS_MAX], set_while_out[WUNDRESKA_ROWS_MAX];
} WrongHeld;

typedef struct {
    WrongHeld held[WRONG_EDITS + 1];
    uint8_t told[WRONG_EDITS + 1];
} Wrongs;

/* The model is opened; the next edit is made, with the refusal that is due and what is then held; the answer is asked for. */
void begin_wrongs(Wrongs *wrongs, const Model *model, const Held *held);
void edit_wrongs(Wrongs *wrongs, const Sent *sent, uint32_t refusal, const Open *due);
void answer_wrongs(Wrongs *wrongs, const Open *open, const Afresh *afresh);

#endif
