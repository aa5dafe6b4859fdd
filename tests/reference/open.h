/* A model held open, from document 02's text: its bytes, the edits that it takes, and its answer, which is that of the model worked out
 * afresh over the columns present. */
#ifndef OPEN_H
#define OPEN_H

#include "reference.h"

typedef struct {
    Set present;
    Model model; /* without numbers */
} Open;

/* An edit as data; the row is that of a place. Of one handed over, numbers are not cut to bytes. */
typedef struct {
    unsigned kind;
    size_t row, column;
} Edit;

/* ---- opening ---- */

/* All columns present, numbers dropped. */
void open_model(const Model *model, Open *open);

/* The bytes of the open model; their number. */
size_t write_open(const Open *open, uint8_t *area);

/* ---- judgement: the refusal, or 0 ---- */

/* Of an area, with the open model that it holds. */
uint32_t judge_open(const uint8_t *area, size_t length, Open *open);

/* Of the bytes of an edit, with the edit that they are. */
uint32_t judge_edit_bytes(const uint8_t *bytes, size_t length, Edit *edit);

/* Of an edit's kind, of an open model that is asked for its answer, and of an edit of one of the four kinds; the model is not refused. */
uint32_t judge_kind(unsigned kind);
uint32_t judge_present(const Open *open);
uint32_t judge_edit(const Open *open, const Edit *edit);

/* ---- edits and the answer ---- */

/* Makes an edit that is not refused. */
void make_edit(Open *open, const Edit *edit);

/* The model of the columns present, worked out afresh: these columns alone, with their numbers among themselves. */
typedef struct {
    Model model;
    Truth truth;
} Afresh;

void work_out(const Open *open, Afresh *afresh);

/* The columns of such a model under their numbers as opened. */
Set as_opened(Set columns, Set present);

/* What is wrong with an answer about the open model; NULL where nothing is. */
const char *open_answer_complaint(const Open *open, const Answer *answer, const Afresh *afresh);

#endif
