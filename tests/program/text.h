/* The programs' reports: an answer as text, and the answer that a text shows. */
#ifndef TEXT_H
#define TEXT_H

#include "block.h"
#include "reason.h"
#include "reference.h"

enum { TEXT_MAX = 4096 };

/* The text of an answer, with a NUL behind it. */
void write_layered(const Answer *answer, char *text);
void write_mixed(const MixedAnswer *answer, char *text);
void write_reason(const Reason *reason, char *text);
void write_blocks(const Blocks *blocks, unsigned verdict, unsigned rank, char *text);
void write_refused(uint32_t refusal, char *text);

/* Whether the text has the lines of a report; the answer that it shows. How the text is set is not judged here: the answer
 * written again must give the same text. */
int read_layered(const char *text, Answer *answer);
int read_mixed(const char *text, MixedAnswer *answer);

#endif
