/* Reports as document 01 has them, and those of reasons and blocks likewise: one word, then items with one space before each; each line ends in
 * a line feed. */
#include "text.h"

#include <ctype.h>
#include <stdio.h>
#include <stdlib.h>
#include <string.h>

/* ---- writing ---- */

static char *put_set(char *out, const char *name, Set set)
{
    out += sprintf(out, "%s", name);
    for (unsigned i = 0; i < 8 * WUNDRESKA_SET_SIZE; i++)
        if (has(set, i))
            out += sprintf(out, " %u", i);
    return out + sprintf(out, "\n");
}

static char *put_rows(char *out, const uint8_t *rows)
{
    out += sprintf(out, "parameters");
    for (unsigned r = 0; r < WUNDRESKA_ROWS_SIZE; r++)
        if (rows[r] != WUNDRESKA_NO_COLUMN)
            out += sprintf(out, " %u:%u", r, rows[r]);
    return out + sprintf(out, "\n");
}

static char *put_multipliers(char *out, const uint16_t *multipliers)
{
    out += sprintf(out, "multipliers");
    for (unsigned c = 0; c < WUNDRESKA_COLUMNS_MAX; c++)
        if (multipliers[c] != 0)
            out += sprintf(out, " %u:%u", c, multipliers[c]);
    return out + sprintf(out, "\n");
}

static const char *const verdicts[] = {[WUNDRESKA_OPEN] = "open", [WUNDRESKA_DETERMINED] = "determined", [WUNDRESKA_SURPLUS] = "surplus"};

static char *put_start(char *out, unsigned verdict, unsigned rank)
{
    return out + sprintf(out, "verdict %s\nrank %u\n", verdicts[verdict], rank);
}

void write_layered(const Answer *answer, char *text)
{
    char *out = put_start(text, answer->verdict, answer->rank);
    out = put_rows(put_set(out, "constants", answer->constants), answer->rows);
    put_set(out, "short", answer->short_set);
}

void write_mixed(const MixedAnswer *answer, char *text)
{
    char *out = put_start(text, answer->verdict, answer->rank);
    out = put_set(put_set(out, "rows", answer->rows), "columns", answer->columns);
    put_set(out, "short", answer->short_set);
}

void write_reason(const Reason *reason, char *text)
{
    char *out = put_set(text, "reason", reason->set);
    if (reason->given)
        put_multipliers(out, reason->multipliers);
}

void write_blocks(const Blocks *blocks, unsigned verdict, unsigned rank, char *text)
{
    char name[16], *out = text;
    for (unsigned k = 0; k < blocks->count; k++) {
        sprintf(name, "block %u", k);
        out = put_set(out, name, columns_of_block(blocks, k));
    }
    put_start(out, verdict, rank);
}

void write_refused(uint32_t refusal, char *text)
{
    sprintf(text, "refused %u\n", (unsigned)refusal);
}

/* ---- reading: each takes what is due from the front, and says whether it was there ---- */

static int take(const char **text, const char *due)
{
    size_t length = strlen(due);
    if (strncmp(*text, due, length) != 0)
        return 0;
    *text += length;
    return 1;
}

static int take_number(const char **text, unsigned bound, unsigned *number)
{
    char *end;
    if (!isdigit((unsigned char)**text))
        return 0;
    unsigned long value = strtoul(*text, &end, 10);
    *text = end;
    *number = (unsigned)value;
    return value < bound;
}

static int take_set(const char **text, const char *name, Set *set)
{
    unsigned item;
    *set = 0;
    if (!take(text, name))
        return 0;
    while (take(text, " ")) {
        if (!take_number(text, 8 * WUNDRESKA_SET_SIZE, &item))
            return 0;
        *set |= just(item);
    }
    return take(text, "\n");
}

static int take_rows(const char **text, uint8_t *rows, Set *columns)
{
    unsigned row, column;
    memset(rows, WUNDRESKA_NO_COLUMN, WUNDRESKA_ROWS_SIZE);
    *columns = 0;
    if (!take(text, "parameters"))
        return 0;
    while (take(text, " ")) {
        if (!take_number(text, WUNDRESKA_ROWS_SIZE, &row) || !take(text, ":") ||
            !take_number(text, WUNDRESKA_COLUMNS_MAX, &column))
            return 0;
        rows[row] = column;
        *columns |= just(column);
    }
    return take(text, "\n");
}

static int take_verdict(const char **text, unsigned *verdict)
{
    for (*verdict = 0; *verdict < COUNT(verdicts); ++*verdict)
        if (take(text, verdicts[*verdict]))
            return 1;
    return 0;
}

static int take_start(const char **text, unsigned *verdict, unsigned *rank)
{
    return take(text, "verdict ") && take_verdict(text, verdict) && take(text, "\nrank ") &&
           take_number(text, WUNDRESKA_COLUMNS_MAX + 1, rank) && take(text, "\n");
}

int read_layered(const char *text, Answer *answer)
{
    Set served;
    int found = take_start(&text, &answer->verdict, &answer->rank) && take_set(&text, "constants", &answer->constants) &&
                take_rows(&text, answer->rows, &served) && take_set(&text, "short", &answer->short_set);
    answer->placed = found ? answer->constants | served : 0;
    return found;
}

int read_mixed(const char *text, MixedAnswer *answer)
{
    return take_start(&text, &answer->verdict, &answer->rank) && take_set(&text, "rows", &answer->rows) &&
           take_set(&text, "columns", &answer->columns) && take_set(&text, "short", &answer->short_set);
}
