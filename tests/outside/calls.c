/* Lent areas with a guard page behind, and the calls on them. */
#define _DEFAULT_SOURCE
#include "calls.h"

#include <stdlib.h>
#include <string.h>
#include <sys/mman.h>

/* No area is longer than the longest file and some surplus. */
enum { PAGE = 4096, ROOM = (WUNDRESKA_FILE_MAX / PAGE + 4) * PAGE, MARGIN = 16 };

typedef struct {
    uint8_t *end;         /* the guard page */
    size_t length;        /* lent are the last bytes before the end */
    uint8_t before[ROOM]; /* the margin and the lent bytes, as they were before the call */
} Area;

static Area file_area, constants_area, rows_area, numbers_area, beside_areas[BESIDE], out_area;

static void open_area(Area *area)
{
    uint8_t *start = mmap(NULL, ROOM + PAGE, PROT_READ | PROT_WRITE, MAP_PRIVATE | MAP_ANONYMOUS, -1, 0);
    if (start == MAP_FAILED || mprotect(start + ROOM, PAGE, PROT_NONE) != 0)
        abort();
    area->end = start + ROOM;
}

/* The bytes to lend, all ones so far: neither a constant nor, below the most columns, a parameter row. */
static uint8_t *lend(Area *area, size_t length)
{
    if (!area->end)
        open_area(area);
    if (length > ROOM - MARGIN)
        abort();
    area->length = length;
    memset(area->end - length - MARGIN, 255, length + MARGIN);
    return area->end - length;
}

static uint8_t *lend_copy(Area *area, size_t length, const void *content, size_t content_length)
{
    uint8_t *start = lend(area, length);
    memcpy(start, content, content_length < length ? content_length : length);
    return start;
}

static uint8_t *lend_to_write(Area *area, size_t length)
{
    uint8_t *start = lend(area, length);
    uint8_t pattern = draw(256);
    for (size_t i = 0; i < length; i++)
        start[i] = pattern + 37 * i;
    return start;
}

static void remember(Area *area)
{
    memcpy(area->before, area->end - area->length - MARGIN, area->length + MARGIN);
}

/* Whether all is as remembered, but for the first bytes lent. */
static int unchanged(const Area *area, size_t written)
{
    const uint8_t *start = area->end - area->length;
    return memcmp(start - MARGIN, area->before, MARGIN) == 0 &&
           memcmp(start + written, area->before + MARGIN + written, area->length - written) == 0;
}

/* What a call left in the area written to. */
static Called outcome(uint32_t refusal, size_t written)
{
    Called called = {.refusal = refusal};
    size_t shown = out_area.length < sizeof called.out ? out_area.length : sizeof called.out;
    memcpy(called.out, out_area.end - out_area.length, shown);
    called.intact = (refusal != 0 || written <= out_area.length) && unchanged(&out_area, refusal ? 0 : written);
    return called;
}

const uint8_t *lend_beside_at(size_t place, const uint8_t *bytes, size_t length)
{
    const uint8_t *lent = lend_copy(&beside_areas[place], length, bytes, length);
    remember(&beside_areas[place]);
    return lent;
}

const uint8_t *lend_beside(const uint8_t *bytes, size_t length)
{
    return lend_beside_at(0, bytes, length);
}

static int beside_unchanged(void)
{
    int all = 1;
    for (size_t i = 0; i < BESIDE; i++)
        all = all && (!beside_areas[i].end || unchanged(&beside_areas[i], 0));
    return all;
}

Called call_file(FileCall *call, const uint8_t *file, size_t length, size_t answer_length, size_t written)
{
    const uint8_t *lent = lend_copy(&file_area, length, file, length);
    uint8_t *answer = lend_to_write(&out_area, answer_length);
    remember(&file_area);
    remember(&out_area);
    Called called = outcome(call(lent, length, answer, answer_length), written);
    called.intact = called.intact && unchanged(&file_area, 0) && beside_unchanged();
    return called;
}

Lengths exact_lengths(const Model *m, size_t out)
{
    return (Lengths){m->a * m->n, m->b, m->numbered ? m->b * m->n : 0, out};
}

enum { ROW = ROW_WORDS * sizeof(uint64_t) };

/* The model's rows as words; how many bytes they have. */
static size_t rows_in_bytes(const Model *m, uint64_t *words)
{
    size_t rows = m->b < WUNDRESKA_ROWS_MAX ? m->b : WUNDRESKA_ROWS_MAX;
    for (size_t r = 0; r < rows; r++)
        put_words(m->parameters[r], words + r * ROW_WORDS);
    return rows * ROW;
}

/* How many bytes so many rows of entries have, or where sizes are beyond the limits, all that a model holds. */
static size_t entries_in_bytes(const Model *m, size_t rows)
{
    int sizes_fit = m->n <= WUNDRESKA_COLUMNS_MAX && rows <= WUNDRESKA_ROWS_MAX;
    return sizes_fit ? rows * m->n * sizeof(uint16_t) : sizeof m->constants;
}

static void *lend_constants(const Model *m, size_t length)
{
    return lend_copy(&constants_area, length * sizeof(uint16_t), m->constants, entries_in_bytes(m, m->a));
}

static void *lend_rows(const Model *m, size_t length)
{
    static uint64_t words[WUNDRESKA_ROWS_MAX * ROW_WORDS];
    size_t rows = rows_in_bytes(m, words);
    return lend_copy(&rows_area, length * ROW, words, rows);
}

static void *lend_numbers(const Model *m, size_t length)
{
    return lend_copy(&numbers_area, length * sizeof(uint16_t), m->numbers, entries_in_bytes(m, m->b));
}

static void remember_model(void)
{
    remember(&constants_area);
    remember(&rows_area);
    remember(&numbers_area);
}

static int model_unchanged(void)
{
    return unchanged(&constants_area, 0) && unchanged(&rows_area, 0) && unchanged(&numbers_area, 0);
}

Called call_model(ModelCall *call, const Model *m, Lengths l, size_t written)
{
    void *constants = lend_constants(m, l.constants), *rows = lend_rows(m, l.rows), *numbers = lend_numbers(m, l.numbers);
    uint8_t *out = lend_to_write(&out_area, l.out);
    remember_model();
    remember(&out_area);
    Called called = outcome(call(m->p, m->n, m->a, m->b, constants, l.constants, rows, l.rows * ROW_WORDS, m->numbered, numbers,
                                 l.numbers, out, l.out), written);
    called.intact = called.intact && model_unchanged() && beside_unchanged();
    return called;
}

Called call_multipliers(const uint8_t *file, size_t length, Columns columns, size_t answer_length)
{
    const uint8_t *lent = lend_copy(&file_area, length, file, length);
    const uint8_t *held = lend_beside(columns.held, columns.length);
    uint8_t *answer = lend_to_write(&out_area, answer_length);
    remember(&file_area);
    remember(&out_area);
    Called called = outcome(wundreska_multipliers(lent, length, held, columns.length, columns.named, answer, answer_length),
                            WUNDRESKA_MULTIPLIERS_SIZE);
    called.intact = called.intact && unchanged(&file_area, 0) && beside_unchanged();
    return called;
}

Called call_handed_multipliers(const Model *m, Columns columns, Lengths l)
{
    void *constants = lend_constants(m, l.constants), *rows = lend_rows(m, l.rows), *numbers = lend_numbers(m, l.numbers);
    const uint8_t *held = lend_beside(columns.held, columns.length);
    uint8_t *out = lend_to_write(&out_area, l.out);
    remember_model();
    remember(&out_area);
    Called called = outcome(harness_multipliers(m->p, m->n, m->a, m->b, constants, l.constants, rows, l.rows * ROW_WORDS,
                                                m->numbered, numbers, l.numbers, held, columns.length, columns.named, out, l.out),
                            WUNDRESKA_MULTIPLIERS_SIZE);
    called.intact = called.intact && model_unchanged() && beside_unchanged();
    return called;
}

/* What a call is to leave at the front of an area, remembered as if it had been there; whether the area has room for it. */
static int remember_due(Area *area, const void *content, size_t length)
{
    if (length > area->length)
        return 0;
    memcpy(area->before + MARGIN, content, length);
    return 1;
}

static int remember_due_model(const Model *m)
{
    static uint64_t words[WUNDRESKA_ROWS_MAX * ROW_WORDS];
    return remember_due(&constants_area, m->constants, entries_in_bytes(m, m->a)) &&
           remember_due(&rows_area, words, rows_in_bytes(m, words)) &&
           (!m->numbered || remember_due(&numbers_area, m->numbers, entries_in_bytes(m, m->b)));
}

Reading call_read(const uint8_t *file, size_t length, const Model *m, Lengths l)
{
    const uint8_t *lent = lend_copy(&file_area, length, file, length);
    void *constants = lend_to_write(&constants_area, l.constants * sizeof(uint16_t)), *rows = lend_to_write(&rows_area, l.rows * ROW);
    void *numbers = lend_to_write(&numbers_area, l.numbers * sizeof(uint16_t));
    remember(&file_area);
    remember_model();
    uint32_t refusal = harness_read(lent, length, constants, l.constants, rows, l.rows * ROW_WORDS, numbers, l.numbers);
    int due = refusal || remember_due_model(m);
    return (Reading){refusal, due && unchanged(&file_area, 0) && model_unchanged()};
}

Edited call_edit(const uint8_t *area, size_t length, const uint8_t *edit, size_t edit_length, const uint8_t *due)
{
    uint8_t *lent = lend_copy(&file_area, length, area, length);
    const uint8_t *sent = lend_beside(edit, edit_length);
    remember(&file_area);
    uint32_t refusal = wundreska_edit(lent, length, sent, edit_length);
    int is_due = refusal || remember_due(&file_area, due, length);
    return (Edited){refusal, is_due && unchanged(&file_area, 0) && beside_unchanged()};
}

void put_present(Set present, uint8_t *bytes)
{
    for (size_t i = 0; i < PRESENT_MOST; i++)
        bytes[i] = i < sizeof present ? present >> 8 * i & 255 : draw(256);
}

/* The present columns have a writable area of their own, the last of those beside. */
static int remember_due_open(const Open *due)
{
    static uint64_t words[WUNDRESKA_ROWS_MAX * ROW_WORDS];
    uint8_t present[PRESENT_MOST];
    put_present(due->present, present);
    return remember_due(&rows_area, words, rows_in_bytes(&due->model, words)) &&
           remember_due(&beside_areas[BESIDE - 1], present, WUNDRESKA_SET_SIZE);
}

Edited call_handed_edit(const Open *open, Lengths l, size_t present_length, const Edit *edit, const Open *due)
{
    const Model *m = &open->model;
    void *constants = lend_constants(m, l.constants), *rows = lend_rows(m, l.rows);
    uint8_t bytes[PRESENT_MOST], *present;
    put_present(open->present, bytes);
    present = lend_copy(&beside_areas[BESIDE - 1], present_length, bytes, present_length);
    lend_numbers(m, 0);
    remember_model();
    remember(&beside_areas[BESIDE - 1]);
    uint32_t refusal = harness_edit(m->p, m->n, m->a, m->b, constants, l.constants, rows, l.rows * ROW_WORDS, present, present_length,
                                    edit->kind, edit->row, edit->column);
    int is_due = refusal || remember_due_open(due);
    return (Edited){refusal, is_due && model_unchanged() && beside_unchanged()};
}

Touched call_touching(const Model *m, Touching t)
{
    void *rows = lend_rows(m, t.rows), *set = lend_copy(&file_area, t.length, t.set, t.length);
    remember(&rows_area);
    remember(&file_area);
    size_t count = harness_touching(t.n, t.b, rows, t.rows * ROW_WORDS, set, t.length);
    return (Touched){count, unchanged(&rows_area, 0) && unchanged(&file_area, 0)};
}
