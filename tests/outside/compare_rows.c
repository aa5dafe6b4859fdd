/* The count of parameter rows that touch a set of columns, held against a count place by place. */
#include "compare.h"

#include <string.h>

/* How far numbers and areas go beyond what is needed. */
enum { MORE = 3 };

/* Column c is bit c mod 8 of byte c div 8; bytes that are missing count as 0, and those that a row has no room for are not read. */
static int shown(const Touching *t, size_t column)
{
    size_t byte = column / 8;
    return byte < t->length && column < WIDTH && t->set[byte] >> column % 8 & 1;
}

static int row_touches(const Model *m, const Touching *t, size_t row)
{
    for (size_t c = 0; c < t->n && c < WIDTH; c++)
        if (shown(t, c) && has(m->parameters[row], c))
            return 1;
    return 0;
}

static const char *touching_complaint(const Model *m, const Touching *t)
{
    size_t count = 0;
    for (size_t r = 0; r < t->b && r < t->rows; r++)
        count += row_touches(m, t, r);
    Touched touched = call_touching(m, *t);
    if (touched.count != count)
        return "the number of rows that touch the set is wrong";
    return touched.intact ? NULL : "a lent byte has changed";
}

/* A set of a few bits, of many, or of one. */
static void draw_set(uint8_t *set, size_t length)
{
    uint64_t rare = 1 + draw(8);
    memset(set, 0, length);
    if (length && one_in(3))
        set[draw(length)] = 1 << draw(8);
    else
        for (size_t bit = 0; bit < 8 * length; bit++)
            set[bit / 8] |= one_in(rare) << bit % 8;
}

/* Mostly the model's own n and a whole set. The area has the model's rows, and others behind them that do not count; or fewer, and b is
 * drawn apart from them. */
static Touching draw_touching(const Model *m, uint8_t *set)
{
    Touching t = {m->n, m->b, m->b + draw(MORE), set, WUNDRESKA_SET_SIZE};
    if (one_in(3)) {
        t.rows = draw(m->b + 1);
        t.b = one_in(4) ? SIZE_MAX : draw(WUNDRESKA_ROWS_MAX + MORE);
    }
    if (one_in(4))
        t.n = draw(WIDTH + MORE);
    if (one_in(4))
        t.length = draw(WIDTH / 8 + MORE);
    draw_set(set, t.length);
    return t;
}

void compare_rows(void)
{
    uint8_t set[WIDTH / 8 + MORE];
    begin_category("rows that touch a set, counted");
    for (int i = 0; i < 40000; i++) {
        Model m = draw_model(all_primes, COUNT(all_primes), WUNDRESKA_COLUMNS_MAX, WUNDRESKA_ROWS_MAX);
        if (m.b > 0 && one_in(2))
            m.parameters[draw(m.b)] |= just(draw(WIDTH));
        Touching t = draw_touching(&m, set);
        count_case(touching_complaint(&m, &t), &m);
    }
}
