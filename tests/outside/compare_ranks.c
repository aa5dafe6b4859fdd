/* Models of every rank, with fewer rows than columns, as many and more: what the verdict hangs on. */
#include "compare.h"

enum { DRAWN = 12 };

/* From rows less columns: whether they are fewer, as many or more. */
typedef enum { FEWER = -1, AS_MANY, MORE } Relation;

static int relates(size_t rows, size_t columns, Relation relation)
{
    return (rows > columns) - (rows < columns) == (int)relation;
}

/* Sizes that a model of a kind can have: so many rows in all, n columns. */
static int possible(Kind kind, size_t rows, size_t n)
{
    return kind == LAYERED ? rows <= 2 * WUNDRESKA_ROWS_MAX : rows <= WUNDRESKA_ROWS_MAX && rows + n <= WUNDRESKA_COLUMNS_MAX;
}

/* One of all sizes with this relation that allow the rank, or of those with as many columns as the rank. Whether there is one. */
static int draw_sizes(Kind kind, size_t rank, Relation relation, int full, size_t *n, size_t *rows)
{
    size_t found = 0;
    for (size_t columns = rank > 1 ? rank : 1; columns <= (full ? rank : WUNDRESKA_COLUMNS_MAX); columns++)
        for (size_t k = rank; possible(kind, k, columns); k++)
            if (relates(k, columns, relation) && one_in(++found))
                *n = columns, *rows = k;
    return found > 0;
}

/* Rows divided into constant and parameter rows. */
static size_t draw_constant_rows(size_t rows)
{
    size_t least = rows > WUNDRESKA_ROWS_MAX ? rows - WUNDRESKA_ROWS_MAX : 0, most = rows - least;
    return least + draw(most - least + 1);
}

static const char *layered_rank_complaint(const Model *m, size_t rank)
{
    Truth truth = layered_truth(m);
    return truth.rank != rank ? "the reference's rank is not the planted one" : layered_complaint(m, truth);
}

static const char *mixed_rank_complaint(const Model *m, size_t rank)
{
    Model form = layered_form(m);
    return mixed_rank(m) != rank ? "the reference's rank is not the planted one" : mixed_complaint(m, rank, layered_truth(&form));
}

/* A model handed over, and its file. */
static void try_rank(Kind kind, size_t n, size_t rows, size_t rank)
{
    static uint8_t file[WUNDRESKA_FILE_MAX];
    size_t a = kind == LAYERED ? draw_constant_rows(rows) : rows;
    Model m = draw_of_rank(kind, all_primes[draw(COUNT(all_primes))], n, a, kind == LAYERED ? rows - a : rows, rank);
    count_case((kind == LAYERED ? layered_rank_complaint : mixed_rank_complaint)(&m, rank), &m);
    try_file(kind == LAYERED ? &layered_question : &mixed_question, file, write_file(&m, file));
}

/* Tries models of each pair of a rank and a relation that sizes allow, every other one with as many columns as the rank; how many
 * pairs there are. */
static unsigned long try_ranks(Kind kind)
{
    unsigned long pairs = 0;
    size_t n, rows;
    for (size_t rank = 0; rank <= WUNDRESKA_COLUMNS_MAX; rank++)
        for (int relation = FEWER; relation <= MORE; relation++)
            for (int i = 0; i < DRAWN; i++)
                if (draw_sizes(kind, rank, relation, i % 2, &n, &rows)) {
                    pairs += i == 0;
                    try_rank(kind, n, rows, rank);
                }
    return pairs;
}

/* Each rank has all three relations but the highest: there as many columns leave no room for fewer rows, and in a mixed model, where
 * rows and columns share their limit, for none but as many. */
void compare_ranks(void)
{
    static const Model none;
    begin_category("layered models of every rank, with fewer rows than columns, as many and more");
    count_case(try_ranks(LAYERED) == 3 * WUNDRESKA_COLUMNS_MAX + 2 ? NULL : "a rank was left out", &none);
    begin_category("mixed models of every rank, with fewer rows than columns, as many and more");
    count_case(try_ranks(MIXED) == 3 * (WUNDRESKA_COLUMNS_MAX / 2) + 1 ? NULL : "a rank was left out", &none);
}
