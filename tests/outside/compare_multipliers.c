/* How a column depends on held ones, in sound models: the calls compared with the reference, in files and handed over, and the
 * reference with the definition and with what was planted. */
#include "asked.h"
#include "brute.h"
#include "multipliers.h"
#include "planted.h"

/* A question whose answer is known. */
static void try_known(const Model *m, const File *file, Set held, size_t named, const Multipliers *due)
{
    Multipliers found = find_multipliers(m, held, named);
    if (same_multipliers(&found, due))
        try_sound(m, file, held, named);
    else
        count_case("the reference's answer is not the one due", m);
}

/* ---- against the definition ---- */

static void try_every_question(const Model *m)
{
    const File *file = file_of(m);
    for (Set held = 0; held <= all_below(m->n); held++)
        for (size_t named = 0; named < m->n; named++) {
            Multipliers enumerated = enumerate_multipliers(m, held, named);
            try_known(m, file, held, named, &enumerated);
        }
}

static void try_every_model(uint32_t p, size_t columns, size_t rows)
{
    for (size_t n = 1; n <= columns; n++)
        for (size_t a = 0; a <= rows; a++) {
            Model m = {.p = p, .n = n, .a = a};
            do
                try_every_question(&m);
            while (next_filling(&m));
        }
}

static void compare_by_definition(void)
{
    static const uint32_t small_primes[] = {2, 3, 5};
    begin_category("every question about every model up to 3 columns and rows at p 2, and 2 rows at p 3, by the definition");
    try_every_model(2, 3, 3);
    try_every_model(3, 3, 2);
    begin_category("questions about models up to 6 columns, by the definition");
    for (int i = 0; i < 6000; i++) {
        Model m = numbered_or_not(draw_model(small_primes, COUNT(small_primes), BRUTE_COLUMNS, 5));
        Set held = draw_held(m.n);
        size_t named = draw(m.n);
        Multipliers enumerated = enumerate_multipliers(&m, held, named);
        try_known(&m, file_of(&m), held, named, &enumerated);
    }
}

/* ---- questions whose answers are planted ---- */

typedef struct {
    Model model;
    Set held;
    size_t named;
    Multipliers due;
    size_t order[WUNDRESKA_COLUMNS_MAX]; /* the columns; the first ones are held and independent */
    size_t count;                        /* so many are */
} Planted;

/* A column becomes the sum of the first ones, each times a multiplier that is drawn, and often 0. */
static Multipliers draw_sum(Planted *t, size_t column, size_t count)
{
    Multipliers due = {.outcome = WUNDRESKA_DEPENDS};
    for (size_t i = 0; i < count; i++)
        due.multipliers[t->order[i]] = one_in(3) ? 0 : draw(t->model.p);
    plant_sum(&t->model, column, due.multipliers);
    return due;
}

static void plant_independent(Planted *t)
{
    plant_triangle(&t->model, t->order, t->count + 1);
    t->named = t->order[t->count];
    t->due.outcome = WUNDRESKA_INDEPENDENT;
}

static void plant_zero(Planted *t)
{
    plant_triangle(&t->model, t->order, t->count);
    t->named = t->order[t->count];
    t->due = draw_sum(t, t->named, 0);
}

static void plant_none_held(Planted *t)
{
    t->count = 0;
    (one_in(2) ? plant_zero : plant_independent)(t);
}

static void plant_depending(Planted *t)
{
    plant_triangle(&t->model, t->order, t->count);
    t->named = t->order[t->count];
    t->due = draw_sum(t, t->named, t->count);
}

static void name_held(Planted *t)
{
    plant_triangle(&t->model, t->order, t->count);
    t->named = t->order[draw(t->count)];
    t->due.outcome = WUNDRESKA_DEPENDS;
    t->due.multipliers[t->named] = 1;
}

/* All other columns are sums of the held ones. */
static void plant_spanning(Planted *t)
{
    size_t named = draw(t->model.n);
    name_held(t);
    for (size_t i = t->count; i < t->model.n; i++) {
        Multipliers due = draw_sum(t, t->order[i], t->count);
        if (i == named) {
            t->named = t->order[i];
            t->due = due;
        }
    }
}

/* One more column is held, a sum of the others; any column is named. */
static void plant_dependent(Planted *t)
{
    plant_triangle(&t->model, t->order, t->count);
    draw_sum(t, t->order[t->count], one_in(4) ? 0 : t->count);
    t->count++;
    t->named = draw(t->model.n);
    t->due.outcome = WUNDRESKA_HELD_DEPENDENT;
}

static const struct {
    const char *category;
    void (*plant)(Planted *);
    int more_rows, more_columns; /* than held columns that are independent */
} plants[] = {
    {"questions with no column held, the named one 0 or not", plant_none_held, 1, 1},
    {"questions with the named column held", name_held, 0, 0},
    {"questions with a named column of zeros", plant_zero, 0, 1},
    {"questions with a named column that depends on the held ones", plant_depending, 0, 1},
    {"questions with a named column that does not depend on the held ones", plant_independent, 1, 1},
    {"questions with held columns on which all others depend", plant_spanning, 0, 0},
    {"questions with dependent held columns", plant_dependent, 0, 1},
};

/* A question of a kind about a model, with as many held columns as there is room for, or fewer. */
static void try_planted(size_t kind, Model model)
{
    static Planted t;
    if (model.a < 2 || model.n < 2)
        model = draw_sized(2 + draw(FEW), 2 + draw(FEW), draw(FEW));
    t = (Planted){.model = model};
    size_t most = smaller(model.a - plants[kind].more_rows, model.n - plants[kind].more_columns);
    t.count = one_in(4) ? most : 1 + draw(most);
    shuffle(t.order, model.n);
    plants[kind].plant(&t);
    for (size_t i = 0; i < t.count; i++)
        t.held |= just(t.order[i]);
    if (one_in(2))
        stir(&t.model);
    try_known(&t.model, file_of(&t.model), t.held, t.named, &t.due);
}

static void compare_planted(void)
{
    for (size_t kind = 0; kind < COUNT(plants); kind++) {
        begin_category(plants[kind].category);
        for (int i = 0; i < 4000; i++)
            try_planted(kind, draw_any(SMALL, SMALL));
        for (int i = 0; i < 2000; i++)
            try_planted(kind, draw_sized(draw_wide(), 2 + draw(SMALL), draw(FEW)));
        for (int i = 0; i < 250; i++)
            try_planted(kind, draw_sized(draw_edge(), draw_edge(), draw(FEW)));
        for (int i = 0; i < 250; i++)
            try_planted(kind, draw_any(WUNDRESKA_COLUMNS_MAX, WUNDRESKA_ROWS_MAX));
    }
}

/* ---- questions drawn at random ---- */

static void try_drawn(Model m)
{
    try_sound(&m, file_of(&m), draw_held(m.n), draw(m.n));
}

/* Each column by each one held alone, in one row with one 0, so that most depend. */
static void try_every_pair(size_t n)
{
    Model m = draw_sized(n, 1, 1);
    m.p = WUNDRESKA_PRIME_MAX;
    for (size_t c = 0; c < n; c++)
        m.constants[c] = 1 + draw(m.p - 1);
    m.constants[draw(n)] = 0;
    const File *file = file_of(&m);
    for (size_t held = 0; held < n; held++)
        for (size_t named = 0; named < n; named++)
            try_sound(&m, file, just(held), named);
}

/* In one row, where the multiplier is a quotient. */
static void try_every_constant(uint32_t p)
{
    Model m = {.p = p, .n = 2, .a = 1};
    for (uint32_t constant = 1; constant < p; constant++) {
        m.constants[0] = constant;
        m.constants[1] = one_in(3) ? p - 1 : draw(p);
        size_t room = draw_room(WUNDRESKA_MULTIPLIERS_SIZE);
        count_case(asked_handed_complaint(&m, columns_to_hand(just(0), 1), exact_lengths(&m, room)), &m);
    }
}

static void compare_drawn(void)
{
    begin_category("questions drawn at random, about models up to 12 columns and rows");
    for (int i = 0; i < 10000; i++)
        try_drawn(draw_any(SMALL, SMALL));
    begin_category("questions drawn at random, about models of all sizes");
    for (int i = 0; i < 600; i++)
        try_drawn(draw_any(WUNDRESKA_COLUMNS_MAX, WUNDRESKA_ROWS_MAX));
    begin_category("every column by every other one, on both sides of a word's columns and with the most");
    try_every_pair(WORD);
    try_every_pair(WORD + 1);
    try_every_pair(WUNDRESKA_COLUMNS_MAX);
    begin_category("every constant of a held column, at p 3, 1021 and the largest");
    try_every_constant(3);
    try_every_constant(1021);
    try_every_constant(WUNDRESKA_PRIME_MAX);
}

void compare_multipliers(void)
{
    compare_by_definition();
    compare_planted();
    compare_drawn();
}
