/* Degrees of determined models: the calls compared with the reference, in files and handed over, and the reference's shortest ways with
 * the totals of all assignments, for few columns, and with the determinant as a polynomial. It is counted how many models tell an
 * answer with a fault. */
#include "degrees.h"
#include "every.h"
#include "polynomial.h"

#include <stdio.h>
#include <string.h>

/* At least so many models are to be compared by all assignments, of more columns than that, of these by the determinant, and of more
 * columns than a word has bits; of small ones and of larger ones so many are to tell each fault that an accepted model can tell. */
enum {
    EVERY_ENOUGH = 50000,
    LARGER_ENOUGH = 20000,
    LARGER_BY_DETERMINANT = 5000,
    WIDE_ENOUGH = 1000,
    TELLING_ENOUGH = 1000,
    LARGEST_DEGREE = 2 * WUNDRESKA_POWER_MAX * WUNDRESKA_COLUMNS_MAX
};

/* Columns of a model that is neither small nor large. */
enum { MIDDLE = 24 };

/* ---- what the models compared were ---- */

/* Of the small ones and of the larger ones, how many there were, by the determinant, and how many told each fault; and those of more
 * columns than a word has bits. */
static struct {
    unsigned long models, by_determinant, telling[WRONG_DEGREES];
} seen[2];
static unsigned long wide;

/* Those that take long are tried on some models. */
static int is_tried(const Model *m, WrongDegree wrong)
{
    if (wrong == LARGEST_POWERS_FIRST)
        return m->n <= MIDDLE && one_in(4);
    return m->n <= EVERY_COLUMNS || wrong == ONE_MORE || wrong == ONE_LESS || wrong == LOW_BYTE_ALONE || one_in(4);
}

static void note_faults(const Model *m, const Powers *powers, const DegreeOutcome *right)
{
    int larger = m->n > EVERY_COLUMNS;
    for (int wrong = 0; wrong < WRONG_DEGREES; wrong++) {
        if (!is_tried(m, wrong))
            continue;
        DegreeOutcome outcome = answer_wrongly(m, powers, right, wrong);
        seen[larger].telling[wrong] += is_told(m, powers, right, &outcome);
    }
}

/* ---- the reference against the definition and against the determinant ---- */

static const char *every_complaint(const Model *m, const Weights *weights, int degree)
{
    Totals totals = totals_of_all(m, weights);
    if (totals.count == 0)
        return "no assignment places all columns";
    return totals.largest == degree ? NULL : "the reference differs from all assignments";
}

static const char *determinant_complaint(const Model *m, const Powers *powers, int degree)
{
    seen[m->n > EVERY_COLUMNS].by_determinant++;
    return degree_of_determinant(m, powers, degree) == degree ? NULL : "the reference differs from the determinant";
}

/* The determinant takes long in large models, so it is asked for in one of so many. The degree. */
static unsigned try_model(const Model *m, const Powers *powers, uint64_t determinant_rare)
{
    static Weights weights;
    weigh(m, powers, &weights);
    Heaviest heaviest = find_heaviest(m, &weights);
    DegreeOutcome right = outcome_of(&heaviest);
    int larger = m->n > EVERY_COLUMNS;
    const char *complaint = heaviest.found ? degree_complaint(m, powers, &right.shown, heaviest.total) : "the reference has no degree";
    if (!complaint && !larger)
        complaint = every_complaint(m, &weights, heaviest.total);
    if (!complaint && one_in(determinant_rare))
        complaint = determinant_complaint(m, powers, heaviest.total);
    count_case(complaint, m);
    seen[larger].models++;
    wide += m->n > WORD;
    if (!complaint)
        note_faults(m, powers, &right);
    try_degree(m, powers, heaviest.total);
    return right.shown.degree;
}

/* ---- degrees that are stated ---- */

/* With powers laid out as a call takes them. */
static const struct {
    const char *name;
    uint8_t rows[4], columns[12], parameters[12];
    unsigned degree;
} stated[] = {
    {"s2", {0}, {0}, {255, 0}, 0},
    {"s2", {3}, {2, 15}, {255, 4}, 9}, /* column 1 sits on the row, and its own power does not count */
    {"s2", {15}, {15, 15}, {16, 15}, 45},
    {"s6", {1, 2}, {3, 4}, {0}, 10}, /* no parameter rows: all powers */
};

static void try_stated(const char *folder)
{
    for (size_t i = 0; i < COUNT(stated); i++) {
        static Powers powers;
        Model m = {0};
        if (load_model(folder, stated[i].name, &m) != 0) {
            count_case("the file is not a model", &m);
            continue;
        }
        memcpy(powers.rows, stated[i].rows, sizeof stated[i].rows);
        memcpy(powers.columns, stated[i].columns, sizeof stated[i].columns);
        memcpy(powers.parameters, stated[i].parameters, sizeof stated[i].parameters);
        unsigned degree = try_model(&m, &powers, 1);
        count_case(degree == stated[i].degree ? NULL : "the reference differs from what is stated", &m);
        try_degree(&m, &powers, stated[i].degree);
    }
}

/* The powers beside a model's file: of the constant rows, of the columns, of the parameters, and nothing else. */
static int load_powers(const char *folder, const char *name, const Model *m, Powers *powers)
{
    char path[512];
    snprintf(path, sizeof path, "%s/%s.powers", folder, name);
    FILE *in = fopen(path, "rb");
    if (!in)
        return 0;
    int whole = fread(powers->rows, 1, m->a, in) == m->a && fread(powers->columns, 1, m->n, in) == m->n &&
                fread(powers->parameters, 1, m->b * m->n, in) == m->b * m->n && getc(in) == EOF;
    fclose(in);
    return whole;
}

/* Document 004's Example 3.4, as models/README.md works it out: one assignment alone reaches the degree. */
static void try_example(const char *folder)
{
    enum { DEGREE = 4, SIDE = 1 << 2 | 1 << 3 | 1 << 4 };
    static const uint8_t rows[] = {0, 1, 5};
    static Powers powers;
    static Weights weights;
    Model m = {0};
    if (load_model(folder, "example_3_4", &m) != 0 || !load_powers(folder, "example_3_4", &m, &powers)) {
        count_case("the files are not a model and its powers", &m);
        return;
    }
    unsigned degree = try_model(&m, &powers, 1);
    weigh(&m, &powers, &weights);
    Heaviest heaviest = find_heaviest(&m, &weights);
    int as_stated = degree == DEGREE && heaviest.constants == SIDE && !memcmp(heaviest.rows, rows, sizeof rows);
    count_case(as_stated ? NULL : "the reference differs from what is stated", &m);
    hand_powers(&powers, exact_powers(&m));
    Called c = call_model(degree_question.handed, &m, exact_lengths(&m, WUNDRESKA_DEGREE_SIZE), WUNDRESKA_DEGREE_SIZE);
    Degree shown = degree_in(c.out);
    as_stated = c.refusal == 0 && shown.degree == DEGREE && shown.constants == SIDE && !memcmp(shown.rows, rows, sizeof rows);
    count_case(as_stated ? NULL : "the answer differs from what is stated", &m);
}

/* As many constant rows as there may be, and no parameter row: no degree is larger. */
static void try_largest(void)
{
    enum { MOST = WUNDRESKA_COLUMNS_MAX };
    static Powers powers;
    Model m = draw_of_rank(LAYERED, WUNDRESKA_PRIME_MAX, MOST, MOST, 0, MOST);
    draw_powers(&m, &powers, FULL);
    unsigned degree = try_model(&m, &powers, 1);
    count_case(degree == LARGEST_DEGREE ? NULL : "the reference differs from what is stated", &m);
}

static const char *const determined_names[] = {"s2", "s6", "example_3_1", "example_3_4", "chilled_water_loop_square",
                                               "chilled_water_loop_numbered", "heat_recovery"};

static void compare_stated(const char *folder)
{
    begin_category("degrees of bench models and of document 004's Example 3.4, with the numbers that are due");
    try_stated(folder);
    try_example(folder);
    try_largest();
    begin_category("degrees of the determined models in files");
    for (size_t i = 0; i < COUNT(determined_names); i++) {
        static Powers powers;
        Model m = {0};
        int loaded = load_model(folder, determined_names[i], &m) == 0;
        count_case(loaded ? NULL : "the file is not a model", &m);
        for (int drawn = 0; loaded && drawn < POWERS_DRAWN; drawn++) {
            draw_powers(&m, &powers, drawn);
            try_model(&m, &powers, m.n <= SMALL ? 1 : 4);
        }
    }
}

/* ---- every small model ---- */

enum { COUNTED = 3 };

/* The next filling of powers that are counted; whether there is one. */
static int next_powers(uint8_t *powers, size_t count)
{
    for (size_t i = 0; i < count; i++) {
        if (++powers[i] < COUNTED)
            return 1;
        powers[i] = 0;
    }
    return 0;
}

/* With every filling of the powers below three. A model that is not determined is refused with each of them, so one is enough. */
static void try_every_power(const Model *m)
{
    static Powers powers;
    if (!is_determined(m)) {
        draw_powers(m, &powers, ANY);
        hand_powers(&powers, exact_powers(m));
        count_case(degree_handed_complaint(m, exact_lengths(m, WUNDRESKA_DEGREE_SIZE)), m);
        return;
    }
    memset(&powers, 0, sizeof powers);
    do
        do
            do
                try_model(m, &powers, 1);
            while (next_powers(powers.rows, m->a));
        while (next_powers(powers.columns, m->n));
    while (next_powers(powers.parameters, m->b * m->n));
}

static void compare_every_model(void)
{
    begin_category("degrees of every model up to 2 columns with as many rows at p 2, for all powers below 3");
    for (size_t n = 1; n <= 2; n++)
        for (size_t a = 0; a <= n; a++) {
            Model m = {.p = 2, .n = n, .a = a, .b = n - a};
            do
                try_every_power(&m);
            while (next_filling(&m));
        }
}

/* ---- models drawn at random ---- */

/* Where all powers are the same, so is what each column makes, wherever it sits. */
static const char *alike_complaint(const Model *m, DrawnPowers drawn, unsigned degree)
{
    if (drawn == NO_POWERS && degree != 0)
        return "the degree is not 0 though all powers are";
    if (drawn == FULL && degree != WUNDRESKA_POWER_MAX * (m->a + m->n))
        return "the degree is not that of powers which are all the most";
    return NULL;
}

static void try_drawn(size_t n, DrawnPowers drawn, uint64_t determinant_rare)
{
    static Powers powers;
    Model m = draw_determined(n);
    draw_powers(&m, &powers, drawn);
    unsigned degree = try_model(&m, &powers, determinant_rare);
    if (drawn == NO_POWERS || drawn == FULL)
        count_case(alike_complaint(&m, drawn, degree), &m);
}

static void try_chain(void (*draw_one)(Dynamics *, size_t), size_t n, uint64_t determinant_rare)
{
    static Dynamics d;
    draw_one(&d, n);
    try_model(&d.model, &d.powers, determinant_rare);
}

/* ---- sizes ---- */

/* Fewer than three columns leave little to choose. */
static size_t draw_few_columns(void)
{
    return one_in(8) ? 1 + draw(2) : one_in(3) ? EVERY_COLUMNS : 3 + draw(EVERY_COLUMNS - 2);
}

static size_t draw_middle(void)
{
    return EVERY_COLUMNS + 1 + draw(MIDDLE - EVERY_COLUMNS);
}

static size_t draw_many(void)
{
    return one_in(3) ? draw_edge() : MIDDLE + 1 + draw(WUNDRESKA_COLUMNS_MAX - MIDDLE);
}

/* How many models are drawn with each kind of powers: small ones, middle ones, and those of more columns. */
static const struct {
    const char *category;
    unsigned few, middle, many;
} drawings[POWERS_DRAWN] = {
    [NO_POWERS] = {"degrees of models whose powers are all 0", 1500, 300, 60},
    [FULL] = {"degrees of models whose powers are all 15", 1500, 300, 60},
    [ANY] = {"degrees of models with any powers", 16000, 6000, 1200},
    [FEW_DIFFERENT] = {"degrees of models with few different powers", 6000, 2000, 300},
    [SPARSE] = {"degrees of models with few powers above 0", 5000, 1500, 200},
    [OF_ROWS] = {"degrees of models with powers of constant rows alone", 500, 100, 20},
    [OF_COLUMNS] = {"degrees of models with powers of columns alone", 3000, 800, 100},
    [OF_PARAMETERS] = {"degrees of models with powers of parameters alone", 3000, 800, 100},
    [HIGH] = {"degrees of models with powers from 12 to 15", 3000, 1000, 150},
    [NEAR] = {"degrees of models in which many assignments come near", 8000, 3000, 400},
};

static void compare_drawn(void)
{
    for (int drawn = 0; drawn < POWERS_DRAWN; drawn++) {
        begin_category(drawings[drawn].category);
        for (unsigned i = 0; i < drawings[drawn].few; i++)
            try_drawn(draw_few_columns(), drawn, 1);
        for (unsigned i = 0; i < drawings[drawn].middle; i++)
            try_drawn(draw_middle(), drawn, 3);
        for (unsigned i = 0; i < drawings[drawn].many; i++)
            try_drawn(draw_many(), drawn, 40);
    }
}

static void compare_chains(void)
{
    begin_category("degrees of chains, in which columns compete for rows all along");
    for (int i = 0; i < 8000; i++)
        try_chain(draw_chain, draw_few_columns(), 1);
    for (int i = 0; i < 3000; i++)
        try_chain(draw_chain, draw_middle(), 3);
    for (int i = 0; i < 150; i++)
        try_chain(draw_chain, draw_many(), 40);
    begin_category("degrees of triangles, whose rows have a power of 0 at their own column");
    for (int i = 0; i < 3000; i++)
        try_chain(draw_triangle, draw_few_columns(), 1);
    for (int i = 0; i < 1000; i++)
        try_chain(draw_triangle, draw_middle(), 3);
    for (int i = 0; i < 100; i++)
        try_chain(draw_triangle, draw_many(), 40);
    begin_category("degrees of chains with powers of 0 and 15 alone, up to the most columns");
    for (size_t n = 1; n <= WUNDRESKA_COLUMNS_MAX; n += n < MIDDLE ? 1 : FEW)
        try_chain(draw_long_chain, n, 4);
    for (int i = 0; i < FEW; i++)
        try_chain(draw_long_chain, WUNDRESKA_COLUMNS_MAX - i % 2, 4);
}

/* ---- what all models were ---- */

static void require(unsigned long count, unsigned long least, const char *complaint)
{
    static const Model none;
    count_case(count >= least ? NULL : complaint, &none);
}

static const char *const told[WRONG_DEGREES] = {
    [ROWS_LEFT_OUT] = "models tell a degree without the constant rows' powers",
    [SEATED_COLUMNS_COUNTED] = "models tell one in which a column's power counts on a parameter row",
    [SMALLEST_TOTAL] = "models tell the smallest total, so that there is a choice",
    [ANY_TOTAL] = "models tell the total of any assignment",
    [OTHER_ASSIGNMENT_SHOWN] = "models tell any assignment shown with the degree",
    [LARGEST_POWERS_FIRST] = "models, of those tried, tell an assignment by the largest powers first",
    [CONSTANTS_AS_PARAMETERS] = "models tell constants taken for parameters",
    [BY_COLUMNS] = "models tell parameters' powers read column by column",
    [ONE_MORE] = "models tell a degree that is one too large",
    [ONE_LESS] = "models tell one that is one too small",
    [LOW_BYTE_ALONE] = "models tell one without its high byte",
    [UNREAD_REFUSED] = "models tell a power refused where no parameter stands",
};

/* A small model's degree has one byte. */
static void require_faults(int larger)
{
    for (int wrong = 0; wrong < WRONG_DEGREES; wrong++)
        if (told[wrong] && (larger || wrong != LOW_BYTE_ALONE))
            require(seen[larger].telling[wrong], TELLING_ENOUGH, "too few models tell an answer with a fault");
}

static void require_all(void)
{
    begin_category("how many models were compared for their degrees, and of which kinds");
    require(seen[0].models, EVERY_ENOUGH, "too few models were compared with all assignments");
    require(seen[0].by_determinant, EVERY_ENOUGH, "too few small models were compared with the determinant");
    require(seen[1].models, LARGER_ENOUGH, "too few larger models were compared");
    require(seen[1].by_determinant, LARGER_BY_DETERMINANT, "too few larger models were compared with the determinant");
    require(wide, WIDE_ENOUGH, "too few models have more columns than a word has bits");
    require_faults(0);
    require_faults(1);
}

static void print_kinds(void)
{
    char line[160];
    for (int wrong = 0; wrong < WRONG_DEGREES; wrong++)
        if (told[wrong])
            print_count(seen[0].telling[wrong] + seen[1].telling[wrong], told[wrong]);
    print_count(seen[0].by_determinant + seen[1].by_determinant, "models compared with the determinant as a polynomial");
    snprintf(line, sizeof line, "models of %d to %d columns", WORD + 1, WUNDRESKA_COLUMNS_MAX);
    print_count(wide, line);
    snprintf(line, sizeof line, "models up to %d columns compared with all assignments", EVERY_COLUMNS);
    print_count(seen[0].models, line);
    snprintf(line, sizeof line, "models in all, %lu of them of %d to %d columns, compared by shortest ways, each by both calls",
             seen[1].models, EVERY_COLUMNS + 1, WUNDRESKA_COLUMNS_MAX);
    print_count(seen[0].models + seen[1].models, line);
}

void compare_degrees(const char *folder)
{
    compare_stated(folder);
    compare_every_model();
    compare_drawn();
    compare_chains();
    require_all();
    print_kinds();
}
