/* Claims about sound models: the calls compared with the reference, in files and handed over, and the reference with the definition
 * and with an elimination over a larger field. It is counted how many are accepted, and what alone the others fail by. */
#include "brute.h"
#include "claims.h"

#include <stdio.h>

/* At least so many claims are to be compared; of each kind that must be accepted, of each kind of change, and of those that fail by
 * one fault alone, for each fault. */
enum { ENOUGH = 200000, SOUND_ENOUGH = 5000, CHANGED_ENOUGH = 3000, ALONE_ENOUGH = 2000 };

/* ---- how many claims were accepted, and what the others failed by ---- */

/* Of the present category, of all, and of those that fail by one fault. */
static unsigned long accepted, not_accepted, compared, alone[FAULTS];

static unsigned try_counted(const Subject *s, const Claim *claim)
{
    unsigned faults = try_claim(s, claim);
    compared++;
    accepted += faults == 0;
    not_accepted += faults != 0;
    for (int f = 0; f < FAULTS; f++)
        alone[f] += faults == 1u << f;
    return faults;
}

static void begin_claims(const char *category)
{
    begin_category(category);
    accepted = not_accepted = 0;
}

static void require(unsigned long count, unsigned long least, const char *complaint)
{
    static const Model none;
    count_case(count >= least ? NULL : complaint, &none);
}

static void end_claims(void)
{
    char others[64];
    snprintf(others, sizeof others, "of these claims are accepted, and %lu are not", not_accepted);
    print_count(accepted, others);
}

/* ---- claims stated with their answers ---- */

enum { NONE = WUNDRESKA_NO_COLUMN };

/* The sets as numbers, and the columns of rows 0 and 1. */
static const struct {
    const char *name;
    unsigned rank, constants, rows[2], set;
    int due;
} stated[] = {
    {"s1", 0, 0, {NONE, NONE}, 1, 1},
    {"s1", 0, 0, {NONE, NONE}, 0, 0}, /* the sum is 1 */
    {"s2", 2, 1, {1, NONE}, 0, 1},
    {"s2", 2, 1, {1, NONE}, 3, 1}, /* all columns, which make the same sum */
    {"s2", 3, 1, {1, NONE}, 0, 0},
    {"s2", 1, 1, {NONE, NONE}, 0, 0}, /* a legal assignment, but the sum is 2 */
    {"s2", 2, 1, {NONE, NONE}, 0, 0}, /* one column */
    {"s2", 2, 3, {NONE, NONE}, 0, 0}, /* column 1 has no constant */
    {"s2", 2, 1, {0, NONE}, 0, 0},    /* and the row no parameter at column 0 */
    {"s2", 2, 1, {NONE, 1}, 0, 0},    /* there is one row, */
    {"s2", 2, 1, {2, NONE}, 0, 0},    /* and no column 2: on a row, */
    {"s2", 2, 4, {1, NONE}, 0, 0},    /* on the constant side, */
    {"s2", 2, 1, {1, NONE}, 4, 0},    /* and in the set */
    {"s3", 1, 1, {NONE, NONE}, 3, 1},
    {"s3", 1, 2, {NONE, NONE}, 3, 1},
    {"s3", 1, 1, {NONE, NONE}, 1, 0}, /* the sum is 2 */
    {"s3", 2, 3, {NONE, NONE}, 0, 0}, /* the columns are the same */
    {"s4", 4, 5, {4, 1}, 12, 1},
    {"s4", 4, 10, {0, 4}, 12, 1},
    {"s4", 4, 5, {4, 1}, 31, 1},
    {"s4", 4, 5, {4, 1}, 28, 0},  /* the sum is 5 */
    {"s4", 4, 12, {0, 1}, 12, 0}, /* columns 2 and 3 are the same */
    {"s4", 4, 5, {1, 4}, 12, 0},  /* row 0 has no parameter at column 1 */
    {"s10", 1, 0, {0, NONE}, 2, 1},
    {"s10", 1, 0, {NONE, 0}, 2, 1},
    {"s10", 2, 0, {0, 0}, 0, 0}, /* a column on two rows */
    {"s11", 1, 0, {NONE, 0}, 0, 1},
    {"s11", 1, 0, {NONE, 0}, 1, 0}, /* the sum is 2 */
};

static Claim stated_claim(size_t i)
{
    Claim claim = {.rank = stated[i].rank, .constants = stated[i].constants, .set = stated[i].set};
    for (size_t r = 0; r < WUNDRESKA_ROWS_SIZE; r++)
        claim.rows[r] = r < COUNT(stated[i].rows) ? stated[i].rows[r] : NONE;
    return claim;
}

static void compare_stated(const char *folder)
{
    begin_claims("claims about bench models, stated with their answers");
    for (size_t i = 0; i < COUNT(stated); i++) {
        Model m = {0};
        Claim claim = stated_claim(i);
        if (load_model(folder, stated[i].name, &m) != 0) {
            count_case("the file is not a model", &m);
            continue;
        }
        Subject s = subject_of(&m);
        unsigned faults = try_counted(&s, &claim);
        count_case((faults == 0) == stated[i].due ? NULL : "the reference differs from what is stated", &m);
    }
    end_claims();
}

/* ---- claims that must be accepted, and changes to them ---- */

/* With another assignment, with a larger set, or both. */
enum { OTHER_ASSIGNMENT = 1, LARGER_SET = 2, WAYS = 4 };

static int take_way(const Model *m, Claim *claim, int way)
{
    int other = !(way & OTHER_ASSIGNMENT) || take_other_assignment(m, claim);
    int larger = !(way & LARGER_SET) || take_larger_set(m, claim);
    return other && larger;
}

/* Claims that must be accepted, made in this way; or made in a way that is drawn, and changed. */
typedef struct {
    const char *category;
    int way;
    Change *change;
} ClaimKind;

static const ClaimKind kinds[] = {
    {"claims: our own answer", 0, NULL},
    {"claims: our answer with another legal assignment", OTHER_ASSIGNMENT, NULL},
    {"claims: our answer with a larger set", LARGER_SET, NULL},
    {"claims: our answer with another legal assignment and a larger set", OTHER_ASSIGNMENT | LARGER_SET, NULL},
    {"claims with a bit turned", 0, turn_bit},
    {"claims with the rank one more", 0, raise_rank},
    {"claims with the rank one less", 0, lower_rank},
    {"claims with any rank", 0, draw_rank},
    {"claims with a row taken out", 0, take_row_out},
    {"claims with any column on a row", 0, name_any_column},
    {"claims with a row's column on another row", 0, name_column_of_a_row},
    {"claims with a column on both sides", 0, name_column_of_the_side},
    {"claims with a column at n or later on a row", 0, name_column_beyond},
    {"claims with a column on a row at b or later", 0, name_in_row_beyond},
    {"claims with a column on a row that has no parameter there", 0, name_without_parameter},
    {"claims with a column on the constant side that depends on it", 0, make_side_dependent},
    {"claims with a column at n or later on the constant side", 0, put_beyond_on_side},
    {"claims with another set", 0, change_set},
    {"claims with another set, and its sum for the rank", 0, raise_rank_to_sum},
    {"claims with a column at n or later in the set", 0, put_beyond_in_set},
    {"claims with fewer columns than the rank", 0, place_fewer},
    {"claims with fewer columns, and their number for the rank", 0, place_fewer_and_say_so},
    {"claims with a column more, which must have no seat", 0, place_one_more},
    {"claims that answer a model which differs at a place", 0, answer_other_model},
    {"claims of any bytes", 0, draw_bytes},
    {"claims of parts drawn at random", 0, draw_parts},
};

/* A claim of the kind; whether it could be made. */
static int make_claim(const Subject *s, const ClaimKind *kind, Claim *claim)
{
    *claim = s->ours;
    if (!kind->change)
        return take_way(s->model, claim, kind->way);
    take_way(s->model, claim, draw(WAYS));
    return kind->change(s->model, claim);
}

/* Several claims about a model. */
static void try_kind(const ClaimKind *kind, Model m)
{
    enum { CLAIMS = 3 };
    Subject s = subject_of(&m);
    for (int i = 0; i < CLAIMS; i++) {
        Claim claim;
        if (!make_claim(&s, kind, &claim))
            continue;
        unsigned faults = try_counted(&s, &claim);
        if (faults && !kind->change)
            count_case("a claim that must be accepted has a fault", &m);
    }
}

/* Small models, middle ones, those of more columns than a word has bits, and of all sizes. */
static void compare_kind(const ClaimKind *kind)
{
    enum { MIDDLE = 24 };
    int many = kind->change ? 1 : 3;
    begin_claims(kind->category);
    for (int i = 0; i < 2500 * many; i++)
        try_kind(kind, draw_any(FEW, FEW));
    for (int i = 0; i < 400 * many; i++)
        try_kind(kind, draw_any(MIDDLE, MIDDLE));
    for (int i = 0; i < 250 * many; i++)
        try_kind(kind, draw_sized(draw_wide(), draw(MIDDLE), draw(MIDDLE)));
    for (int i = 0; i < 50 * many; i++)
        try_kind(kind, draw_any(WUNDRESKA_COLUMNS_MAX, WUNDRESKA_ROWS_MAX));
    if (kind->change)
        require(accepted + not_accepted, CHANGED_ENOUGH, "too few claims were changed so");
    else
        require(accepted, SOUND_ENOUGH, "too few claims that must be accepted");
    end_claims();
}

static void compare_kinds(void)
{
    for (size_t i = 0; i < COUNT(kinds); i++)
        compare_kind(&kinds[i]);
}

/* ---- every bit turned ---- */

static void try_every_bit(const Model *m)
{
    Subject s = subject_of(m);
    Claim claim = s.ours;
    uint8_t bytes[WUNDRESKA_CLAIM_SIZE];
    take_way(m, &claim, draw(WAYS));
    put_claim(&claim, bytes);
    for (size_t bit = 0; bit < 8 * sizeof bytes; bit++) {
        bytes[bit / 8] ^= 1 << bit % 8;
        claim = claim_in(bytes);
        try_counted(&s, &claim);
        bytes[bit / 8] ^= 1 << bit % 8;
    }
}

static void compare_every_bit(const char *folder)
{
    static const char *const names[] = {"s2", "s4", "chilled_water_loop", "milk_preheater", "heat_recovery", "heat_recovery_open"};
    begin_claims("claims with every bit turned, about bench models and drawn ones");
    for (size_t i = 0; i < COUNT(names); i++) {
        Model m = {0};
        count_case(load_model(folder, names[i], &m) == 0 ? NULL : "the file is not a model", &m);
        try_every_bit(&m);
    }
    for (int i = 0; i < 30; i++) {
        Model m = draw_any(SMALL, SMALL);
        try_every_bit(&m);
    }
    end_claims();
}

/* ---- against the definition ---- */

static void try_defined(const Subject *s, const Enumerated *e, const Claim *claim)
{
    unsigned faults = try_counted(s, claim);
    if (enumerate_claim(s->model, e, claim) != (faults == 0))
        count_case("the reference differs from the definition", s->model);
}

/* Every column on the constant side and in the set, of those below n and the next one; on each row below b, and on the next one,
 * each of these or none; and every rank up to the next number. */
static void try_every_claim(const Subject *s, const Enumerated *e)
{
    size_t n = s->model->n, columns = n + 1, row_choices = n + 2, fillings = 1;
    for (size_t r = 0; r <= s->model->b; r++)
        fillings *= row_choices;
    for (size_t filling = 0; filling < fillings; filling++) {
        Claim claim = s->ours;
        for (size_t r = 0, rest = filling; r <= s->model->b; r++, rest /= row_choices)
            claim.rows[r] = rest % row_choices < columns ? rest % row_choices : NONE;
        for (claim.constants = 0; claim.constants <= all_below(columns); claim.constants++)
            for (claim.set = 0; claim.set <= all_below(columns); claim.set++)
                for (claim.rank = 0; claim.rank <= columns; claim.rank++)
                    try_defined(s, e, &claim);
    }
}

static void try_every_model(size_t n, size_t a, size_t b)
{
    Model m = {.p = 2, .n = n, .a = a, .b = b};
    do {
        Enumerated e = enumerate_layered(&m);
        Subject s = subject_of(&m);
        try_every_claim(&s, &e);
    } while (next_filling(&m));
}

static void try_kinds_defined(const Model *m)
{
    Enumerated e = enumerate_layered(m);
    Subject s = subject_of(m);
    for (size_t i = 0; i < COUNT(kinds); i++) {
        Claim claim;
        if (make_claim(&s, &kinds[i], &claim))
            try_defined(&s, &e, &claim);
    }
}

static void compare_by_definition(void)
{
    static const uint32_t small_primes[] = {2, 3, 5};
    begin_claims("every claim about every model of up to 2 columns, 1 + 1 rows at p 2, by the definition");
    for (size_t n = 1; n <= 2; n++)
        for (size_t a = 0; a <= 1; a++)
            for (size_t b = 0; b <= 1; b++)
                try_every_model(n, a, b);
    end_claims();
    begin_claims("claims of each kind about models up to 6 columns, by the definition");
    for (int i = 0; i < 2000; i++) {
        Model m = numbered_or_not(draw_model(small_primes, COUNT(small_primes), BRUTE_COLUMNS, 4));
        try_kinds_defined(&m);
    }
    end_claims();
}

/* ---- the reference's elimination against the one over a larger field ---- */

static const char *ranks_complaint(const Model *m)
{
    Set columns = draw_held(m->n), spanned = columns_spanned(m, columns);
    size_t rank = constant_rank(m, all_below(m->a), columns), other = draw(m->n);
    if (rank_of_columns(m, columns) != rank || constant_rank(m, all_below(m->a), spanned) != rank)
        return "the rank of some columns";
    if (has(spanned, other) != (constant_rank(m, all_below(m->a), columns | just(other)) == rank))
        return "whether a column depends on others";
    return NULL;
}

static void compare_eliminations(void)
{
    begin_category("ranks of columns, by two eliminations");
    for (int i = 0; i < 5000; i++) {
        Model m = draw_any(SMALL, SMALL);
        count_case(ranks_complaint(&m), &m);
    }
    for (int i = 0; i < 200; i++) {
        Model m = draw_any(WUNDRESKA_COLUMNS_MAX, WUNDRESKA_ROWS_MAX);
        count_case(ranks_complaint(&m), &m);
    }
}

/* ---- what all claims failed by ---- */

static const char *const failed_by[FAULTS] = {
    [SIDE_BEYOND] = "claims fail alone by a column at n or later on the constant side",
    [SIDE_DEPENDENT] = "claims fail alone by a dependent constant side",
    [ROW_BEYOND] = "claims fail alone by a row at b or later that names a column",
    [NAMED_BEYOND] = "claims fail alone by a row that names a column at n or later",
    [NO_PARAMETER] = "claims fail alone by a row that has no parameter at its column",
    [ON_TWO_ROWS] = "claims fail alone by a column on two rows",
    [ON_BOTH_SIDES] = "claims fail alone by a column on both sides",
    [OTHER_SIZE] = "claims fail alone by a number of columns that is not the rank",
    [SET_BEYOND] = "claims fail alone by a column at n or later in the set",
    [OTHER_SUM] = "claims fail alone by a sum that is not the rank",
};

void compare_claims(const char *folder)
{
    compare_eliminations();
    compare_stated(folder);
    compare_by_definition();
    compare_kinds();
    compare_every_bit(folder);
    begin_category("kinds of fault that claims failed by, and all claims");
    for (int f = 0; f < FAULTS; f++)
        require(alone[f], ALONE_ENOUGH, "too few claims failed by one fault alone");
    require(compared, ENOUGH, "too few claims were compared");
    for (int f = 0; f < FAULTS; f++)
        print_count(alone[f], failed_by[f]);
    print_count(compared, "claims in all, each by both calls");
}
