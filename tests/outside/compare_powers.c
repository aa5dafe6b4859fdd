/* Questions about a degree that are refused, and with which number: for the areas, for the model or its file as a rank call refuses it,
 * for the verdict, and for a power above the limit; powers that are not read. It is counted how many tell a judgement with a fault. */
#include "degrees.h"

#include <string.h>

enum { ABOVE = WUNDRESKA_POWER_MAX + 1, TELLING_ENOUGH = 500 };

/* ---- sound models, refused or not ---- */

static unsigned long telling[WRONG_DEGREES];

/* Counts two cases, handed over and in a file; and whether the model tells each fault. */
static void try_judged(const Model *m, const Powers *powers)
{
    static uint8_t file[WUNDRESKA_FILE_MAX];
    DegreeOutcome right = answer_rightly(m, powers);
    for (int wrong = OPEN_ACCEPTED; wrong < WRONG_DEGREES; wrong++) {
        DegreeOutcome outcome = answer_wrongly(m, powers, &right, wrong);
        telling[wrong] += is_told(m, powers, &right, &outcome);
    }
    hand_powers(powers, draw_enough_powers(m));
    count_case(degree_handed_complaint(m, exact_lengths(m, draw_room(WUNDRESKA_DEGREE_SIZE))), m);
    hand_powers(powers, draw_enough_powers(m));
    try_area(&degree_question, file, write_file(m, file), draw_room(WUNDRESKA_DEGREE_SIZE));
}

/* ---- verdicts ---- */

/* A determined model with a row more, which may be empty: all columns are placed, and a row is left over. */
static Model draw_surplus(size_t n)
{
    Model m = draw_determined(n);
    if (m.b < WUNDRESKA_ROWS_MAX && (m.a == WUNDRESKA_ROWS_MAX || one_in(2)))
        m.parameters[m.b++] = draw_held(n);
    else if (m.a < WUNDRESKA_ROWS_MAX) {
        for (size_t c = 0; c < n; c++)
            m.constants[m.a * n + c] = one_in(2) ? draw(m.p) : 0;
        m.a++;
    }
    m.numbered = 0;
    return numbered_or_not(m);
}

/* As many rows as columns, and a rank that is lower. */
static Model draw_open(size_t n)
{
    size_t b = draw(n + 1);
    return numbered_or_not(draw_of_rank(LAYERED, all_primes[draw(COUNT(all_primes))], n, n - b, b, draw(n)));
}

static void try_with(Model m, DrawnPowers drawn)
{
    static Powers powers;
    draw_powers(&m, &powers, drawn);
    try_judged(&m, &powers);
}

static void compare_verdicts(const char *folder)
{
    static const char *const others[] = {"s1", "s3", "s4", "s5", "s7", "s8", "s9", "s10", "s11", "s12", "chilled_water_loop",
                                         "chilled_water_loop_filled", "milk_preheater", "two_meters", "heat_recovery_open"};
    begin_category("degrees asked of models in files that are open or have surplus rows");
    for (size_t i = 0; i < COUNT(others); i++) {
        Model m = {0};
        int loaded = load_model(folder, others[i], &m) == 0;
        count_case(loaded ? NULL : "the file is not a model", &m);
        for (int drawn = 0; loaded && drawn < POWERS_DRAWN; drawn++)
            try_with(m, drawn);
    }
    begin_category("degrees asked of models with a row more than columns, all of which are placed");
    for (int i = 0; i < 3000; i++)
        try_with(draw_surplus(1 + draw(FEW)), draw(POWERS_DRAWN));
    begin_category("degrees asked of open models with as many rows as columns");
    for (int i = 0; i < 3000; i++)
        try_with(draw_open(1 + draw(FEW)), draw(POWERS_DRAWN));
    begin_category("degrees asked of models drawn at random, of all verdicts");
    for (int i = 0; i < 6000; i++)
        try_with(draw_any(FEW, FEW), draw(POWERS_DRAWN));
    for (int i = 0; i < 60; i++)
        try_with(draw_any(WUNDRESKA_COLUMNS_MAX, WUNDRESKA_ROWS_MAX), draw(POWERS_DRAWN));
}

/* ---- powers above the limit ---- */

/* With another byte at one place. */
static void try_byte(const Model *m, Powers *powers, uint8_t *place, uint8_t byte)
{
    uint8_t before = *place;
    *place = byte;
    try_judged(m, powers);
    *place = before;
}

/* Just above the limit, the most that a byte has, and above it where lower bits alone would not show it. */
static void try_bytes(const Model *m, Powers *powers, uint8_t *place)
{
    static const uint8_t bytes[] = {WUNDRESKA_POWER_MAX, ABOVE, UINT8_MAX, 1 << 7, 2 * ABOVE};
    for (size_t i = 0; i < COUNT(bytes); i++)
        try_byte(m, powers, place, bytes[i]);
}

static void try_every_place(const Model *m)
{
    static Powers powers;
    draw_powers(m, &powers, draw(POWERS_DRAWN));
    for (size_t r = 0; r < m->a; r++)
        try_bytes(m, &powers, &powers.rows[r]);
    for (size_t c = 0; c < m->n; c++)
        try_bytes(m, &powers, &powers.columns[c]);
    for (size_t i = 0; i < m->b * m->n; i++)
        try_bytes(m, &powers, &powers.parameters[i]);
}

/* Each kind of place, and one where no parameter stands. */
static void try_every_byte(void)
{
    static Powers powers;
    Model m = {.p = 1021, .n = 3, .a = 1, .b = 2, .constants = {1, 2, 3}, .parameters = {2, 6}};
    uint8_t *places[] = {&powers.rows[0], &powers.columns[2], &powers.parameters[1], &powers.parameters[5], &powers.parameters[3]};
    draw_powers(&m, &powers, ANY);
    for (size_t i = 0; i < COUNT(places); i++)
        for (int byte = 0; byte <= UINT8_MAX; byte++)
            try_byte(&m, &powers, places[i], byte);
}

/* A place of a large model, near an edge or anywhere. */
static uint8_t *draw_place(const Model *m, Powers *powers)
{
    size_t last = m->b * m->n, kind = draw(3);
    if (kind == 0 && m->a > 0)
        return &powers->rows[one_in(2) ? m->a - 1 : draw(m->a)];
    if (kind == 1 || last == 0)
        return &powers->columns[one_in(2) ? m->n - 1 : draw(m->n)];
    return &powers->parameters[one_in(3) ? last - 1 : draw(last)];
}

static void compare_above(void)
{
    begin_category("every byte at a place of each kind of power, and where no parameter stands");
    try_every_byte();
    begin_category("powers of 15, 16, 32, 128 and 255 at every place of small models, those included that are not read");
    for (int i = 0; i < 700; i++) {
        Model m = draw_determined(1 + draw(5));
        try_every_place(&m);
    }
    begin_category("powers of 15, 16, 32, 128 and 255 at places of models of all sizes");
    for (int i = 0; i < 120; i++) {
        static Powers powers;
        Model m = draw_determined(one_in(2) ? draw_edge() : 1 + draw(WUNDRESKA_COLUMNS_MAX));
        draw_powers(&m, &powers, ANY);
        try_bytes(&m, &powers, draw_place(&m, &powers));
    }
}

/* ---- bytes that are not read ---- */

/* Asked again with other bytes behind the powers and where no parameter stands, in a file and handed over. */
static const char *unread_complaint(const Model *m)
{
    enum { SIZE = WUNDRESKA_DEGREE_SIZE, TIMES = 3 };
    static Powers powers, others;
    const File *file = file_of(m);
    draw_powers(m, &powers, ANY);
    hand_powers(&powers, exact_powers(m));
    Called once = call_file(degree_question.call, file->bytes, file->length, SIZE, SIZE);
    for (int i = 0; i < TIMES; i++) {
        draw_powers(m, &others, ANY);
        memcpy(others.rows, powers.rows, m->a);
        memcpy(others.columns, powers.columns, m->n);
        for (size_t k = 0; k < m->b * m->n; k++)
            if (has(m->parameters[k / m->n], k % m->n))
                others.parameters[k] = powers.parameters[k];
        hand_powers(&others, draw_enough_powers(m));
        Called again = call_file(degree_question.call, file->bytes, file->length, SIZE, SIZE);
        Called handed = call_model(degree_question.handed, m, exact_lengths(m, SIZE), SIZE);
        if (once.refusal || again.refusal || handed.refusal)
            return "a question is refused for bytes that are not to be read";
        if (memcmp(once.out, again.out, SIZE) || memcmp(once.out, handed.out, SIZE))
            return "the answer changes with bytes that are not to be read";
    }
    return NULL;
}

static void compare_unread(void)
{
    begin_category("degrees asked for again, with other bytes where no power is read");
    for (int i = 0; i < 2000; i++) {
        Model m = draw_determined(1 + draw(SMALL));
        count_case(unread_complaint(&m), &m);
    }
}

/* ---- areas ---- */

static void try_lengths(const Model *m, PowersLengths lengths, size_t room)
{
    static Powers powers;
    static uint8_t file[WUNDRESKA_FILE_MAX];
    draw_powers(m, &powers, draw(POWERS_DRAWN));
    if (one_in(4))
        *draw_place(m, &powers) = ABOVE;
    hand_powers(&powers, lengths);
    try_area(&degree_question, file, write_file(m, file), room);
    count_case(degree_handed_complaint(m, exact_lengths(m, room)), m);
}

static Model draw_mostly_determined(void)
{
    return one_in(4) ? draw_any(FEW, FEW) : draw_determined(1 + draw(FEW));
}

static void compare_areas(void)
{
    begin_category("degrees asked for with answer areas of every length up to twice the answer");
    for (size_t room = 0; room <= 2 * WUNDRESKA_DEGREE_SIZE; room++)
        for (int i = 0; i < 4; i++) {
            Model m = draw_mostly_determined();
            try_lengths(&m, draw_enough_powers(&m), room);
        }
    begin_category("degrees asked for with areas of powers of every length");
    for (int i = 0; i < 100; i++) {
        Model m = draw_mostly_determined();
        PowersLengths l = exact_powers(&m);
        for (size_t k = 0; k <= m.a + POWERS_BEHIND; k++)
            try_lengths(&m, (PowersLengths){k, l.columns, l.parameters}, WUNDRESKA_DEGREE_SIZE);
        for (size_t k = 0; k <= m.n + POWERS_BEHIND; k++)
            try_lengths(&m, (PowersLengths){l.rows, k, l.parameters}, WUNDRESKA_DEGREE_SIZE);
        for (size_t k = 0; k <= m.b * m.n + POWERS_BEHIND; k++)
            try_lengths(&m, (PowersLengths){l.rows, l.columns, k}, WUNDRESKA_DEGREE_SIZE);
    }
    begin_category("degrees asked for with several areas too short, and of models of every n");
    for (size_t n = 1; n <= WUNDRESKA_COLUMNS_MAX; n++)
        for (int i = 0; i < 3; i++) {
            Model m = draw_determined(n);
            try_lengths(&m, exact_powers(&m), WUNDRESKA_DEGREE_SIZE);
            try_lengths(&m, draw_any_powers(&m), draw_length(WUNDRESKA_DEGREE_SIZE));
        }
}

/* ---- several faults, so that their order shows ---- */

/* Powers of which one may be above the limit, in areas that may be too short. */
static void hand_faulty_powers(const Model *m)
{
    static Powers powers;
    draw_powers(m, &powers, draw(POWERS_DRAWN));
    if (one_in(4))
        *draw_place(m, &powers) = one_in(2) ? ABOVE : UINT8_MAX;
    hand_powers(&powers, draw_any_powers(m));
}

/* With areas that are long enough, a file that a rank call refuses has the same number, and another has 16 or none. */
static const char *alike_complaint(const File *file)
{
    Called asked = call_file(degree_question.call, file->bytes, file->length, WUNDRESKA_DEGREE_SIZE, WUNDRESKA_DEGREE_SIZE);
    Called checked = call_file(wundreska_check, file->bytes, file->length, WUNDRESKA_ANSWER_SIZE, WUNDRESKA_ANSWER_SIZE);
    int determined = checked.refusal == 0 && checked.out[WUNDRESKA_VERDICT] == WUNDRESKA_DETERMINED;
    uint32_t due = checked.refusal ? checked.refusal : determined ? 0 : 16;
    return asked.refusal == due ? NULL : "a file is not refused by its rank call and verdict alone";
}

/* The most powers that there may be, all of which fit, whatever the file is. */
static void hand_most_powers(void)
{
    static Powers powers;
    memset(&powers, draw(ABOVE), sizeof powers);
    hand_powers(&powers, (PowersLengths){ROW_POWERS, COLUMN_POWERS, PARAMETER_POWERS});
}

static Model draw_faulty(void)
{
    Model m = draw_mostly_determined();
    if (m.numbered && one_in(3))
        plant_twice(&m);
    return m;
}

static void try_faulty_file(const Model *m)
{
    static File file;
    file.length = write_file(m, file.bytes);
    if (one_in(2))
        file.length = damage_file(file.bytes, file.length);
    hand_faulty_powers(m);
    try_area(&degree_question, file.bytes, file.length, draw_length(WUNDRESKA_DEGREE_SIZE));
    hand_most_powers();
    count_case(alike_complaint(&file), m);
}

static void compare_faults(void)
{
    begin_category("degrees asked of files, with several faults of the file, the areas, the verdict and the powers");
    for (int i = 0; i < 15000; i++) {
        Model m = draw_faulty();
        try_faulty_file(&m);
    }
    begin_category("degrees asked of models handed over, with several faults of the areas, the verdict and the powers");
    for (int i = 0; i < 15000; i++) {
        Model m = draw_faulty();
        hand_faulty_powers(&m);
        count_case(degree_handed_complaint(&m, exact_lengths(&m, draw_length(WUNDRESKA_DEGREE_SIZE))), &m);
    }
    begin_category("degrees asked of models handed over, with several faults of the model besides");
    for (int i = 0; i < 30000; i++) {
        Model m = draw_mostly_determined();
        hand_faulty_powers(&m);
        draw_numbers(&m);
        Lengths l = spoil_numbered(&m, WUNDRESKA_DEGREE_SIZE);
        count_case(degree_handed_complaint(&m, l), &m);
    }
}

/* ---- damaged files ---- */

static void compare_damages(void)
{
    static File file;
    static Powers powers;
    begin_category("degrees asked of damaged files: every prefix, every bit turned, random damage, every n, a and b of one byte");
    for (int i = 0; i < 20; i++) {
        Model m = draw_determined(1 + draw(FEW));
        file.length = write_file(&m, file.bytes);
        draw_powers(&m, &powers, ANY);
        hand_powers(&powers, draw_enough_powers(&m));
        try_prefixes(&degree_question, file.bytes, file.length);
        try_flips(&degree_question, file.bytes, file.length);
        try_damages(&degree_question, file.bytes, file.length, file.length);
    }
    hand_most_powers();
    for (int i = 0; i < 3 * 256 * 2; i++) {
        Model m = draw_determined(1 + draw(FEW));
        size_t length = write_file(&m, file.bytes);
        file.bytes[SIZES_AT + i % 3] = i / 3 % 256;
        try_file(&degree_question, file.bytes, length);
    }
}

/* ---- what all models were ---- */

static const char *const told[WRONG_DEGREES] = {
    [OPEN_ACCEPTED] = "models tell a degree given though the verdict is 0",
    [SURPLUS_ACCEPTED] = "models tell a degree given though the verdict is 2",
    [ROW_ABOVE_ACCEPTED] = "models tell a constant row's power of 16 accepted",
    [COLUMN_ABOVE_ACCEPTED] = "models tell a column's power of 16 accepted",
    [PARAMETER_ABOVE_ACCEPTED] = "models tell a parameter's power of 16 accepted",
    [UNREAD_REFUSED] = "models tell a power refused where no parameter stands",
};

static void require_all(void)
{
    static const Model none;
    begin_category("how many models tell a judgement with a fault");
    for (int wrong = OPEN_ACCEPTED; wrong < WRONG_DEGREES; wrong++)
        count_case(telling[wrong] >= TELLING_ENOUGH ? NULL : "too few models tell a judgement with a fault", &none);
    for (int wrong = OPEN_ACCEPTED; wrong < WRONG_DEGREES; wrong++)
        print_count(telling[wrong], told[wrong]);
}

void compare_powers(const char *folder)
{
    compare_verdicts(folder);
    compare_above();
    compare_unread();
    compare_areas();
    compare_faults();
    compare_damages();
    require_all();
}
