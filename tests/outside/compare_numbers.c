/* Numbered models and their files, sound and damaged: numbers are judged, kept through writing and reading, and change no
 * answer. */
#include "compare.h"

#include <string.h>

/* Entries by which areas are too long. */
enum { MORE = 5 };

static Model draw_numbered(size_t columns, size_t rows)
{
    Model m = draw_model(all_primes, COUNT(all_primes), columns, rows);
    draw_numbers(&m);
    return m;
}

static Model draw_numbered_mixed(size_t limit)
{
    Model m = draw_mixed(all_primes, COUNT(all_primes), limit);
    draw_numbers(&m);
    return m;
}

/* ---- sound models: the answer is that of the same model unnumbered ---- */

/* The model unnumbered is handed over beside numbers that nobody is to read. */
static Called ask_unnumbered(const Question *q, const Model *m)
{
    Model unnumbered = *m;
    unnumbered.numbered = 0;
    Lengths l = exact_lengths(&unnumbered, q->size);
    l.numbers = draw(m->b * m->n + MORE);
    return call_model(q->handed, &unnumbered, l, q->size);
}

static const char *other_complaint(const Question *q, const Called *c, const Called *unnumbered)
{
    if (c->refusal != unnumbered->refusal || (!c->refusal && memcmp(c->out, unnumbered->out, q->size)))
        return "the answer is not that of the model unnumbered";
    return NULL;
}

/* Handed over and in a file. */
static void try_model(const Question *q, const Model *m)
{
    static uint8_t file[WUNDRESKA_FILE_MAX];
    static Model held;
    size_t length = write_file(m, file);
    Called unnumbered = ask_unnumbered(q, m), c = call_model(q->handed, m, exact_lengths(m, q->size), q->size);
    const char *complaint = handed_complaint(q, m, exact_lengths(m, q->size));
    count_case(complaint ? complaint : other_complaint(q, &c, &unnumbered), m);
    c = call_file(q->call, file, length, q->size, q->size);
    complaint = file_complaint(q, file, length, q->size, &held);
    count_case(complaint ? complaint : other_complaint(q, &c, &unnumbered), m);
}

static void compare_numbered_models(void)
{
    begin_category("numbered layered models, handed over and in files");
    for (int i = 0; i < 20000; i++) {
        Model m = draw_numbered(SMALL, SMALL);
        try_model(&layered_question, &m);
    }
    for (int i = 0; i < 300; i++) {
        Model m = draw_numbered(WUNDRESKA_COLUMNS_MAX, WUNDRESKA_ROWS_MAX);
        try_model(&layered_question, &m);
    }
    begin_category("numbered mixed models, handed over and in files");
    for (int i = 0; i < 10000; i++) {
        Model m = draw_numbered_mixed(SMALL);
        try_model(&mixed_question, &m);
    }
    for (int i = 0; i < 300; i++) {
        Model m = draw_numbered_mixed(WUNDRESKA_COLUMNS_MAX);
        try_model(&mixed_question, &m);
    }
}

/* ---- written, and read back ---- */

/* Areas that hold the model, some of them longer, some short by one. */
static Lengths draw_lengths(const Model *m, size_t out)
{
    Lengths l = exact_lengths(m, out);
    size_t *lengths[] = {&l.constants, &l.rows, &l.numbers, &l.out};
    for (size_t i = 0; i < COUNT(lengths); i++)
        *lengths[i] += one_in(3) ? draw(MORE) : 0;
    for (size_t i = 0; i < COUNT(lengths); i++)
        *lengths[i] -= *lengths[i] > 0 && one_in(10);
    return l;
}

static void try_read(const uint8_t *file, size_t length, Lengths l)
{
    static Model held;
    held = (Model){0};
    const char *complaint = read_complaint(file, length, l, &held);
    count_case(complaint, &held);
}

/* The numbers of a file come back, whatever was written of places without a parameter. */
static void try_written(const Model *m)
{
    static uint8_t file[WUNDRESKA_FILE_MAX];
    size_t length = write_file(m, file);
    count_case(write_complaint(m, draw_lengths(m, length)), m);
    try_read(file, length, draw_lengths(m, 0));
}

/* Areas of parameter rows with a word more and a word less than the rows have. */
static void try_odd_words(size_t b)
{
    uint8_t file[WUNDRESKA_FILE_MAX];
    Model m = {.p = 2, .n = 1, .b = b};
    uint64_t words[ROW_WORDS * FEW + 1], marker = draw(UINT32_MAX);
    size_t length = write_file(&m, file), due = ROW_WORDS * b;
    words[0] = words[due] = marker;
    uint32_t shorter = harness_read(file, length, NULL, 0, words, due - 1, NULL, 0);
    count_case(shorter == 8 && words[0] == marker ? NULL : "a word less than the rows have is accepted or written", &m);
    uint32_t longer = harness_read(file, length, NULL, 0, words, due + 1, NULL, 0);
    count_case(longer == 0 && words[0] == 0 && words[due] == marker ? NULL : "a word more is refused or written", &m);
}

static void compare_round_trips(void)
{
    begin_category("numbered models written, and read from files, in areas just right, short and longer");
    for (int i = 0; i < 14000; i++) {
        Model m = draw_numbered(SMALL, SMALL);
        m.numbered = !one_in(8);
        try_written(&m);
    }
    for (int i = 0; i < 500; i++) {
        Model m = draw_numbered(WUNDRESKA_COLUMNS_MAX, WUNDRESKA_ROWS_MAX);
        try_written(&m);
    }
    for (size_t b = 1; b <= FEW; b++)
        try_odd_words(b);
}

/* ---- the edges of sizes, with parameters nowhere, everywhere, and in every other row ---- */

static void fill_rows(Model *m, Set filled)
{
    for (size_t r = 0; r < m->b; r++)
        m->parameters[r] = has(filled, r) ? all_below(m->n) : 0;
}

static void try_filled(size_t n, size_t a, size_t b)
{
    Set every = all_below(WUNDRESKA_ROWS_MAX), other = every / 3, fillings[] = {0, every, other, other << 1};
    Model m = draw_of_rank(LAYERED, all_primes[draw(COUNT(all_primes))], n, a, 0, a < n ? a : n);
    m.b = b;
    for (size_t i = 0; i < COUNT(fillings); i++) {
        fill_rows(&m, fillings[i]);
        draw_numbers(&m);
        try_model(&layered_question, &m);
        try_written(&m);
    }
}

static void compare_numbered_edges(void)
{
    static const size_t edges[] = {1, 2, WORD - 1, WORD, WORD + 1, WUNDRESKA_COLUMNS_MAX - 1, WUNDRESKA_COLUMNS_MAX};
    static uint8_t file[WUNDRESKA_FILE_MAX];
    begin_category("numbered models of 1, 2, 63, 64, 65, 95 and 96 columns and rows, with full and empty rows");
    for (size_t i = 0; i < COUNT(edges); i++) {
        try_filled(edges[i], FEW, 0);
        for (size_t k = 0; k < COUNT(edges); k++)
            try_filled(edges[i], draw(FEW), edges[k]);
    }
    begin_category("the longest file");
    Model m = draw_of_rank(LAYERED, WUNDRESKA_PRIME_MAX, WUNDRESKA_COLUMNS_MAX, WUNDRESKA_ROWS_MAX, 0, WUNDRESKA_COLUMNS_MAX);
    m.b = WUNDRESKA_ROWS_MAX;
    fill_rows(&m, all_below(m.b));
    draw_numbers(&m);
    count_case(write_file(&m, file) == WUNDRESKA_FILE_MAX ? NULL : "it has another length", &m);
    try_model(&layered_question, &m);
    try_written(&m);
}

/* ---- a number twice ---- */

typedef struct {
    size_t count, at[WUNDRESKA_ROWS_MAX * WUNDRESKA_COLUMNS_MAX];
} Places;

/* Where the numbers of the parameters stand, in the order of the file. */
static const Places *places_of(const Model *m)
{
    static Places places;
    places.count = 0;
    for (size_t r = 0; r < m->b; r++)
        for (size_t c = 0; c < m->n; c++)
            if (has(m->parameters[r], c))
                places.at[places.count++] = r * m->n + c;
    return &places;
}

/* Often the last one gets it, often from its neighbour or from the first one. */
void plant_twice(Model *m)
{
    const Places *places = places_of(m);
    if (places->count < 2)
        return;
    size_t later = one_in(3) ? places->count - 1 : 1 + draw(places->count - 1);
    size_t earlier = one_in(3) ? later - 1 : one_in(3) ? 0 : draw(later);
    m->numbers[places->at[later]] = m->numbers[places->at[earlier]];
}

/* By every call. */
static void try_refused(const Model *m)
{
    static uint8_t file[WUNDRESKA_FILE_MAX];
    size_t length = write_file(m, file);
    try_file(&layered_question, file, length);
    try_file(&mixed_question, file, length);
    try_read(file, length, exact_lengths(m, 0));
    count_case(handed_complaint(&layered_question, m, exact_lengths(m, WUNDRESKA_ANSWER_SIZE)), m);
    count_case(handed_complaint(&mixed_question, m, exact_lengths(m, WUNDRESKA_MIXED_SIZE)), m);
    count_case(write_complaint(m, exact_lengths(m, length)), m);
}

static void try_every_pair(const Model *sound)
{
    const Places *places = places_of(sound);
    for (size_t later = 1; later < places->count; later++)
        for (size_t earlier = 0; earlier < later; earlier++) {
            Model m = *sound;
            m.numbers[places->at[later]] = m.numbers[places->at[earlier]];
            try_refused(&m);
        }
}

/* In a row of two, in a file and handed over in turn. */
static void try_every_number(void)
{
    static uint8_t file[WUNDRESKA_FILE_MAX];
    Model m = {.p = 2, .n = 2, .b = 1, .parameters = {3}, .numbered = 1};
    for (uint32_t number = 0; number <= UINT16_MAX; number++) {
        m.numbers[0] = m.numbers[1] = number;
        if (number % 2)
            try_file(&layered_question, file, write_file(&m, file));
        else
            count_case(handed_complaint(&layered_question, &m, exact_lengths(&m, WUNDRESKA_ANSWER_SIZE)), &m);
    }
}

static void compare_numbers_twice(void)
{
    begin_category("every number, twice");
    try_every_number();
    begin_category("a number twice, at every pair of places of small models, handed over and in files");
    for (int i = 0; i < 120; i++) {
        Model m = draw_numbered(6, 4);
        try_every_pair(&m);
    }
    begin_category("a number twice in models of all sizes, handed over and in files");
    for (int i = 0; i < 400; i++) {
        Model m = draw_numbered(WUNDRESKA_COLUMNS_MAX, WUNDRESKA_ROWS_MAX);
        if (i % 4 == 0)
            fill_rows(&m, all_below(m.b)), draw_numbers(&m);
        plant_twice(&m);
        try_refused(&m);
    }
}

/* ---- handed over with several faults ---- */

Lengths spoil_numbered(Model *m, size_t written)
{
    if (one_in(2))
        plant_twice(m);
    Lengths l = spoil(m, written);
    l.numbers += one_in(3) ? draw(MORE) : 0;
    l.numbers -= l.numbers > 0 && one_in(6);
    m->numbered = !one_in(10);
    return l;
}

static void compare_spoilt_numbers(void)
{
    static uint8_t file[WUNDRESKA_FILE_MAX];
    begin_category("numbered layered models handed over with several faults");
    for (int i = 0; i < 30000; i++) {
        Model m = draw_numbered(10, 8);
        Lengths l = spoil_numbered(&m, WUNDRESKA_ANSWER_SIZE);
        count_case(handed_complaint(&layered_question, &m, l), &m);
    }
    begin_category("numbered mixed models handed over with several faults");
    for (int i = 0; i < 30000; i++) {
        Model m = one_in(3) ? draw_numbered(WUNDRESKA_COLUMNS_MAX, 10) : draw_numbered_mixed(10);
        Lengths l = spoil_numbered(&m, WUNDRESKA_MIXED_SIZE);
        count_case(handed_complaint(&mixed_question, &m, l), &m);
    }
    begin_category("numbered models to write, with several faults");
    for (int i = 0; i < 30000; i++) {
        Model m = draw_numbered(10, 8);
        Lengths l = spoil_numbered(&m, write_file(&m, file));
        count_case(write_complaint(&m, l), &m);
    }
}

/* ---- files whose number fields are missing, misplaced or of a wrong length ---- */

enum { FIELDS_MAX = 3 + 3 * WUNDRESKA_ROWS_MAX, CHANGE_ROOM = 512 };

typedef struct {
    uint8_t bytes[WUNDRESKA_FILE_MAX + CHANGE_ROOM + DAMAGE_ROOM];
    size_t length, fields, at[FIELDS_MAX + 1]; /* where each field starts, and the end */
} File;

static void write_fields(const Model *m, File *f)
{
    f->length = write_file(m, f->bytes);
    f->fields = 0;
    for (size_t at = 0; at < f->length; at += 3 + f->bytes[at + 1] + 256 * f->bytes[at + 2])
        f->at[f->fields++] = at;
    f->at[f->fields] = f->length;
}

/* Puts bytes in the place of others. */
static void replace(File *f, size_t at, size_t taken, const uint8_t *put, size_t count)
{
    memmove(f->bytes + at + count, f->bytes + at + taken, f->length - at - taken);
    if (count > 0)
        memcpy(f->bytes + at, put, count);
    f->length = f->length + count - taken;
}

/* The number field of a row: behind the front, the constant rows and its own row. */
static size_t number_field(const Model *m, size_t row)
{
    return 2 + m->a + 2 * row + 1;
}

/* Leaves out all numbers but those of some rows. */
static void keep_numbers(File *f, const Model *m, Set rows)
{
    for (size_t r = m->b; r-- > 0;)
        if (!has(rows, r)) {
            size_t i = number_field(m, r);
            replace(f, f->at[i], f->at[i + 1] - f->at[i], NULL, 0);
        }
}

static void keep_some(File *f, const Model *m, size_t row)
{
    Set all = all_below(m->b), kept[] = {just(0), just(1), all & ~just(0), all & ~just(row), just(row), all_below(row), 0};
    keep_numbers(f, m, kept[draw(COUNT(kept))]);
}

/* The field once more, behind itself or before its row, or moved before its row. */
static void displace(File *f, const Model *m, size_t row)
{
    static uint8_t copy[3 + 2 * WUNDRESKA_COLUMNS_MAX];
    size_t i = number_field(m, row), size = f->at[i + 1] - f->at[i];
    memcpy(copy, f->bytes + f->at[i], size);
    if (one_in(2))
        replace(f, f->at[i], size, NULL, 0);
    replace(f, f->at[i - one_in(2)], 0, copy, size);
}

static void add_to_length(File *f, size_t at, int more)
{
    unsigned length = f->bytes[at + 1] + 256 * f->bytes[at + 2] + more;
    f->bytes[at + 1] = length;
    f->bytes[at + 2] = length >> 8;
}

/* The length alone, or the body with it: by an entry or a byte, more or less. */
static void change_length(File *f, const Model *m, size_t row)
{
    static const int changes[] = {-2, -1, 1, 2, 256};
    static const uint8_t zeros[CHANGE_ROOM];
    size_t i = number_field(m, row), end = f->at[i + 1], body = end - f->at[i] - 3;
    int more = changes[draw(COUNT(changes))];
    add_to_length(f, f->at[i], more);
    if (more > 0 && one_in(2))
        replace(f, end, 0, zeros, more);
    if (more < 0 && body >= (size_t)-more && one_in(2))
        replace(f, end + more, -more, NULL, 0);
}

static void change_tag(File *f, const Model *m, size_t row)
{
    f->bytes[f->at[number_field(m, row)]] = draw(8);
}

/* A field without numbers, before any other. */
static void put_in_field(File *f, const Model *m, size_t row)
{
    static const uint8_t field[] = {6, 0, 0};
    (void)m, (void)row;
    replace(f, f->at[draw(f->fields)], 0, field, sizeof field);
}

static void change_fields(File *f, const Model *m)
{
    static void (*const ways[])(File *, const Model *, size_t) = {keep_some,     keep_some,  displace,    change_length,
                                                                  change_length, change_tag, put_in_field};
    if (m->b == 0 || !m->numbered)
        put_in_field(f, m, 0);
    else
        ways[draw(COUNT(ways))](f, m, draw(m->b));
}

/* Contents that are refused before the numbers, and by them. */
static void spoil_contents(Model *m)
{
    if (one_in(3))
        plant_twice(m);
    if (m->b > 0 && m->n < WORD && one_in(8))
        m->parameters[draw(m->b)] |= just(m->n);
    if (m->a > 0 && one_in(12))
        m->constants[draw(m->a * m->n)] = m->p;
}

static void try_changed(Model m)
{
    static File f;
    spoil_contents(&m);
    write_fields(&m, &f);
    if (!one_in(8))
        change_fields(&f, &m);
    if (f.length > 0 && one_in(5))
        f.length = damage_file(f.bytes, f.length);
    try_file(one_in(3) ? &mixed_question : &layered_question, f.bytes, f.length);
    if (one_in(3))
        try_read(f.bytes, f.length, draw_lengths(&m, 0));
}

static void compare_changed_fields(void)
{
    begin_category("files whose number fields are missing, misplaced or of a wrong length; with a number twice or damaged besides");
    for (int i = 0; i < 36000; i++) {
        Model m = draw_numbered(FEW, 6);
        m.numbered = !one_in(10);
        try_changed(m);
    }
    for (int i = 0; i < 300; i++)
        try_changed(draw_numbered(WUNDRESKA_COLUMNS_MAX, WUNDRESKA_ROWS_MAX));
}

/* ---- damaged files ---- */

/* Cut about the start of every field, within and before its head, and within its body. */
static void try_cuts(const File *f)
{
    for (size_t i = 0; i < f->fields; i++) {
        for (size_t more = 0; more <= 3; more++)
            try_file(&layered_question, f->bytes, f->at[i] + more);
        try_file(&layered_question, f->bytes, f->at[i] + draw(f->at[i + 1] - f->at[i]));
    }
}

static void compare_damaged_numbers(void)
{
    static File f;
    begin_category("damaged small numbered files: every prefix, every bit turned, random damage");
    for (int i = 0; i < 24; i++) {
        Model m = draw_numbered(FEW, 6);
        write_fields(&m, &f);
        try_prefixes(&layered_question, f.bytes, f.length);
        try_flips(&layered_question, f.bytes, f.length);
        try_damages(&layered_question, f.bytes, f.length, 2 * f.length);
    }
    begin_category("damaged large numbered files: cut at every field, random damage");
    for (int i = 0; i < 8; i++) {
        Model m = draw_numbered(WUNDRESKA_COLUMNS_MAX, WUNDRESKA_ROWS_MAX);
        write_fields(&m, &f);
        try_cuts(&f);
        try_damages(&layered_question, f.bytes, f.length, 100);
    }
}

void compare_numbers(void)
{
    compare_numbered_models();
    compare_round_trips();
    compare_numbered_edges();
    compare_numbers_twice();
    compare_spoilt_numbers();
    compare_changed_fields();
    compare_damaged_numbers();
}
