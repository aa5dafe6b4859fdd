/* Tries what the header says of every call, beside its answer: a NULL pointer at length 0, the stack it takes, several threads at
 * once on one file; that a claim which is not accepted is no refusal; that the blocks behind a cut make a set which a claim can
 * have; that a degree is reached by the assignment shown with it, which a claim can have too; and what an edit changes of an open model,
 * and what it leaves. The last line is 'N passed, M failed'; the exit status is 1 where any failed. */
#include <pthread.h>
#include <stdio.h>
#include <stdlib.h>
#include <string.h>
#include <sys/mman.h>

#include "wundreska.h"

typedef uint32_t Call(const uint8_t *file, size_t file_len, uint8_t *answer, size_t answer_len);

typedef struct {
    const char *name;
    Call *call;
    size_t size;                                     /* of its answer */
    unsigned columns, constant_rows, parameter_rows; /* of its models */
    int determined;                                  /* whether its models are, by a triangle that is planted */
} Entry;

/* The last column by all others. */
static uint32_t last_column(const uint8_t *file, size_t file_len, uint8_t *answer, size_t answer_len)
{
    enum { LAST = WUNDRESKA_COLUMNS_MAX - 1 };
    uint8_t others[WUNDRESKA_SET_SIZE];
    memset(others, 255, sizeof others);
    others[LAST / 8] ^= 1 << LAST % 8;
    return wundreska_multipliers(file, file_len, others, sizeof others, LAST, answer, answer_len);
}

static size_t unplaced; /* the last column of the model that is not placed, where there is one */

static uint32_t last_unplaced(const uint8_t *file, size_t file_len, uint8_t *answer, size_t answer_len)
{
    return wundreska_reason(file, file_len, unplaced, answer, answer_len);
}

static uint8_t claim[WUNDRESKA_CLAIM_SIZE]; /* the answer of wundreska_check to the model, as a claim */

static uint32_t our_answer(const uint8_t *file, size_t file_len, uint8_t *answer, size_t answer_len)
{
    return wundreska_accepts(file, file_len, claim, sizeof claim, answer, answer_len);
}

/* The powers of the model. Where no parameter stands they are above the limit, and not read. */
static uint8_t row_powers[WUNDRESKA_ROWS_MAX], column_powers[WUNDRESKA_COLUMNS_MAX];
static uint8_t parameter_powers[WUNDRESKA_ROWS_MAX * WUNDRESKA_COLUMNS_MAX];
static size_t of_rows, of_columns, of_parameters; /* how many there are */

/* No pointer where there is no power. */
static uint32_t our_powers(const uint8_t *file, size_t file_len, uint8_t *answer, size_t answer_len)
{
    return wundreska_degree(file, file_len, of_rows ? row_powers : NULL, of_rows, column_powers, of_columns,
                            of_parameters ? parameter_powers : NULL, of_parameters, answer, answer_len);
}

/* The open model of the model. */
static uint8_t opened[WUNDRESKA_OPEN_MAX];
static size_t opened_len;

static uint32_t our_opened(const uint8_t *file, size_t file_len, uint8_t *answer, size_t answer_len)
{
    return wundreska_answer(file_len ? opened : file, file_len ? opened_len : 0, answer, answer_len);
}

/* A copy of it, in which the last column is taken off. */
static uint32_t off_a_copy(const uint8_t *file, size_t file_len, uint8_t *answer, size_t answer_len)
{
    uint8_t edit[WUNDRESKA_EDIT_LENGTH] = {WUNDRESKA_TAKE_OFF, 0, 0};
    edit[WUNDRESKA_EDIT_COLUMN] = (uint8_t)(opened[WUNDRESKA_OPEN_FILE + 8] - 1);
    (void)file;
    (void)file_len;
    memcpy(answer, opened, opened_len);
    return wundreska_edit(answer, answer_len, edit, sizeof edit);
}

/* A set, a claim and powers of no bytes. */
static uint32_t no_set(const uint8_t *file, size_t file_len, uint8_t *answer, size_t answer_len)
{
    return wundreska_multipliers(file, file_len, NULL, 0, 0, answer, answer_len);
}

static uint32_t no_claim(const uint8_t *file, size_t file_len, uint8_t *answer, size_t answer_len)
{
    return wundreska_accepts(file, file_len, NULL, 0, answer, answer_len);
}

static uint32_t no_powers(const uint8_t *file, size_t file_len, uint8_t *answer, size_t answer_len)
{
    return wundreska_degree(file, file_len, NULL, 0, NULL, 0, NULL, 0, answer, answer_len);
}

/* The largest models that a call takes with as many rows as columns. A reason is asked for in one with a row less than columns in all,
 * and in one without parameters, where multipliers are given; blocks also where rows are in all as many as columns, and a degree there
 * alone, with rows of both kinds and of one. */
#define MOST WUNDRESKA_COLUMNS_MAX
#define HALF (MOST / 2)
static const Entry entries[] = {
    {"wundreska_check", wundreska_check, WUNDRESKA_ANSWER_SIZE, MOST, WUNDRESKA_ROWS_MAX, WUNDRESKA_ROWS_MAX, 0},
    {"wundreska_mixed", wundreska_mixed, WUNDRESKA_MIXED_SIZE, HALF, HALF, HALF, 0},
    {"wundreska_multipliers", last_column, WUNDRESKA_MULTIPLIERS_SIZE, MOST, WUNDRESKA_ROWS_MAX, WUNDRESKA_ROWS_MAX, 0},
    {"wundreska_reason", last_unplaced, WUNDRESKA_REASON_SIZE, MOST, HALF, HALF - 1, 0},
    {"wundreska_reason with multipliers", last_unplaced, WUNDRESKA_REASON_SIZE, MOST, MOST - 1, 0, 0},
    {"wundreska_blocks", wundreska_blocks, WUNDRESKA_BLOCKS_SIZE, MOST, WUNDRESKA_ROWS_MAX, WUNDRESKA_ROWS_MAX, 0},
    {"wundreska_blocks, square", wundreska_blocks, WUNDRESKA_BLOCKS_SIZE, MOST, HALF, HALF, 0},
    {"wundreska_accepts", our_answer, WUNDRESKA_ACCEPTS_SIZE, MOST, WUNDRESKA_ROWS_MAX, WUNDRESKA_ROWS_MAX, 0},
    {"wundreska_degree", our_powers, WUNDRESKA_DEGREE_SIZE, MOST, HALF, HALF, 1},
    {"wundreska_degree without constants", our_powers, WUNDRESKA_DEGREE_SIZE, MOST, 0, MOST, 1},
    {"wundreska_degree without parameters", our_powers, WUNDRESKA_DEGREE_SIZE, MOST, MOST, 0, 1},
    {"wundreska_open", wundreska_open, WUNDRESKA_OPEN_MAX, MOST, WUNDRESKA_ROWS_MAX, WUNDRESKA_ROWS_MAX, 0},
    {"wundreska_edit", off_a_copy, WUNDRESKA_OPEN_MAX, MOST, WUNDRESKA_ROWS_MAX, WUNDRESKA_ROWS_MAX, 0},
    {"wundreska_answer", our_opened, WUNDRESKA_ANSWER_SIZE, MOST, WUNDRESKA_ROWS_MAX, WUNDRESKA_ROWS_MAX, 0},
};
enum { ENTRIES = sizeof entries / sizeof *entries, MODELS = 12, NUMBERED = MODELS, THREADS = 8, PAINT = 0xA5 };
enum { TURNS = 200, FEW_TURNS = 10 }; /* the second for a degree, which takes long */
enum { STACK = 1 << 20, LONGEST = WUNDRESKA_OPEN_MAX }; /* bytes of a thread's stack, and of the longest answer */

static int passed, failed;

static void expect(int holds, const char *what, const char *name)
{
    if (holds)
        passed++;
    else {
        failed++;
        printf("FAILED %s: %s\n", name, what);
    }
}

/* --- models: dense and sparse ones at several primes, full size */

static uint8_t file[WUNDRESKA_FILE_MAX];
static size_t file_len;

static void put(unsigned byte)
{
    file[file_len++] = (uint8_t)byte;
}

static void put_head(unsigned tag, unsigned length)
{
    put(tag);
    put(length & 255);
    put(length >> 8);
}

static unsigned drawn(unsigned below)
{
    return (unsigned)rand() % below;
}

/* A power, or above the limit where none is read. */
static uint8_t drawn_power(int read)
{
    return (uint8_t)(read ? drawn(WUNDRESKA_POWER_MAX + 1) : 255);
}

/* Fills `file` with a model in which about `share` of 100 places are not empty; its parameters may be numbered, from 0 on. Where it is
 * to be determined, a column of its own is planted for each row, and those of the constant rows are a triangle. */
static void make_model(const Entry *entry, unsigned p, unsigned share, int numbered)
{
    unsigned n = entry->columns, constant_rows = entry->constant_rows, parameter_rows = entry->parameter_rows;
    unsigned row, c, number = 0, end;
    file_len = 0;
    put_head(1, 2);
    put(p & 255);
    put(p >> 8);
    put_head(2, 3);
    put(n);
    put(constant_rows);
    put(parameter_rows);
    for (row = 0; row < constant_rows; row++) {
        put_head(3, 2 * n);
        for (c = 0; c < n; c++) {
            unsigned constant = drawn(100) < share ? drawn(p) : 0;
            if (entry->determined && c <= row)
                constant = c < row ? 0 : 1 + drawn(p - 1);
            put(constant & 255);
            put(constant >> 8);
        }
    }
    for (row = 0; row < parameter_rows; row++) {
        uint8_t set[WUNDRESKA_SET_SIZE] = {0};
        put_head(4, WUNDRESKA_ROW_SIZE(n));
        for (c = 0, end = number; c < n; c++) {
            int filled = drawn(100) < share || (entry->determined && c == constant_rows + row);
            parameter_powers[row * n + c] = drawn_power(filled);
            if (filled) {
                set[c / 8] |= (uint8_t)(1 << c % 8);
                end++;
            }
        }
        for (c = 0; c < WUNDRESKA_ROW_SIZE(n); c++)
            put(set[c]);
        if (numbered)
            for (put_head(6, 2 * (end - number)); number < end; number++) {
                put(number & 255);
                put(number >> 8);
            }
    }
    put_head(5, 0);
}

/* What the questions about the model are: the column, the claim, the powers but those of parameters, and the open model. */
static void prepare_questions(const Entry *entry)
{
    uint8_t answer[WUNDRESKA_ANSWER_SIZE];
    size_t c;
    of_rows = entry->constant_rows;
    of_columns = entry->columns;
    of_parameters = entry->parameter_rows * entry->columns;
    for (c = 0; c < of_rows; c++)
        row_powers[c] = drawn_power(1);
    for (c = 0; c < of_columns; c++)
        column_powers[c] = drawn_power(1);
    wundreska_check(file, file_len, answer, sizeof answer);
    for (c = 0; c < WUNDRESKA_COLUMNS_MAX; c++)
        if (!(answer[WUNDRESKA_PLACED + c / 8] >> c % 8 & 1))
            unplaced = c;
    claim[WUNDRESKA_CLAIM_RANK] = answer[WUNDRESKA_RANK];
    memcpy(claim + WUNDRESKA_CLAIM_CONSTANTS, answer + WUNDRESKA_CONSTANTS, WUNDRESKA_SET_SIZE);
    memcpy(claim + WUNDRESKA_CLAIM_ROWS, answer + WUNDRESKA_ROWS, WUNDRESKA_ROWS_SIZE);
    memcpy(claim + WUNDRESKA_CLAIM_SET, answer + WUNDRESKA_SHORT, WUNDRESKA_SET_SIZE);
    opened_len = WUNDRESKA_OPEN_LENGTH((size_t)entry->columns, (size_t)entry->constant_rows, (size_t)entry->parameter_rows);
    wundreska_open(file, file_len, opened, opened_len);
}

/* Those from NUMBERED on are the ones before, numbered. */
static void make_nth_model(int nth, const Entry *entry)
{
    static const unsigned primes[] = {2, 1021, WUNDRESKA_PRIME_MAX}, shares[] = {2, 5, 40, 100};
    make_model(entry, primes[nth % 3], shares[nth % NUMBERED / 3], nth >= NUMBERED);
    prepare_questions(entry);
}

/* --- the call on a thread of its own */

typedef struct {
    const Entry *entry;
    uint8_t answer[LONGEST];
    uint32_t refusal;
    int steady;    /* every turn gave the same */
    uint8_t *base; /* an address at the top of what the call takes of the stack */
} Job;

static void *call_once(void *of)
{
    Job *job = (Job *)of;
    uint8_t here;
    job->base = &here;
    job->refusal = job->entry->call(file, file_len, job->answer, job->entry->size);
    return NULL;
}

/* How many bytes of a thread's stack the call took, by what it left of the bytes put there before. */
static size_t stack_of_call(const Entry *entry)
{
    uint8_t *stack = (uint8_t *)mmap(NULL, STACK, PROT_READ | PROT_WRITE, MAP_PRIVATE | MAP_ANONYMOUS, -1, 0);
    pthread_attr_t attributes;
    pthread_t thread;
    size_t untouched = 0, taken = 0;
    Job job;
    job.entry = entry;
    if (stack == MAP_FAILED)
        return STACK;
    memset(stack, PAINT, STACK);
    pthread_attr_init(&attributes);
    if (pthread_attr_setstack(&attributes, stack, STACK) == 0 && pthread_create(&thread, &attributes, call_once, &job) == 0) {
        pthread_join(thread, NULL);
        while (stack[untouched] == PAINT)
            untouched++;
        taken = job.refusal == WUNDRESKA_ACCEPTED ? (size_t)(job.base - stack) - untouched : 0;
    }
    pthread_attr_destroy(&attributes);
    munmap(stack, STACK);
    return taken;
}

static void *call_often(void *of)
{
    Job *job = (Job *)of, again;
    int turn, turns = job->entry->call == our_powers ? FEW_TURNS : TURNS;
    call_once(job);
    job->steady = 1;
    again.entry = job->entry;
    for (turn = 1; turn < turns; turn++) {
        call_once(&again);
        if (again.refusal != job->refusal || memcmp(again.answer, job->answer, job->entry->size) != 0)
            job->steady = 0;
    }
    return NULL;
}

/* --- the cases */

static void try_null(const Entry *entry)
{
    uint8_t answer[LONGEST];
    make_nth_model(0, entry);
    expect(entry->call(NULL, 0, answer, sizeof answer) == WUNDRESKA_TRUNCATED, "no file, NULL", entry->name);
    expect(entry->call(NULL, 0, NULL, 0) == WUNDRESKA_TRUNCATED, "no file and no area, NULL", entry->name);
    expect(entry->call(file, file_len, NULL, 0) == WUNDRESKA_AREA_SHORT, "no area, NULL", entry->name);
}

/* By a call that has no set, no claim, or no powers. */
static void try_null_beside(Call *call, const char *name)
{
    uint8_t answer[LONGEST];
    make_nth_model(0, &entries[0]);
    expect(call(file, file_len, answer, sizeof answer) == WUNDRESKA_AREA_SHORT, "nothing beside the file, NULL", name);
    expect(call(file, file_len, NULL, 0) == WUNDRESKA_AREA_SHORT, "nothing beside the file and no area, NULL", name);
    expect(call(NULL, 0, NULL, 0) == WUNDRESKA_TRUNCATED, "no file, nothing beside it, and no area, NULL", name);
}

/* The number is that of the model, and the byte that of the claim. */
static void try_claims(const Entry *entry)
{
    uint8_t answer[WUNDRESKA_ACCEPTS_SIZE];
    int nth;
    for (nth = 0; nth < NUMBERED + MODELS; nth++) {
        make_nth_model(nth, entry);
        answer[WUNDRESKA_CLAIM_HOLDS] = 2;
        expect(our_answer(file, file_len, answer, sizeof answer) == WUNDRESKA_ACCEPTED && answer[WUNDRESKA_CLAIM_HOLDS] == 1,
               "our own answer is accepted", "wundreska_accepts");
        claim[WUNDRESKA_CLAIM_RANK]++;
        expect(our_answer(file, file_len, answer, sizeof answer) == WUNDRESKA_ACCEPTED && answer[WUNDRESKA_CLAIM_HOLDS] == 0,
               "a larger rank is not accepted, and no refusal", "wundreska_accepts");
        answer[WUNDRESKA_CLAIM_HOLDS] = 2;
        expect(our_answer(file, file_len - 1, answer, sizeof answer) == WUNDRESKA_TRUNCATED && answer[WUNDRESKA_CLAIM_HOLDS] == 2,
               "a refused file leaves the answer as it was", "wundreska_accepts");
    }
}

/* Whether the columns below n have numbers below the count, each of these is used, and the other columns have none. */
static int numbers_all(const uint8_t *answer, unsigned columns)
{
    uint8_t used[256] = {0};
    unsigned c, number;
    int due = answer[WUNDRESKA_BLOCK_COUNT] >= 1 && answer[WUNDRESKA_BLOCK_COUNT] <= columns;
    for (c = 0; c < WUNDRESKA_COLUMNS_MAX; c++) {
        number = answer[WUNDRESKA_BLOCKS + c];
        due = due && (c < columns ? number < answer[WUNDRESKA_BLOCK_COUNT] : number == WUNDRESKA_NO_BLOCK);
        used[number] = 1;
    }
    for (number = 0; number < answer[WUNDRESKA_BLOCK_COUNT]; number++)
        due = due && used[number];
    return due;
}

/* Puts the columns of the blocks from one on into the claim. */
static void claim_blocks_from(const uint8_t *answer, unsigned number, unsigned columns)
{
    unsigned c;
    memset(claim + WUNDRESKA_CLAIM_SET, 0, WUNDRESKA_SET_SIZE);
    for (c = 0; c < columns; c++)
        if (answer[WUNDRESKA_BLOCKS + c] >= number)
            claim[WUNDRESKA_CLAIM_SET + c / 8] |= (uint8_t)(1 << c % 8);
}

static void try_blocks(const Entry *entry)
{
    uint8_t answer[WUNDRESKA_BLOCKS_SIZE], accepts[WUNDRESKA_ACCEPTS_SIZE];
    unsigned number;
    int nth;
    for (nth = 0; nth < NUMBERED + MODELS; nth++) {
        make_nth_model(nth, entry);
        expect(wundreska_blocks(file, file_len, answer, sizeof answer) == WUNDRESKA_ACCEPTED && numbers_all(answer, entry->columns),
               "every column below n has a block, and every block a column", "wundreska_blocks");
        for (number = 1; number < answer[WUNDRESKA_BLOCK_COUNT]; number++) {
            claim_blocks_from(answer, number, entry->columns);
            expect(our_answer(file, file_len, accepts, sizeof accepts) == WUNDRESKA_ACCEPTED && accepts[WUNDRESKA_CLAIM_HOLDS] == 1,
                   "the blocks behind a cut are accepted as a claim's set", "wundreska_blocks");
        }
        memset(answer, 2, sizeof answer);
        expect(wundreska_blocks(file, file_len - 1, answer, sizeof answer) == WUNDRESKA_TRUNCATED && answer[0] == 2 &&
                   memcmp(answer, answer + 1, sizeof answer - 1) == 0,
               "a refused file leaves the answer as it was", "wundreska_blocks");
    }
}

/* What the assignment shown makes: the constant rows' powers, its columns' on the constant side, and its parameters'. */
static unsigned shown_total(const uint8_t *answer)
{
    unsigned total = 0, i;
    for (i = 0; i < of_rows; i++)
        total += row_powers[i];
    for (i = 0; i < of_columns; i++)
        if (answer[WUNDRESKA_DEGREE_CONSTANTS + i / 8] >> i % 8 & 1)
            total += column_powers[i];
    for (i = 0; i < of_parameters / of_columns; i++)
        total += parameter_powers[i * of_columns + answer[WUNDRESKA_DEGREE_ROWS + i]];
    return total;
}

static unsigned degree_in(const uint8_t *answer)
{
    return answer[WUNDRESKA_DEGREE] + 256u * answer[WUNDRESKA_DEGREE + 1];
}

/* The assignment shown is legal and places all columns, since it is accepted with the rank n and the empty set; and it reaches the
 * degree. */
static void try_degree_shown(void)
{
    uint8_t answer[WUNDRESKA_DEGREE_SIZE], accepts[WUNDRESKA_ACCEPTS_SIZE];
    expect(our_powers(file, file_len, answer, sizeof answer) == WUNDRESKA_ACCEPTED, "a determined model has a degree",
           "wundreska_degree");
    memset(claim, 0, sizeof claim);
    claim[WUNDRESKA_CLAIM_RANK] = (uint8_t)of_columns;
    memcpy(claim + WUNDRESKA_CLAIM_CONSTANTS, answer + WUNDRESKA_DEGREE_CONSTANTS, WUNDRESKA_SET_SIZE);
    memcpy(claim + WUNDRESKA_CLAIM_ROWS, answer + WUNDRESKA_DEGREE_ROWS, WUNDRESKA_ROWS_SIZE);
    if (our_answer(file, file_len, accepts, sizeof accepts) == WUNDRESKA_ACCEPTED && accepts[WUNDRESKA_CLAIM_HOLDS] == 1)
        expect(shown_total(answer) == degree_in(answer), "the assignment shown reaches the degree", "wundreska_degree");
    else
        expect(0, "the assignment shown is accepted as a claim", "wundreska_degree");
}

/* A refusal with this number leaves the answer as it was. */
static void try_no_degree(uint32_t due, const char *what)
{
    uint8_t answer[WUNDRESKA_DEGREE_SIZE];
    memset(answer, 2, sizeof answer);
    expect(our_powers(file, file_len, answer, sizeof answer) == due && answer[0] == 2 &&
               memcmp(answer, answer + 1, sizeof answer - 1) == 0,
           what, "wundreska_degree");
}

/* With a power just above the limit, and with an area that is a byte too short, where there is one. */
static void try_changed_powers(uint8_t *powers, size_t *count)
{
    uint8_t before;
    if (*count == 0)
        return;
    before = powers[*count - 1];
    powers[*count - 1] = WUNDRESKA_POWER_MAX + 1;
    if (before <= WUNDRESKA_POWER_MAX)
        try_no_degree(WUNDRESKA_NO_DEGREE, "a power of one more than the most is refused");
    powers[*count - 1] = before;
    --*count;
    try_no_degree(WUNDRESKA_AREA_SHORT, "an area of powers that is too short is refused");
    ++*count;
}

static void try_degrees(const Entry *entry)
{
    uint8_t answer[WUNDRESKA_DEGREE_SIZE];
    int nth;
    for (nth = 0; nth < NUMBERED + MODELS; nth++) {
        make_nth_model(nth, entry);
        if (entry->constant_rows + entry->parameter_rows != entry->columns)
            try_no_degree(WUNDRESKA_NO_DEGREE, "a model that is not determined is refused");
        if (!entry->determined)
            continue;
        try_degree_shown();
        try_changed_powers(row_powers, &of_rows);
        try_changed_powers(column_powers, &of_columns);
        try_changed_powers(parameter_powers, &of_parameters);
        memset(row_powers, 0, sizeof row_powers);
        memset(column_powers, 0, sizeof column_powers);
        memset(parameter_powers, 0, sizeof parameter_powers);
        expect(our_powers(file, file_len, answer, sizeof answer) == WUNDRESKA_ACCEPTED && degree_in(answer) == 0,
               "the degree is 0 where all powers are", "wundreska_degree");
    }
}

/* An edit of the open model: whether it is refused so, and this many bits of the area are then changed. */
static void try_edit(unsigned kind, unsigned row, unsigned column, uint32_t due, unsigned bits, const char *what)
{
    static uint8_t before[WUNDRESKA_OPEN_MAX];
    uint8_t edit[WUNDRESKA_EDIT_LENGTH];
    unsigned changed = 0, bit;
    size_t i;
    uint32_t refusal;
    edit[WUNDRESKA_EDIT_KIND] = (uint8_t)kind;
    edit[WUNDRESKA_EDIT_ROW] = (uint8_t)row;
    edit[WUNDRESKA_EDIT_COLUMN] = (uint8_t)column;
    memcpy(before, opened, opened_len);
    refusal = wundreska_edit(opened, opened_len, edit, sizeof edit);
    for (i = 0; i < opened_len; i++)
        for (bit = 0; bit < 8; bit++)
            changed += (before[i] ^ opened[i]) >> bit & 1;
    expect(refusal == due && changed == bits, what, "wundreska_edit");
}

/* Whether the open model is the file's: all columns below n present, the file without its numbers, and as long as the header says. */
static void try_opened(const Entry *entry, int numbered)
{
    static uint8_t area[WUNDRESKA_OPEN_MAX + 1];
    unsigned c;
    int all = 1;
    memset(area, PAINT, sizeof area);
    expect(wundreska_open(file, file_len, area, opened_len - 1) == WUNDRESKA_AREA_SHORT && area[0] == PAINT, "an area that is too short",
           "wundreska_open");
    expect(wundreska_open(file, file_len, area, sizeof area) == WUNDRESKA_ACCEPTED && memcmp(area, opened, opened_len) == 0 &&
               area[opened_len] == PAINT,
           "writes the open model and nothing behind it", "wundreska_open");
    for (c = 0; c < WUNDRESKA_COLUMNS_MAX; c++)
        all = all && (area[WUNDRESKA_OPEN_PRESENT + c / 8] >> c % 8 & 1) == (c < entry->columns);
    expect(all, "all columns below n are present", "wundreska_open");
    if (!numbered)
        expect(file_len == opened_len - WUNDRESKA_OPEN_FILE && memcmp(file, area + WUNDRESKA_OPEN_FILE, file_len) == 0,
               "holds the file", "wundreska_open");
}

static void try_edits(const Entry *entry)
{
    unsigned n = entry->columns, b = entry->parameter_rows, last = n - 1;
    try_edit(WUNDRESKA_PUT_BACK, 255, last, WUNDRESKA_ALREADY_SO, 0, "a column that is in is not put back");
    try_edit(WUNDRESKA_TAKE_OFF, 255, last, WUNDRESKA_ACCEPTED, 1, "a column is taken off, whatever the row is");
    try_edit(WUNDRESKA_TAKE_OFF, 255, last, WUNDRESKA_ALREADY_SO, 0, "a column that is out is not taken off");
    try_edit(WUNDRESKA_TAKE_OFF, 0, n, WUNDRESKA_COLUMN_BEYOND, 0, "column n is none, before it is out");
    try_edit(WUNDRESKA_SET_PLACE, b, n, WUNDRESKA_ROW_BEYOND, 0, "row b is none, before column n is");
    try_edit(0, b, n, WUNDRESKA_UNEXPECTED, 0, "kind 0 is none");
    try_edit(WUNDRESKA_CLEAR_PLACE + 1, 0, 0, WUNDRESKA_UNEXPECTED, 0, "kind 5 is none");
    if (b > 0) {
        int set = opened[opened_len - 3 - WUNDRESKA_ROW_SIZE(n) + last / 8] >> last % 8 & 1;
        try_edit(WUNDRESKA_SET_PLACE, b - 1, last, WUNDRESKA_ACCEPTED, !set, "a place is set while its column is out");
        try_edit(WUNDRESKA_SET_PLACE, b - 1, last, WUNDRESKA_ACCEPTED, 0, "a place that is set is accepted, and nothing changes");
        try_edit(WUNDRESKA_CLEAR_PLACE, b - 1, last, WUNDRESKA_ACCEPTED, 1, "a place is cleared");
        try_edit(WUNDRESKA_CLEAR_PLACE, b - 1, last, WUNDRESKA_ACCEPTED, 0, "a place that is clear is accepted, and nothing changes");
        try_edit(WUNDRESKA_SET_PLACE, b - 1, last, WUNDRESKA_ACCEPTED, 1, "a place is set again");
    }
    try_edit(WUNDRESKA_PUT_BACK, 255, last, WUNDRESKA_ACCEPTED, 1, "a column is put back");
}

/* An open model that is cut or longer, and one that holds column n as present, are refused by both calls. */
static void try_area(uint8_t *area, size_t area_len, uint32_t due, const char *what)
{
    uint8_t edit[WUNDRESKA_EDIT_LENGTH] = {WUNDRESKA_TAKE_OFF, 0, 0}, answer[WUNDRESKA_ANSWER_SIZE];
    memset(answer, 2, sizeof answer);
    expect(wundreska_edit(area, area_len, edit, sizeof edit) == due, what, "wundreska_edit");
    expect(wundreska_answer(area, area_len, answer, sizeof answer) == due && answer[0] == 2 &&
               memcmp(answer, answer + 1, sizeof answer - 1) == 0,
           what, "wundreska_answer");
}

static void try_areas(const Entry *entry)
{
    static uint8_t area[WUNDRESKA_OPEN_MAX + 1];
    uint8_t answer[WUNDRESKA_ANSWER_SIZE];
    memcpy(area, opened, opened_len);
    area[opened_len] = 0;
    try_area(area, opened_len - 1, WUNDRESKA_TRUNCATED, "an area that is cut");
    try_area(area, WUNDRESKA_OPEN_FILE - 1, WUNDRESKA_TRUNCATED, "an area without a file");
    try_area(NULL, 0, WUNDRESKA_TRUNCATED, "no area, NULL");
    try_area(area, opened_len + 1, WUNDRESKA_TRAILING, "an area with surplus");
    if (entry->columns < WUNDRESKA_COLUMNS_MAX) {
        area[WUNDRESKA_OPEN_PRESENT + entry->columns / 8] |= (uint8_t)(1 << entry->columns % 8);
        try_area(area, opened_len, WUNDRESKA_COLUMN_BEYOND, "a column held as present at n");
    }
    expect(wundreska_edit(opened, opened_len, NULL, 0) == WUNDRESKA_TRUNCATED, "no edit, NULL", "wundreska_edit");
    expect(wundreska_answer(opened, opened_len, answer, sizeof answer - 1) == WUNDRESKA_AREA_SHORT, "a short answer area",
           "wundreska_answer");
}

/* With all columns present the answer is that of the file, but for what is left open; with none it is fixed. */
static void try_answers(const Entry *entry)
{
    uint8_t answer[WUNDRESKA_ANSWER_SIZE], checked[WUNDRESKA_ANSWER_SIZE], none[WUNDRESKA_ANSWER_SIZE] = {0};
    unsigned c;
    wundreska_check(file, file_len, checked, sizeof checked);
    expect(wundreska_answer(opened, opened_len, answer, sizeof answer) == WUNDRESKA_ACCEPTED &&
               memcmp(answer, checked, WUNDRESKA_CONSTANTS) == 0 &&
               memcmp(answer + WUNDRESKA_SHORT, checked + WUNDRESKA_SHORT, WUNDRESKA_SET_SIZE) == 0,
           "the answer of the file where all columns are present", "wundreska_answer");
    for (c = 0; c < entry->columns; c++)
        try_edit(WUNDRESKA_TAKE_OFF, 0, c, WUNDRESKA_ACCEPTED, 1, "every column is taken off");
    none[WUNDRESKA_VERDICT] = entry->constant_rows + entry->parameter_rows > 0 ? WUNDRESKA_SURPLUS : WUNDRESKA_DETERMINED;
    memset(none + WUNDRESKA_ROWS, WUNDRESKA_NO_COLUMN, WUNDRESKA_ROWS_SIZE);
    expect(wundreska_answer(opened, opened_len, answer, sizeof answer) == WUNDRESKA_ACCEPTED && memcmp(answer, none, sizeof none) == 0,
           "the answer with no column present", "wundreska_answer");
}

static void try_open(const Entry *entry)
{
    int nth;
    for (nth = 0; nth < NUMBERED + MODELS; nth++) {
        make_nth_model(nth, entry);
        try_opened(entry, nth >= NUMBERED);
        try_answers(entry);
        wundreska_open(file, file_len, opened, opened_len);
        try_edits(entry);
        try_areas(entry);
    }
}

static void try_stack(const Entry *entry)
{
    size_t most = 0, limit = entry->determined ? WUNDRESKA_DEGREE_STACK_MAX : WUNDRESKA_STACK_MAX;
    int nth;
    for (nth = 0; nth < NUMBERED + MODELS; nth++) {
        size_t taken;
        make_nth_model(nth, entry);
        taken = stack_of_call(entry);
        expect(taken > 0 && taken < limit, "takes less stack than the header says", entry->name);
        if (taken > most)
            most = taken;
    }
    printf("%s takes at most %lu bytes of the stack\n", entry->name, (unsigned long)most);
}

static void try_threads(const Entry *entry)
{
    static Job jobs[THREADS];
    pthread_t threads[THREADS];
    int k, same = 1;
    make_nth_model(NUMBERED + 7, entry);
    for (k = 0; k < THREADS; k++) {
        jobs[k].entry = entry;
        if (pthread_create(&threads[k], NULL, call_often, &jobs[k]) != 0)
            abort();
    }
    for (k = 0; k < THREADS; k++)
        pthread_join(threads[k], NULL);
    for (k = 0; k < THREADS; k++)
        same = same && jobs[k].steady && jobs[k].refusal == 0 && memcmp(jobs[k].answer, jobs[0].answer, entry->size) == 0;
    expect(same, "the same answer on every thread", entry->name);
}

int main(void)
{
    int k;
    srand(13);
    try_null_beside(no_set, "wundreska_multipliers");
    try_null_beside(no_claim, "wundreska_accepts");
    try_null_beside(no_powers, "wundreska_degree");
    for (k = 0; k < ENTRIES; k++) {
        if (entries[k].call != off_a_copy)
            try_null(&entries[k]);
        try_stack(&entries[k]);
        try_threads(&entries[k]);
    }
    for (k = 0; k < ENTRIES; k++) {
        try_claims(&entries[k]);
        try_blocks(&entries[k]);
        try_degrees(&entries[k]);
        try_open(&entries[k]);
    }
    printf("%d passed, %d failed\n", passed, failed);
    return failed != 0;
}
