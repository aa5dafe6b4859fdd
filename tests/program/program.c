/* Runs a program that reports on a model file, on some thousands of inputs, and holds what it writes against the reference.
 *
 * Run: program layered|mixed|reason|blocks PROGRAM MODELS [FILES], where MODELS is the folder of stored models. Prints the cases of each
 * category and, as its last line, 'N passed, M failed' over all cases. What the rules fix is compared to the byte; where they leave
 * a choice, the one shown is tested. Every input goes to FILES too, with the number of its refusal as a file. */
#include "child.h"
#include "doubled.h"
#include "numbers.h"
#include "tally.h"
#include "text.h"
#include "word.h"

#include <glob.h>
#include <stdio.h>
#include <stdlib.h>
#include <string.h>

/* Inputs are longer than any file, and than what a pipe holds. */
enum { LONG_INPUT = 1 << 20, AT_ONCE = LONG_INPUT };

static const char *program;
static uint8_t input[LONG_INPUT];

/* ---- the reports ---- */

typedef struct {
    const char *name;
    uint32_t (*judge)(const Model *m); /* the refusal of a question about a model that is not refused, or 0 */
    /* What is wrong with the answer that a text shows, if anything; else the text that is due. */
    const char *(*complaint)(const Model *m, const char *text, char *due);
} Report;

static uint32_t judge_layered(const Model *m)
{
    (void)m;
    return 0;
}

static const char *layered_complaint(const Model *m, const char *text, char *due)
{
    Answer answer;
    if (!read_layered(text, &answer))
        return "no report";
    write_layered(&answer, due);
    return answer_complaint(m, &answer, layered_truth(m));
}

static const char *mixed_complaint(const Model *m, const char *text, char *due)
{
    MixedAnswer answer;
    if (!read_mixed(text, &answer))
        return "no report";
    write_mixed(&answer, due);
    return mixed_model_complaint(m, &answer);
}

/* Of the question about a column: the word that names it, the model's reasons, and how often which answer was due. */
static const char *word;
static Reasons reasons;
static unsigned long with_multipliers, without, beyond, placed;

static uint32_t judge_reason(const Model *m)
{
    uint32_t refusal = judge_unplaced(m, reasons.placed, named_column(word));
    beyond += refusal == 11;
    placed += refusal == 12;
    return refusal;
}

static const char *reason_text(const Model *m, const char *text, char *due)
{
    (void)text;
    size_t column = named_column(word);
    Reason reason = reason_with(m, reasons.sets[column], column);
    *(reason.given ? &with_multipliers : &without) += 1;
    write_reason(&reason, due);
    return NULL;
}

/* How often an answer about blocks had one block, several, and as many as columns, of more than one. */
static unsigned long with_one, with_several, with_each;

static const char *blocks_text(const Model *m, const char *text, char *due)
{
    (void)text;
    Brought brought = brought_by_doubling(m);
    Blocks blocks = list_blocks(&brought);
    size_t rank = layered_truth(m).rank;
    *(blocks.count == 1 ? &with_one : blocks.count < m->n ? &with_several : &with_each) += 1;
    write_blocks(&blocks, verdict_on(rank, m->n, m->a + m->b), rank, due);
    return NULL;
}

enum { LAYERED_REPORT, MIXED_REPORT, REASON_REPORT, BLOCKS_REPORT };
static const Report all_reports[] = {[LAYERED_REPORT] = {"layered", judge_layered, layered_complaint},
                                     [MIXED_REPORT] = {"mixed", judge_mixed, mixed_complaint},
                                     [REASON_REPORT] = {"reason", judge_reason, reason_text},
                                     [BLOCKS_REPORT] = {"blocks", judge_layered, blocks_text}};
static const Report *report;

static int is_about(int kind)
{
    return report == &all_reports[kind];
}

/* ---- one run ---- */

/* What the front of the input holds: its refusal or 0, and the model. */
static uint32_t file_refusal;
static Model model;

static void judge_input(size_t length)
{
    model = (Model){0};
    file_refusal = judge_file(input, length, &model);
    write_number(input, length, file_refusal);
    if (!file_refusal && is_about(REASON_REPORT))
        reasons = find_reasons(&model);
}

static const char *text_complaint(const Output *output)
{
    char due[TEXT_MAX];
    const char *complaint = NULL;
    uint32_t refusal = file_refusal ? file_refusal : report->judge(&model);
    if (refusal)
        write_refused(refusal, due);
    else
        complaint = report->complaint(&model, output->text, due);
    if (complaint)
        return complaint;
    return output->length == strlen(due) && memcmp(output->text, due, output->length) == 0 ? NULL : "the text";
}

/* A program that hangs once is not run again: each time would take a minute. */
static void stop_if_hung(const Output *output)
{
    if (output->end != HUNG)
        return;
    printf("the program did not end within a minute; no other inputs are tried\n");
    end_tally();
    exit(1);
}

/* Runs the program on the front of the input, which is judged, and with the word that names a column. */
static void try_judged(const char *named, size_t length, size_t piece)
{
    word = named;
    Output output = run_program(program, named, input, length, piece);
    count_case(output.end == ENDED ? text_complaint(&output) : "the program did not end by itself", &model);
    stop_if_hung(&output);
    word = NULL;
}

static void try_word(const char *named, size_t length)
{
    try_judged(named, length, AT_ONCE);
}

/* Most often a column that is not placed, where the input has one. */
static size_t draw_column(void)
{
    size_t unplaced[WUNDRESKA_COLUMNS_MAX], count = 0;
    for (size_t c = 0; !file_refusal && c < model.n; c++)
        if (!has(reasons.placed, c))
            unplaced[count++] = c;
    return count > 0 && !one_in(5) ? unplaced[draw(count)] : draw(one_in(2) ? WUNDRESKA_COLUMNS_MAX + 4 : model.n + 1);
}

static void try_in_pieces(size_t length, size_t piece)
{
    char named[WORD_MAX];
    judge_input(length);
    if (is_about(REASON_REPORT))
        write_word(draw_column(), named);
    try_judged(is_about(REASON_REPORT) ? named : NULL, length, piece);
}

static void try_input(size_t length)
{
    try_in_pieces(length, AT_ONCE);
}

/* ---- the inputs ---- */

/* A model of up to so many columns and rows; most often one that the program answers. */
static Model draw_input(size_t columns, size_t rows)
{
    return is_about(MIXED_REPORT) && !one_in(5) ? draw_mixed(all_primes, COUNT(all_primes), columns)
                                                : draw_model(all_primes, COUNT(all_primes), columns, rows);
}

static size_t draw_file(size_t columns, size_t rows)
{
    Model m = draw_input(columns, rows);
    return write_file(&m, input);
}

static size_t draw_numbered_file(size_t columns, size_t rows)
{
    Model m = draw_input(columns, rows);
    draw_numbers(&m);
    return write_file(&m, input);
}

static size_t read_stored(const char *path)
{
    FILE *in = fopen(path, "rb");
    size_t length = in ? fread(input, 1, sizeof input, in) : 0;
    if (in)
        fclose(in);
    return length;
}

static void try_stored_models(const char *folder)
{
    char pattern[512];
    glob_t found;
    begin_category("stored models");
    snprintf(pattern, sizeof pattern, "%s/*.model", folder);
    Model none = {0};
    if (glob(pattern, 0, NULL, &found) != 0) {
        count_case("there is none", &none);
        return;
    }
    for (size_t i = 0; i < found.gl_pathc; i++)
        try_input(read_stored(found.gl_pathv[i]));
    globfree(&found);
}

/* The longest file there is, with a numbered parameter at every place; p is given, since small ones have short constants all the
 * same. */
static size_t write_longest(uint32_t p)
{
    Model m;
    do
        m = draw_model(&p, 1, WUNDRESKA_COLUMNS_MAX, WUNDRESKA_ROWS_MAX);
    while (m.n < WUNDRESKA_COLUMNS_MAX || m.a < WUNDRESKA_ROWS_MAX || m.b < WUNDRESKA_ROWS_MAX);
    for (size_t r = 0; r < m.b; r++)
        m.parameters[r] = all_below(m.n);
    draw_numbers(&m);
    return write_file(&m, input);
}

/* The file's bytes, and behind them others up to a length: all alike, or at random where the filling is below 0. */
static void try_extended(size_t length, size_t whole, int filling)
{
    for (size_t i = length; i < whole; i++)
        input[i] = filling < 0 ? (int)draw(256) : filling;
    try_input(whole);
}

static void try_lengths(size_t length)
{
    static const size_t added[] = {0, 1, 2, 3, 100, WUNDRESKA_FILE_MAX, 1 << 16, 1 << 17};
    for (size_t i = 0; i < COUNT(added); i++) {
        try_extended(length, length + added[i], 0);
        try_extended(length, length + added[i], -1);
    }
    try_extended(length, LONG_INPUT, -1);
    for (size_t cut = 1; cut <= 8; cut++)
        try_input(length - cut);
}

static void try_long_inputs(void)
{
    begin_category("no input, and inputs of the longest file's length, below and above");
    try_input(0);
    for (size_t i = 0; i < COUNT(all_primes); i++) {
        size_t length = write_longest(all_primes[i]);
        Model none = {0};
        count_case(length == WUNDRESKA_FILE_MAX ? NULL : "the longest file has another length", &none);
        try_lengths(length);
    }
    begin_category("short files with bytes behind, up to the longest file's length and above");
    for (int i = 0; i < 100; i++) {
        size_t length = draw_file(12, 12);
        try_extended(length, length + 1 + draw(WUNDRESKA_FILE_MAX), draw(6));
        try_extended(length, WUNDRESKA_FILE_MAX + draw(3), -1);
    }
    begin_category("the longest file, damaged");
    for (int i = 0; i < 300; i++)
        try_input(damage_file(input, write_longest(1021)));
}

static void try_random_files(int count, size_t columns, size_t rows)
{
    for (int i = 0; i < count; i++)
        try_input(draw_file(columns, rows));
}

static void try_damaged_files(int count, size_t columns, size_t rows)
{
    for (int i = 0; i < count; i++) {
        size_t length = damage_file(input, draw_file(columns, rows));
        try_input(length && one_in(4) ? damage_file(input, length) : length);
    }
}

static void try_numbered_files(void)
{
    begin_category("numbered files, sound and damaged");
    for (int i = 0; i < 400; i++)
        try_input(draw_numbered_file(12, 12));
    for (int i = 0; i < 100; i++)
        try_input(draw_numbered_file(WUNDRESKA_COLUMNS_MAX, WUNDRESKA_ROWS_MAX));
    for (int i = 0; i < 500; i++)
        try_input(damage_file(input, draw_numbered_file(8, 6)));
}

/* A read of a pipe gives what has come so far, so that one read is not enough. */
static void try_pieces(void)
{
    begin_category("files written in pieces");
    for (int i = 0; i < 10; i++)
        try_in_pieces(draw_file(3, 3), 1);
    for (int i = 0; i < 150; i++) {
        size_t length = draw_file(12, 12);
        try_in_pieces(length, 1 + draw(length));
    }
    for (int i = 0; i < 20; i++)
        try_in_pieces(write_longest(WUNDRESKA_PRIME_MAX), 1000 + draw(WUNDRESKA_FILE_MAX));
}

/* ---- columns ---- */

static void try_each_column(int count, size_t columns, size_t rows)
{
    char named[WORD_MAX];
    for (int i = 0; i < count; i++) {
        size_t length = draw_file(columns, rows);
        judge_input(length);
        for (size_t c = 0; c < model.n + 2; c++) {
            write_word(c, named);
            try_word(named, length);
        }
    }
}

static void try_odd_words(size_t length)
{
    static const char *const odd[] = {NULL, "", "-0", "-1", "+0", "+1", " 1", "1 ", "1\n", "x", "0x1", "1x", "1.0", "1,", "1/", "1:", "/1", ":1",
                                      "\xD9\xA3", "00000000000000000000", "000000000000000000000", "00000000000000000001",
                                      "000000000000000000001", "96", "97", "127", "128", "18446744073709551615",
                                      "99999999999999999999", "100000000000000000000"};
    static const unsigned powers[] = {7, 8, 15, 16, 31, 32, 63, 64};
    char named[WORD_MAX];
    judge_input(length);
    for (size_t i = 0; i < COUNT(odd); i++)
        try_word(odd[i], length);
    for (size_t i = 0; i < COUNT(powers); i++) {
        write_wrapped_word(draw_column(), powers[i], named);
        try_word(named, length);
    }
    for (int i = 0; i < 10; i++) {
        draw_word(named);
        try_word(named, length);
    }
}

static void try_columns(void)
{
    begin_category("every column of files, and two more");
    try_each_column(150, 12, 12);
    try_each_column(6, WUNDRESKA_COLUMNS_MAX, WUNDRESKA_ROWS_MAX);
    begin_category("words that name no column, or one in an odd way");
    for (int i = 0; i < 20; i++)
        try_odd_words(draw_file(8, 6));
    try_odd_words(damage_file(input, draw_file(8, 6)));
    try_odd_words(0);
    print_count(with_multipliers, "answers with multipliers among all cases");
    print_count(without, "answers without");
    print_count(beyond, "refusals of a column that no model or not this one has");
    print_count(placed, "refusals of a column that is placed");
}

static void print_block_counts(void)
{
    print_count(with_one, "answers of one block among all cases");
    print_count(with_several, "answers of several blocks");
    print_count(with_each, "answers of a block for each column");
}

static int compare_all(const char *models)
{
    try_stored_models(models);
    try_long_inputs();
    begin_category("files of models up to 12 columns and rows");
    try_random_files(1000, 12, 12);
    begin_category("files of models of all sizes");
    try_random_files(600, WUNDRESKA_COLUMNS_MAX, WUNDRESKA_ROWS_MAX);
    begin_category("damaged files");
    try_damaged_files(2500, 8, 6);
    try_damaged_files(300, WUNDRESKA_COLUMNS_MAX, WUNDRESKA_ROWS_MAX);
    try_pieces();
    try_numbered_files();
    if (is_about(REASON_REPORT))
        try_columns();
    if (is_about(BLOCKS_REPORT))
        print_block_counts();
    return end_tally() > 0;
}

static const Report *report_named(const char *name)
{
    for (size_t i = 0; i < COUNT(all_reports); i++)
        if (strcmp(all_reports[i].name, name) == 0)
            return &all_reports[i];
    return NULL;
}

int main(int count, char **words)
{
    report = count > 1 ? report_named(words[1]) : NULL;
    if (count < 4 || count > 5 || !report) {
        fprintf(stderr, "usage: program layered|mixed|reason|blocks PROGRAM MODELS [FILES]\n");
        return 2;
    }
    if (count == 5 && !write_numbers_to(words[4])) {
        perror(words[4]);
        return 2;
    }
    program = words[2];
    printf("%s:\n", program);
    return compare_all(words[3]);
}
