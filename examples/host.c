/* A host that starts its solver on a determined model alone, and otherwise says why not. Plain C89, and C++ too.
 *
 * Build: tools/archive solvability
 *        gcc examples/host.c -Iinclude target/staticlib/libsolvability.a -o host
 * Run:   ./host models/s2.model
 *        ./host --mixed models/s9.model
 *        ./host --blocks models/s2.model
 *        ./host --partner models/s2.model
 *        ./host --degree models/example_3_4.model models/example_3_4.powers
 *        ./host --open models/chilled_water_loop.model off:6 set:2:1 clear:2:1 back:6 off:7
 *
 * With --blocks the solver starts on one block after another, in place of the whole model. With --partner the search is
 * another program's, and the host starts on what it claims, where that is accepted. With --degree it starts nothing: it prints the
 * degree in s of the model's determinant, with the powers of a second file, and an assignment that reaches it. With --open it holds the
 * model open and edits it, word by word, before it starts: off:COLUMN takes a column off, back:COLUMN puts it back, set:ROW:COLUMN and
 * clear:ROW:COLUMN set and clear a place.
 *
 * Exit status: 0 the solver started or the degree is printed, 1 neither, 2 a file could not be read, or a word is none of these.
 */
#include <stdio.h>
#include <stdlib.h>
#include <string.h>

#include "wundreska.h"

static const char *fault(uint32_t refusal)
{
    switch (refusal) {
    case WUNDRESKA_TRUNCATED: return "the file ends within a field";
    case WUNDRESKA_UNEXPECTED: return "a tag or length is not the one due";
    case WUNDRESKA_NOT_PRIME: return "p is not a prime, or too large";
    case WUNDRESKA_SIZES_BEYOND: return "n, a or b is beyond its limit";
    case WUNDRESKA_CONSTANT_BEYOND: return "a constant is p or more";
    case WUNDRESKA_PARAMETER_BEYOND: return "a parameter stands at column n or later";
    case WUNDRESKA_TRAILING: return "bytes follow the end field";
    case WUNDRESKA_AREA_SHORT: return "an area is too short";
    case WUNDRESKA_NUMBER_TWICE: return "two parameters have one number";
    case WUNDRESKA_NOT_MIXED: return "a differs from b, or the mixed question has too many columns";
    case WUNDRESKA_COLUMN_BEYOND: return "a column is n or more";
    case WUNDRESKA_COLUMN_PLACED: return "the column is placed";
    case WUNDRESKA_ROW_BEYOND: return "a row is b or more";
    case WUNDRESKA_ALREADY_SO: return "the column is already out, or already in";
    case WUNDRESKA_NO_DEGREE: return "the model is not determined, or a power is above 15";
    default: return "a number that this host does not know";
    }
}

/* Stands for the host's own solver. */
static void start_solver(unsigned unknowns)
{
    printf("solver starts on %u unknown%s\n", unknowns, unknowns == 1 ? "" : "s");
}

/* How many bytes of the file were read, or -1. One byte above the limit is enough to have a longer file refused. */
static long read_file(const char *name, uint8_t *bytes, size_t room)
{
    FILE *in = fopen(name, "rb");
    size_t length;
    int failed;
    if (!in)
        return -1;
    length = fread(bytes, 1, room, in);
    failed = ferror(in);
    fclose(in);
    return failed ? -1 : (long)length;
}

/* Prints the columns of a set from `first` on, counted from there. */
static void print_columns(const uint8_t *set, int first)
{
    int c;
    for (c = first; c < WUNDRESKA_COLUMNS_MAX; c++)
        if (set[c / 8] >> c % 8 & 1)
            printf(" %d", c - first);
    printf("\n");
}

/* Goes by the answer; `short_columns` starts at column `first` of its set. Says whether the solver was started. */
static int act(int verdict, int rank, const uint8_t *short_columns, int first)
{
    if (verdict == WUNDRESKA_DETERMINED) {
        start_solver((unsigned)rank);
        return 1;
    }
    if (verdict == WUNDRESKA_SURPLUS) {
        printf("no start: rank %d, and equations are left over that may contradict the others\n", rank);
        return 0;
    }
    printf("no start: rank %d, equations are lacking among columns", rank);
    print_columns(short_columns, first);
    return 0;
}

static int complain(uint32_t refusal)
{
    printf("no start: refused %u, %s\n", (unsigned)refusal, fault(refusal));
    return 0;
}

/* Says what a column is in the constant rows, by the multipliers of an answer. Those above p / 2 are shown as negative ones; p is
 * bytes 3 and 4 of the file. */
static void print_sum(int column, const uint8_t *multipliers, const uint8_t *file)
{
    const char *joint = "";
    int p = file[3] + 256 * file[4], c, times;
    printf("in the constant rows, column %d = ", column);
    for (c = 0; c < WUNDRESKA_COLUMNS_MAX; c++) {
        times = multipliers[2 * c] + 256 * multipliers[2 * c + 1];
        if (times == 0)
            continue;
        printf("%s%d * column %d", joint, times > p / 2 ? times - p : times, c);
        joint = " + ";
    }
    printf(*joint ? "\n" : "0\n");
}

/* Says how an unplaced column depends on those that the constant rows determine; it does, or they would determine it too. */
static void print_dependence(const uint8_t *file, size_t length, const uint8_t *constants, int column)
{
    uint8_t answer[WUNDRESKA_MULTIPLIERS_SIZE];
    uint32_t refusal = wundreska_multipliers(file, length, constants, WUNDRESKA_SET_SIZE, (size_t)column, answer, sizeof answer);
    if (refusal == WUNDRESKA_ACCEPTED && answer[WUNDRESKA_OUTCOME] == WUNDRESKA_DEPENDS)
        print_sum(column, answer + WUNDRESKA_MULTIPLIERS, file);
}

/* Says what blocks the first unplaced column of an open model. Where parameters stand at the reason's columns, it has no multipliers;
 * those by the constant side are then one choice of possibly many, as that side is. */
static void explain(const uint8_t *file, size_t length, const uint8_t *layered)
{
    uint8_t answer[WUNDRESKA_REASON_SIZE];
    const uint8_t *placed = layered + WUNDRESKA_PLACED;
    int column = 0;
    while (placed[column / 8] >> column % 8 & 1)
        column++;
    if (wundreska_reason(file, length, (size_t)column, answer, sizeof answer) != WUNDRESKA_ACCEPTED)
        return;
    printf("column %d is blocked: one equation is lacking for columns", column);
    print_columns(answer + WUNDRESKA_REASON, 0);
    if (answer[WUNDRESKA_GIVEN])
        print_sum(column, answer + WUNDRESKA_REASON_MULTIPLIERS, file);
    else
        print_dependence(file, length, layered + WUNDRESKA_CONSTANTS, column);
}

static int treat_layered(const uint8_t *file, size_t length)
{
    uint8_t answer[WUNDRESKA_ANSWER_SIZE];
    uint32_t refusal = wundreska_check(file, length, answer, sizeof answer);
    int started;
    if (refusal != WUNDRESKA_ACCEPTED)
        return complain(refusal);
    started = act(answer[WUNDRESKA_VERDICT], answer[WUNDRESKA_RANK], answer + WUNDRESKA_SHORT, 0);
    if (answer[WUNDRESKA_VERDICT] == WUNDRESKA_OPEN)
        explain(file, length, answer);
    return started;
}

/* The short set is one of the layered form, whose first m columns are not the model's; m is the file's number a, byte 9. */
static int treat_mixed(const uint8_t *file, size_t length)
{
    uint8_t answer[WUNDRESKA_MIXED_SIZE];
    uint32_t refusal = wundreska_mixed(file, length, answer, sizeof answer);
    if (refusal != WUNDRESKA_ACCEPTED)
        return complain(refusal);
    return act(answer[WUNDRESKA_MIXED_VERDICT], answer[WUNDRESKA_MIXED_RANK], answer + WUNDRESKA_MIXED_SHORT, file[9]);
}

/* Prints the columns of a block; how many these are. */
static unsigned print_block(const uint8_t *answer, int number)
{
    unsigned unknowns = 0;
    int c;
    printf("block %d: columns", number);
    for (c = 0; c < WUNDRESKA_COLUMNS_MAX; c++)
        if (answer[WUNDRESKA_BLOCKS + c] == number) {
            printf(" %d", c);
            unknowns++;
        }
    printf("\n");
    return unknowns;
}

/* A determined model is solved block by block, in the order of their numbers. */
static int treat_blocks(const uint8_t *file, size_t length)
{
    uint8_t layered[WUNDRESKA_ANSWER_SIZE], answer[WUNDRESKA_BLOCKS_SIZE];
    uint32_t refusal = wundreska_check(file, length, layered, sizeof layered);
    int determined, number;
    if (refusal == WUNDRESKA_ACCEPTED)
        refusal = wundreska_blocks(file, length, answer, sizeof answer);
    if (refusal != WUNDRESKA_ACCEPTED)
        return complain(refusal);
    determined = layered[WUNDRESKA_VERDICT] == WUNDRESKA_DETERMINED;
    for (number = 0; number < answer[WUNDRESKA_BLOCK_COUNT]; number++) {
        unsigned unknowns = print_block(answer, number);
        if (determined)
            start_solver(unknowns);
    }
    return determined || act(layered[WUNDRESKA_VERDICT], layered[WUNDRESKA_RANK], layered + WUNDRESKA_SHORT, 0);
}

/* Stands for the partner's own search: the answer of wundreska_check, laid out as a claim. Of a refused model nothing is found. */
static void search_elsewhere(const uint8_t *file, size_t length, uint8_t *claim)
{
    uint8_t answer[WUNDRESKA_ANSWER_SIZE];
    memset(answer, 0, sizeof answer);
    wundreska_check(file, length, answer, sizeof answer);
    claim[WUNDRESKA_CLAIM_RANK] = answer[WUNDRESKA_RANK];
    memcpy(claim + WUNDRESKA_CLAIM_CONSTANTS, answer + WUNDRESKA_CONSTANTS, WUNDRESKA_SET_SIZE);
    memcpy(claim + WUNDRESKA_CLAIM_ROWS, answer + WUNDRESKA_ROWS, WUNDRESKA_ROWS_SIZE);
    memcpy(claim + WUNDRESKA_CLAIM_SET, answer + WUNDRESKA_SHORT, WUNDRESKA_SET_SIZE);
}

/* Whether a claim is accepted: the number says whether the model is refused, and only then the byte whether the claim holds. */
static int trust(const uint8_t *file, size_t length, const uint8_t *claim)
{
    uint8_t answer[WUNDRESKA_ACCEPTS_SIZE];
    uint32_t refusal = wundreska_accepts(file, length, claim, WUNDRESKA_CLAIM_SIZE, answer, sizeof answer);
    if (refusal != WUNDRESKA_ACCEPTED)
        return complain(refusal);
    printf("the claim of rank %d is%s accepted\n", claim[WUNDRESKA_CLAIM_RANK], answer[WUNDRESKA_CLAIM_HOLDS] ? "" : " not");
    return answer[WUNDRESKA_CLAIM_HOLDS];
}

/* An accepted rank is the model's own, so the verdict follows from it and from n, a and b, which are bytes 8 to 10 of the file. With
 * a rank that is one too large, the same claim is not accepted. */
static int treat_claimed(const uint8_t *file, size_t length)
{
    uint8_t claim[WUNDRESKA_CLAIM_SIZE], larger[WUNDRESKA_CLAIM_SIZE];
    int rank, verdict;
    search_elsewhere(file, length, claim);
    if (!trust(file, length, claim))
        return 0;
    memcpy(larger, claim, sizeof larger);
    larger[WUNDRESKA_CLAIM_RANK]++;
    trust(file, length, larger);
    rank = claim[WUNDRESKA_CLAIM_RANK];
    verdict = rank < file[8] ? WUNDRESKA_OPEN : file[9] + file[10] > rank ? WUNDRESKA_SURPLUS : WUNDRESKA_DETERMINED;
    return act(verdict, rank, claim + WUNDRESKA_CLAIM_SET, 0);
}

/* The bytes of a file of powers: those of the a constant rows, of the n columns, and of the b parameter rows, n to a row. */
typedef struct {
    uint8_t bytes[WUNDRESKA_ROWS_MAX + WUNDRESKA_COLUMNS_MAX + WUNDRESKA_ROWS_MAX * WUNDRESKA_COLUMNS_MAX];
    size_t length, taken;
} Powers;

/* The next powers, as many as are wanted and there; one of the file's numbers may be beyond its limit. */
static const uint8_t *take(Powers *powers, size_t wanted, size_t *given)
{
    const uint8_t *next = powers->bytes + powers->taken;
    *given = wanted < powers->length - powers->taken ? wanted : powers->length - powers->taken;
    powers->taken += *given;
    return next;
}

static void print_assignment(const uint8_t *answer)
{
    int r;
    printf("constant side: columns");
    print_columns(answer + WUNDRESKA_DEGREE_CONSTANTS, 0);
    for (r = 0; r < WUNDRESKA_ROWS_MAX; r++)
        if (answer[WUNDRESKA_DEGREE_ROWS + r] != WUNDRESKA_NO_COLUMN)
            printf("row %d: column %d\n", r, answer[WUNDRESKA_DEGREE_ROWS + r]);
}

/* The numbers n, a and b, bytes 8 to 10 of the file, say which powers are whose. A file that ends before them is refused, whatever
 * the powers are. */
static int treat_degree(const uint8_t *file, size_t length, Powers *powers)
{
    uint8_t answer[WUNDRESKA_DEGREE_SIZE];
    int there = length > 10;
    size_t n = there ? file[8] : 0, a = there ? file[9] : 0, b = there ? file[10] : 0, of_rows, of_columns, of_parameters;
    const uint8_t *row_powers = take(powers, a, &of_rows), *column_powers = take(powers, n, &of_columns);
    const uint8_t *parameter_powers = take(powers, b * n, &of_parameters);
    uint32_t refusal = wundreska_degree(file, length, row_powers, of_rows, column_powers, of_columns, parameter_powers,
                                        of_parameters, answer, sizeof answer);
    if (refusal != WUNDRESKA_ACCEPTED)
        return complain(refusal);
    printf("degree %d\n", answer[WUNDRESKA_DEGREE] + 256 * answer[WUNDRESKA_DEGREE + 1]);
    print_assignment(answer);
    return 1;
}

/* Takes a number behind a colon. One that has no room in a byte becomes the most that has, which no model has either. */
static int take_number(const char **at, uint8_t *byte)
{
    char *end;
    unsigned long number;
    if ((*at)[0] != ':' || (*at)[1] < '0' || (*at)[1] > '9')
        return 0;
    number = strtoul(*at + 1, &end, 10);
    *byte = (uint8_t)(number < 255 ? number : 255);
    *at = end;
    return 1;
}

/* The bytes of the edit that a word is; whether it is one. */
static int read_edit(const char *word, uint8_t *edit)
{
    static const char *const kinds[] = {"off", "back", "set", "clear"};
    const char *at = strchr(word, ':');
    int kind = 0;
    if (!at)
        return 0;
    while (kind < 4 && (strlen(kinds[kind]) != (size_t)(at - word) || memcmp(word, kinds[kind], (size_t)(at - word)) != 0))
        kind++;
    edit[WUNDRESKA_EDIT_KIND] = (uint8_t)(WUNDRESKA_TAKE_OFF + kind);
    edit[WUNDRESKA_EDIT_ROW] = 0;
    if (kind == 4 || (edit[WUNDRESKA_EDIT_KIND] >= WUNDRESKA_SET_PLACE && !take_number(&at, edit + WUNDRESKA_EDIT_ROW)))
        return 0;
    return take_number(&at, edit + WUNDRESKA_EDIT_COLUMN) && *at == '\0';
}

/* An edit that is refused changes nothing, and the next one is made all the same. The area has room for every open model; the length of
 * this one goes by n, a and b, bytes 8 to 10 of the file. */
static int treat_open(const uint8_t *file, size_t length, char **words, int count)
{
    static uint8_t area[WUNDRESKA_OPEN_MAX];
    uint8_t edit[WUNDRESKA_EDIT_LENGTH], answer[WUNDRESKA_ANSWER_SIZE];
    uint32_t refusal = wundreska_open(file, length, area, sizeof area);
    size_t open_length;
    int i;
    if (refusal != WUNDRESKA_ACCEPTED)
        return complain(refusal);
    open_length = WUNDRESKA_OPEN_LENGTH((size_t)file[8], (size_t)file[9], (size_t)file[10]);
    for (i = 0; i < count; i++) {
        read_edit(words[i], edit);
        refusal = wundreska_edit(area, open_length, edit, sizeof edit);
        if (refusal != WUNDRESKA_ACCEPTED)
            printf("%s: refused %u, %s\n", words[i], (unsigned)refusal, fault(refusal));
    }
    refusal = wundreska_answer(area, open_length, answer, sizeof answer);
    if (refusal != WUNDRESKA_ACCEPTED)
        return complain(refusal);
    printf("present: columns");
    print_columns(area + WUNDRESKA_OPEN_PRESENT, 0);
    return act(answer[WUNDRESKA_VERDICT], answer[WUNDRESKA_RANK], answer + WUNDRESKA_SHORT, 0);
}

/* The same as read_file, and says why where the file could not be read. */
static long read_or_tell(const char *name, uint8_t *bytes, size_t room)
{
    long length = read_file(name, bytes, room);
    if (length < 0)
        perror(name);
    return length;
}

static int print_degree(const uint8_t *file, size_t length, const char *name)
{
    static Powers powers;
    long read = read_or_tell(name, powers.bytes, sizeof powers.bytes);
    if (read < 0)
        return 2;
    powers.length = (size_t)read;
    return treat_degree(file, length, &powers) ? 0 : 1;
}

static int are_edits(char **words, int count)
{
    uint8_t edit[WUNDRESKA_EDIT_LENGTH];
    while (count > 0 && read_edit(words[count - 1], edit))
        count--;
    return count == 0;
}

static int usage(void)
{
    fprintf(stderr, "usage: host [--mixed | --blocks | --partner] MODEL\n       host --degree MODEL POWERS\n"
                    "       host --open MODEL [off:COLUMN | back:COLUMN | set:ROW:COLUMN | clear:ROW:COLUMN]...\n");
    return 2;
}

int main(int count, char **words)
{
    static uint8_t file[WUNDRESKA_FILE_MAX + 1];
    const char *option = count == 3 ? words[1] : "";
    int mixed = strcmp(option, "--mixed") == 0, blocks = strcmp(option, "--blocks") == 0, claimed = strcmp(option, "--partner") == 0;
    int degree = count == 4 && strcmp(words[1], "--degree") == 0, open = count > 2 && strcmp(words[1], "--open") == 0;
    long length;
    if ((count != 2 && !mixed && !blocks && !claimed && !degree && !open) || (open && !are_edits(words + 3, count - 3)))
        return usage();
    length = read_or_tell(words[count == 2 ? 1 : 2], file, sizeof file);
    if (length < 0)
        return 2;
    if (degree)
        return print_degree(file, (size_t)length, words[3]);
    if (open)
        return treat_open(file, (size_t)length, words + 3, count - 3) ? 0 : 1;
    if (mixed)
        return treat_mixed(file, (size_t)length) ? 0 : 1;
    if (blocks)
        return treat_blocks(file, (size_t)length) ? 0 : 1;
    if (claimed)
        return treat_claimed(file, (size_t)length) ? 0 : 1;
    return treat_layered(file, (size_t)length) ? 0 : 1;
}
