/* Questions about a column and held ones: both calls compared with the reference and the definition. */
#include "asked.h"

#include "multipliers.h"
#include "numbers.h"

#include <string.h>

/* ---- the columns of a question, as bytes ---- */

Columns columns_of(Set held, size_t named, size_t read, size_t length)
{
    static uint8_t bytes[LENT];
    for (size_t i = 0; i < LENT; i++)
        bytes[i] = i < read ? held >> 8 * i & 255 : draw(256);
    return (Columns){bytes, length, named};
}

/* The held columns that a call sees which reads so many bytes: one that is missing counts as 0. */
static Set seen(Columns columns, size_t read)
{
    Set set = 0;
    for (size_t i = 0; i < read && i < columns.length; i++)
        set |= (Set)columns.held[i] << 8 * i;
    return set;
}

Columns columns_for_file(Set held, size_t named)
{
    return columns_of(held, named, READ_BY_FILE, READ_BY_FILE + (one_in(3) ? draw(LENT - READ_BY_FILE + 1) : 0));
}

Columns columns_to_hand(Set held, size_t named)
{
    size_t least = 0;
    while (least < READ_HANDED && held >> 8 * least)
        least++;
    return columns_of(held, named, READ_HANDED, one_in(3) ? READ_HANDED : least + draw(LENT - least + 1));
}

/* ---- complaints ---- */

void get_multipliers(const uint8_t *bytes, uint16_t *multipliers)
{
    for (size_t c = 0; c < WUNDRESKA_COLUMNS_MAX; c++)
        multipliers[c] = bytes[2 * c] | bytes[2 * c + 1] << 8;
}

static Multipliers answer_in(const uint8_t *bytes)
{
    Multipliers answer = {.outcome = bytes[WUNDRESKA_OUTCOME]};
    get_multipliers(bytes + WUNDRESKA_MULTIPLIERS, answer.multipliers);
    return answer;
}

/* About the answer of an accepted call: by the definition, and by the reference. */
static const char *given_complaint(const Model *m, Set held, size_t named, const Called *c)
{
    Multipliers given = answer_in(c->out), found = find_multipliers(m, held, named);
    const char *complaint = multipliers_complaint(m, held, named, &given);
    return complaint || same_multipliers(&given, &found) ? complaint : "the answer is not that of the reference";
}

/* First the file's own refusals, then that of both areas, then that of the columns. */
static const char *asked_complaint(const uint8_t *file, size_t length, Columns columns, size_t answer_length, Model *m)
{
    Set held = seen(columns, READ_BY_FILE);
    uint32_t refusal = judge_file(file, length, m);
    if (refusal == 0 && (columns.length < WUNDRESKA_SET_SIZE || answer_length < WUNDRESKA_MULTIPLIERS_SIZE))
        refusal = 8;
    if (refusal == 0)
        refusal = judge_columns(m, held, columns.named);
    Called c = call_multipliers(file, length, columns, answer_length);
    const char *complaint = refusal_complaint(&c, refusal);
    return complaint || refusal ? complaint : given_complaint(m, held, columns.named, &c);
}

/* First the refusals of the model, then that of the columns, then that of the area written. */
const char *asked_handed_complaint(const Model *m, Columns columns, Lengths l)
{
    Set held = seen(columns, READ_HANDED);
    uint32_t refusal = judge_areas(m, l.constants, l.rows, l.numbers);
    if (refusal == 0)
        refusal = judge_columns(m, held, columns.named);
    if (refusal == 0 && l.out < WUNDRESKA_MULTIPLIERS_SIZE)
        refusal = 8;
    Called c = call_handed_multipliers(m, columns, l);
    const char *complaint = refusal_complaint(&c, refusal);
    return complaint || refusal ? complaint : given_complaint(m, held, columns.named, &c);
}

/* ---- cases ---- */

void try_asked(const uint8_t *file, size_t length, Columns columns, size_t answer_length)
{
    static Model m;
    m = (Model){0};
    const char *complaint = asked_complaint(file, length, columns, answer_length, &m);
    count_case(complaint, &m);
}

size_t draw_room(size_t size)
{
    return size + (one_in(3) ? draw(100) : 0);
}

size_t draw_length(size_t needed)
{
    if (one_in(4))
        return one_in(2) ? needed - 1 : draw(needed);
    return needed + (one_in(3) ? draw(MORE + 1) : 0);
}

const File *file_of(const Model *m)
{
    static File file;
    file.length = write_file(m, file.bytes);
    write_number(file.bytes, file.length, 0);
    return &file;
}

const File *sound_file(const Model *m)
{
    enum { RARE = 10 };
    static File file;
    if (one_in(RARE))
        return file_of(m);
    file.length = write_file(m, file.bytes);
    return &file;
}

void try_sound(const Model *m, const File *file, Set held, size_t named)
{
    size_t handed_room = draw_room(WUNDRESKA_MULTIPLIERS_SIZE), room = draw_room(WUNDRESKA_MULTIPLIERS_SIZE);
    count_case(asked_handed_complaint(m, columns_to_hand(held, named), exact_lengths(m, handed_room)), m);
    try_asked(file->bytes, file->length, columns_for_file(held, named), room);
}

/* ---- models and columns to ask about ---- */

Model numbered_or_not(Model m)
{
    if (one_in(2))
        draw_numbers(&m);
    return m;
}

Model draw_any(size_t columns, size_t rows)
{
    return numbered_or_not(draw_model(all_primes, COUNT(all_primes), columns, rows));
}

Model draw_sized(size_t n, size_t a, size_t b)
{
    uint32_t p = all_primes[draw(COUNT(all_primes))];
    size_t most = n < a + b ? n : a + b;
    return numbered_or_not(draw_of_rank(LAYERED, p, n, a, b, draw(most + 1)));
}

Model draw_with_twice(void)
{
    Model m = draw_any(FEW, FEW);
    if (m.numbered && one_in(2))
        plant_twice(&m);
    return m;
}

size_t draw_edge(void)
{
    static const size_t edges[] = {WORD - 1, WORD, WORD + 1, WUNDRESKA_COLUMNS_MAX - 1, WUNDRESKA_COLUMNS_MAX};
    return edges[draw(COUNT(edges))];
}

size_t draw_wide(void)
{
    return one_in(3) ? draw_edge() : WORD + 1 + draw(WUNDRESKA_COLUMNS_MAX - WORD);
}

size_t draw_faulty_named(size_t n)
{
    if (!one_in(4))
        return draw(n);
    return one_in(2) ? n + draw(3) : SIZE_MAX - draw(SIZE_MAX - n);
}

void list_named(size_t n, size_t *named)
{
    size_t last = n - 1, byte = 1 << 8, half = (size_t)1 << 32, most = WUNDRESKA_COLUMNS_MAX;
    size_t list[NAMED] = {0,        last, last + 1,    last + 2, most - 1,    most,            WIDTH - 1,        WIDTH,
                          byte - 1, byte, byte + last, half,     half + last, SIZE_MAX - half, SIZE_MAX / 2 + 1, SIZE_MAX};
    memcpy(named, list, sizeof list);
}

Set draw_held(size_t bound)
{
    Set held = 0;
    uint64_t rare = 1 + draw(bound);
    for (size_t c = 0; c < bound; c++)
        if (one_in(rare))
            held |= just(c);
    return one_in(12) ? 0 : held;
}
