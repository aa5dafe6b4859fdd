/* Open models whose calls are refused, and with which number: for the file that is opened, for the area and what a host did to it, for the
 * edit, and for a column that is held as present at n or later; bytes that are not read; several faults at once. */
#include "edits.h"
#include "numbers.h"

#include <string.h>

/* An edit that is sent, as it is handed over. */
static Edit edit_of(const Sent *sent)
{
    return (Edit){sent->bytes[WUNDRESKA_EDIT_KIND], sent->bytes[WUNDRESKA_EDIT_ROW], sent->bytes[WUNDRESKA_EDIT_COLUMN]};
}

/* What is held after a few edits. */
static void hold_edited(const Model *m, Held *held)
{
    static const Habit habit = {2, 1, 1, 1};
    hold(m, held);
    for (uint64_t i = draw(FEW); i > 0; i--) {
        Sent sent = draw_accepted(&held->open, &habit);
        Edit edit = edit_of(&sent);
        make_edit(&held->open, &edit);
    }
    held->length = write_open(&held->open, held->area);
}

/* An answer area that is mostly long enough. */
static size_t draw_answer_length(void)
{
    return draw_length(WUNDRESKA_ANSWER_SIZE);
}

/* Counts two cases, an edit and a question with these bytes as area. */
static void try_bytes(const Held *held, const uint8_t *area, size_t length)
{
    Sent sent = draw_sent_edit(&held->open);
    count_case(edit_complaint(area, length, &sent), &held->open.model);
    count_case(answered_complaint(area, length, one_in(4) ? draw_answer_length() : WUNDRESKA_ANSWER_SIZE), &held->open.model);
}

/* ---- opening ---- */

static void try_open(const uint8_t *file, size_t length, size_t area_length)
{
    static Model m;
    m = (Model){0};
    const char *complaint = open_complaint(file, length, area_length, &m);
    count_case(complaint, &m);
}

/* In an area as long as the open model of a sound file, or about so. The file goes to the other judges too. */
static void try_open_file(const uint8_t *file, size_t length, size_t needed)
{
    static Model m;
    write_number(file, length, judge_file(file, length, &m));
    try_open(file, length, one_in(2) ? needed : draw_length(needed));
}

static void compare_open_areas(void)
{
    static Held held;
    begin_category("models opened in areas of every length, and of about the length that is needed");
    for (int i = 0; i < 60; i++) {
        Model m = draw_any(FEW, FEW);
        const File *file = file_of(&m);
        hold(&m, &held);
        for (size_t length = 0; length <= held.length + MORE; length++)
            try_open(file->bytes, file->length, length);
    }
    for (int i = 0; i < 300; i++) {
        Model m = one_in(2) ? draw_any(WUNDRESKA_COLUMNS_MAX, WUNDRESKA_ROWS_MAX) : draw_sized(draw_edge(), draw(FEW), draw(FEW));
        const File *file = sound_file(&m);
        hold(&m, &held);
        try_open(file->bytes, file->length, held.length - 1);
        try_open(file->bytes, file->length, held.length);
        try_open(file->bytes, file->length, held.length + draw(MORE));
    }
    begin_category("models opened that are handed over, with areas of every length for the present columns");
    for (size_t length = 0; length <= WUNDRESKA_SET_SIZE + MORE; length++)
        for (int i = 0; i < 100; i++) {
            Model m = draw_any(one_in(4) ? WUNDRESKA_COLUMNS_MAX : FEW, FEW);
            count_case(open_handed_complaint(&m, exact_lengths(&m, length)), &m);
        }
}

static void compare_opened_files(void)
{
    static Held held;
    static File file, damaged;
    begin_category("files opened with several faults of the file and the area");
    for (int i = 0; i < 8000; i++) {
        Model m = draw_with_twice();
        hold(&m, &held);
        file.length = write_file(&m, file.bytes);
        if (one_in(2))
            file.length = damage_file(file.bytes, file.length);
        try_open_file(file.bytes, file.length, held.length);
    }
    begin_category("damaged files opened: every prefix, every bit turned, random damage");
    for (int i = 0; i < 12; i++) {
        Model m = draw_any(FEW, FEW);
        hold(&m, &held);
        file.length = write_file(&m, file.bytes);
        for (size_t length = 0; length <= file.length; length++)
            try_open_file(file.bytes, length, held.length);
        for (size_t bit = 0; bit < 8 * file.length; bit++) {
            file.bytes[bit / 8] ^= 1 << bit % 8;
            try_open_file(file.bytes, file.length, held.length);
            file.bytes[bit / 8] ^= 1 << bit % 8;
        }
        for (size_t k = 0; k < file.length; k++) {
            damaged = file;
            try_open_file(damaged.bytes, damage_file(damaged.bytes, damaged.length), held.length);
        }
    }
    begin_category("models opened that are handed over, with several faults of the model and the areas");
    for (int i = 0; i < 20000; i++) {
        Model m = draw_any(FEW, FEW);
        draw_numbers(&m);
        Lengths l = spoil_numbered(&m, WUNDRESKA_SET_SIZE);
        count_case(open_handed_complaint(&m, l), &m);
    }
}

/* ---- every edit ---- */

static Sent sent_as(unsigned kind, size_t row, size_t column, size_t length)
{
    Sent sent = {.bytes = {kind, row, column}, .length = length};
    for (size_t i = WUNDRESKA_EDIT_LENGTH; i < EDIT_MOST; i++)
        sent.bytes[i] = draw(256);
    return sent;
}

static void try_sent(const Held *held, Sent sent)
{
    count_case(edit_complaint(held->area, held->length, &sent), &held->open.model);
}

static void try_handed(const Held *held, Edit edit)
{
    const Model *m = &held->open.model;
    count_case(edit_handed_complaint(&held->open, exact_lengths(m, 0), WUNDRESKA_SET_SIZE, &edit), m);
}

static void compare_every_edit(void)
{
    static Held held;
    size_t named[NAMED], rows[NAMED];
    begin_category("edits of every length, kind, row and column of a byte");
    for (int i = 0; i < 3; i++) {
        Model m = draw_any(FEW, FEW);
        hold_edited(&m, &held);
        for (unsigned kind = 0; kind < 256; kind++)
            for (size_t length = 0; length <= EDIT_MOST; length++)
                try_sent(&held, sent_as(kind, draw(m.b + 1), draw(m.n + 1), length));
    }
    for (int i = 0; i < 4; i++) {
        Model m = draw_any(i < 2 ? WUNDRESKA_COLUMNS_MAX : FEW, FEW);
        hold_edited(&m, &held);
        for (unsigned kind = WUNDRESKA_TAKE_OFF; kind <= WUNDRESKA_CLEAR_PLACE; kind++)
            for (size_t other = 0; other < 256; other++) {
                try_sent(&held, sent_as(kind, draw(m.b + 1), other, WUNDRESKA_EDIT_LENGTH));
                try_sent(&held, sent_as(kind, other, draw(m.n + 1), WUNDRESKA_EDIT_LENGTH));
            }
    }
    begin_category("edits handed over, of each kind and of none, with rows and columns about b, n and the limits");
    for (int i = 0; i < 200; i++) {
        Model m = draw_any(one_in(8) ? WUNDRESKA_COLUMNS_MAX : FEW, FEW);
        hold_edited(&m, &held);
        list_named(m.n, named);
        list_named(m.b + 1, rows);
        for (unsigned kind = WUNDRESKA_TAKE_OFF - 1; kind <= WUNDRESKA_CLEAR_PLACE + 1; kind++)
            for (size_t k = 0; k < NAMED; k++) {
                try_handed(&held, (Edit){kind, draw(m.b + 1), named[k]});
                try_handed(&held, (Edit){kind, rows[k], draw(m.n + 1)});
                try_handed(&held, (Edit){kind, rows[draw(NAMED)], named[k]});
            }
        try_handed(&held, (Edit){draw(256), draw(m.b + 1), draw(m.n + 1)});
    }
}

/* ---- answer areas, and areas of present columns ---- */

static void compare_lengths(void)
{
    static Held held;
    begin_category("open models asked with answer areas of every length up to twice the answer");
    for (size_t room = 0; room <= 2 * WUNDRESKA_ANSWER_SIZE; room++)
        for (int i = 0; i < FEW; i++) {
            Model m = draw_any(FEW, FEW);
            hold_edited(&m, &held);
            count_case(answered_complaint(held.area, held.length, room), &m);
            count_case(answered_handed_complaint(&held.open, exact_lengths(&m, room), WUNDRESKA_SET_SIZE), &m);
        }
    begin_category("open models handed over with present columns of every length");
    for (size_t length = 0; length <= PRESENT_MOST; length++)
        for (int i = 0; i < 200; i++) {
            Model m = draw_any(one_in(3) ? WUNDRESKA_COLUMNS_MAX : SMALL, FEW);
            hold_edited(&m, &held);
            m.numbered = 0;
            Edit edit = {WUNDRESKA_TAKE_OFF + draw(4), draw(m.b + 1), draw(m.n + 1)};
            count_case(edit_handed_complaint(&held.open, exact_lengths(&m, 0), length, &edit), &m);
            count_case(answered_handed_complaint(&held.open, exact_lengths(&m, WUNDRESKA_ANSWER_SIZE), length), &m);
        }
}

/* ---- areas that a host changed ---- */

/* One byte becomes another: a bit is turned, or it is the least, the most, or any. */
static void try_changed(Held *held, size_t at)
{
    uint8_t before = held->area[at], others[] = {before ^ 1, before ^ 1 << draw(8), 0, 255, draw(256)};
    for (size_t i = 0; i < COUNT(others); i++) {
        held->area[at] = others[i];
        try_bytes(held, held->area, held->length);
    }
    held->area[at] = before;
}

static void compare_changed(void)
{
    static Held held;
    begin_category("areas with one byte changed by the host, each of small ones");
    for (int i = 0; i < 40; i++) {
        Model m = draw_any(FEW, FEW);
        hold_edited(&m, &held);
        for (size_t at = 0; at < held.length; at++)
            try_changed(&held, at);
    }
    begin_category("areas with one byte changed by the host, some of larger ones");
    for (int i = 0; i < 60; i++) {
        Model m = one_in(2) ? draw_any(WUNDRESKA_COLUMNS_MAX, WUNDRESKA_ROWS_MAX) : draw_sized(draw_edge(), draw(WORD), draw(WORD));
        hold_edited(&m, &held);
        for (int k = 0; k < 8; k++)
            try_changed(&held, one_in(3) ? draw(WUNDRESKA_OPEN_FILE + 14) : draw(held.length));
    }
}

/* Cut anywhere, lengthened, and damaged from the file on. */
static void compare_damaged(void)
{
    static Held held;
    static uint8_t area[WUNDRESKA_FILE_MAX + DAMAGE_ROOM];
    begin_category("areas that are cut, lengthened or damaged");
    for (int i = 0; i < 60; i++) {
        Model m = draw_any(FEW, FEW);
        hold_edited(&m, &held);
        for (size_t length = 0; length < held.length; length++)
            try_bytes(&held, held.area, length);
        memcpy(area, held.area, held.length);
        for (size_t more = 0; more <= DAMAGE_ROOM; more++) {
            for (size_t k = 0; k < more; k++)
                area[held.length + k] = one_in(2) ? 0 : draw(256);
            try_bytes(&held, area, held.length + more);
        }
        for (size_t k = 0; k < held.length; k++) {
            memcpy(area, held.area, held.length);
            size_t length = damage_file(area + WUNDRESKA_OPEN_FILE, held.length - WUNDRESKA_OPEN_FILE);
            try_bytes(&held, area, WUNDRESKA_OPEN_FILE + length);
        }
    }
}

/* A numbered file is no part of an open model; nor is a file alone, whose first bytes are taken for present columns. */
static void compare_numbered_areas(void)
{
    static Held held;
    static uint8_t area[WUNDRESKA_OPEN_FILE + WUNDRESKA_FILE_MAX];
    begin_category("areas with a numbered file, whole and cut, and files alone");
    for (int i = 0; i < 400; i++) {
        Model m = draw_any(FEW, FEW);
        hold_edited(&m, &held);
        memcpy(area, held.area, WUNDRESKA_OPEN_FILE);
        if (one_in(4))
            m.parameters[0] = 0;
        draw_numbers(&m);
        size_t length = WUNDRESKA_OPEN_FILE + write_file(&m, area + WUNDRESKA_OPEN_FILE);
        try_bytes(&held, area, length);
        try_bytes(&held, area + WUNDRESKA_OPEN_FILE, length - WUNDRESKA_OPEN_FILE);
        for (int k = 0; k < FEW; k++)
            try_bytes(&held, area, draw(length));
    }
}

/* ---- columns held as present at n or later ---- */

static void put_beyond(Held *held)
{
    size_t n = held->open.model.n;
    held->open.present |= just(one_in(3) ? n : n + draw(WUNDRESKA_COLUMNS_MAX - n));
    held->length = write_open(&held->open, held->area);
}

static void compare_beyond(void)
{
    static Held held;
    begin_category("open models that hold a column as present at n or later, in areas and handed over");
    for (int i = 0; i < 6000; i++) {
        Model m = one_in(4) ? draw_sized(1 + draw(WUNDRESKA_COLUMNS_MAX - 1), draw(FEW), draw(FEW)) : draw_any(FEW, FEW);
        hold_edited(&m, &held);
        if (m.n == WUNDRESKA_COLUMNS_MAX)
            continue;
        put_beyond(&held);
        try_bytes(&held, held.area, held.length);
        m.numbered = 0;
        Sent sent = draw_sent_edit(&held.open);
        Edit edit = edit_of(&sent);
        count_case(edit_handed_complaint(&held.open, exact_lengths(&m, 0), draw_length(WUNDRESKA_SET_SIZE), &edit), &m);
        count_case(answered_handed_complaint(&held.open, exact_lengths(&m, draw_answer_length()), draw_length(WUNDRESKA_SET_SIZE)), &m);
    }
}

/* ---- several faults, so that their order shows ---- */

static void compare_faults(void)
{
    static Held held;
    begin_category("open models handed over, with several faults of the model, the areas and the edit");
    for (int i = 0; i < 30000; i++) {
        Model m = draw_any(FEW, FEW);
        hold_edited(&m, &held);
        if (one_in(6) && m.n < WUNDRESKA_COLUMNS_MAX)
            put_beyond(&held);
        Sent sent = draw_sent_edit(&held.open);
        Edit edit = edit_of(&sent);
        Lengths l = spoil(&held.open.model, WUNDRESKA_ANSWER_SIZE);
        count_case(edit_handed_complaint(&held.open, l, draw_length(WUNDRESKA_SET_SIZE), &edit), &m);
        count_case(answered_handed_complaint(&held.open, l, draw_length(WUNDRESKA_SET_SIZE)), &m);
    }
}

void compare_held(void)
{
    compare_open_areas();
    compare_opened_files();
    compare_every_edit();
    compare_lengths();
    compare_changed();
    compare_damaged();
    compare_numbered_areas();
    compare_beyond();
    compare_faults();
}
