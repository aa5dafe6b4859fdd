/* Models whose blocks are refused, and with which number: for the area, and for the model or its file, as a rank call refuses it. */
#include "blocks.h"

/* ---- areas ---- */

static void try_area_of(size_t room)
{
    static uint8_t file[WUNDRESKA_FILE_MAX];
    Model m = draw_any(FEW, FEW);
    try_area(&blocks_question, file, write_file(&m, file), room);
    count_case(handed_complaint(&blocks_question, &m, exact_lengths(&m, room)), &m);
}

static void compare_areas(void)
{
    begin_category("blocks asked for with answer areas of every length up to twice the answer, and beyond");
    for (size_t room = 0; room <= 2 * WUNDRESKA_BLOCKS_SIZE; room++)
        for (int i = 0; i < FEW; i++)
            try_area_of(room);
    for (int i = 0; i < 200; i++)
        try_area_of(2 * WUNDRESKA_BLOCKS_SIZE + draw(WUNDRESKA_FILE_MAX));
}

/* ---- columns of every number, and rows ---- */

static void try_size(Model m)
{
    static uint8_t file[WUNDRESKA_FILE_MAX];
    try_area(&blocks_question, file, write_file(&m, file), WUNDRESKA_BLOCKS_SIZE);
    count_case(handed_complaint(&blocks_question, &m, exact_lengths(&m, WUNDRESKA_BLOCKS_SIZE)), &m);
}

/* Without columns, and with one too many, a model is refused. */
static void compare_every_size(void)
{
    static uint8_t file[WUNDRESKA_FILE_MAX];
    begin_category("blocks of models of every n, in areas that just hold the answer");
    for (size_t n = 1; n <= WUNDRESKA_COLUMNS_MAX; n++)
        for (int i = 0; i < FEW; i++)
            try_size(draw_cascade(n));
    try_size((Model){.p = 1021, .n = 0});
    try_size((Model){.p = 1021, .n = WUNDRESKA_COLUMNS_MAX + 1});
    begin_category("blocks asked of files with every n, a and b of one byte, made for another");
    for (int i = 0; i < 3 * 256 * 2; i++) {
        Model m = draw_any(FEW, FEW);
        size_t length = write_file(&m, file);
        file[SIZES_AT + i % 3] = i / 3 % 256;
        try_file(&blocks_question, file, length);
    }
}

/* ---- several faults, so that their order shows ---- */

/* With areas that are long enough, both calls refuse a file with the same number, or none does. */
static const char *alike_complaint(const File *file)
{
    Called blocks = call_file(wundreska_blocks, file->bytes, file->length, WUNDRESKA_BLOCKS_SIZE, WUNDRESKA_BLOCKS_SIZE);
    Called checked = call_file(wundreska_check, file->bytes, file->length, WUNDRESKA_ANSWER_SIZE, WUNDRESKA_ANSWER_SIZE);
    return blocks.refusal == checked.refusal ? NULL : "a file is not refused as a rank call refuses it";
}

static void try_faulty_file(const Model *m)
{
    static File file;
    file.length = write_file(m, file.bytes);
    if (one_in(2))
        file.length = damage_file(file.bytes, file.length);
    try_area(&blocks_question, file.bytes, file.length, draw_length(WUNDRESKA_BLOCKS_SIZE));
    count_case(alike_complaint(&file), m);
}

static void compare_faults(void)
{
    begin_category("blocks asked of files, with several faults of the file and the area");
    for (int i = 0; i < 15000; i++) {
        Model m = draw_with_twice();
        try_faulty_file(&m);
    }
    begin_category("blocks asked of models handed over, with several faults of the model and the area");
    for (int i = 0; i < 20000; i++) {
        Model m = draw_any(FEW, FEW);
        draw_numbers(&m);
        Lengths l = spoil_numbered(&m, WUNDRESKA_BLOCKS_SIZE);
        count_case(handed_complaint(&blocks_question, &m, l), &m);
    }
}

/* ---- damaged files ---- */

static void compare_damages(void)
{
    static File file;
    begin_category("blocks asked of damaged files: every prefix, every bit turned, random damage");
    for (int i = 0; i < 20; i++) {
        Model m = draw_any(FEW, FEW);
        file.length = write_file(&m, file.bytes);
        try_prefixes(&blocks_question, file.bytes, file.length);
        try_flips(&blocks_question, file.bytes, file.length);
        try_damages(&blocks_question, file.bytes, file.length, file.length);
    }
}

void compare_unlisted(void)
{
    compare_areas();
    compare_every_size();
    compare_faults();
    compare_damages();
}
