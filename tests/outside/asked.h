/* Questions about a column and held ones, as both calls take them: what is lent, the complaints about a call, and models and columns
 * to ask about. */
#ifndef ASKED_H
#define ASKED_H

#include "compare.h"

enum {
    READ_BY_FILE = WUNDRESKA_SET_SIZE,          /* bytes of the held columns that the call on a file reads, */
    READ_HANDED = ROW_WORDS * sizeof(uint64_t), /* and that on a model handed over; */
    MORE = 8,                                   /* bytes by which areas are too long; */
    LENT = READ_HANDED + MORE                   /* the most bytes of held columns that are lent */
};

/* The columns of a question, the held ones as so many bytes, for a call that reads so many. Those behind are drawn, and the call is not
 * to read them. The bytes last until the next columns are made. */
Columns columns_of(Set held, size_t named, size_t read, size_t length);

/* As long as the call on a file needs them, or longer; and of any length that shows all held columns to the other call. */
Columns columns_for_file(Set held, size_t named);
Columns columns_to_hand(Set held, size_t named);

/* About the call on a model handed over in areas of any lengths, sound or not. */
const char *asked_handed_complaint(const Model *model, Columns columns, Lengths lengths);

/* Counts a case: the call on any bytes, with an answer area of any length. */
void try_asked(const uint8_t *file, size_t length, Columns columns, size_t answer_length);

/* A model's file, which goes to the other judges of files too. It lasts until the next one. */
typedef struct {
    uint8_t bytes[WUNDRESKA_FILE_MAX + DAMAGE_ROOM];
    size_t length;
} File;

const File *file_of(const Model *model);

/* The same of a sound model, of which some go to the other judges: they have seen many such. */
const File *sound_file(const Model *model);

/* Counts two cases: a sound model handed over, and its file, with areas that are just right or longer. */
void try_sound(const Model *model, const File *file, Set held, size_t named);

/* The multipliers of an answer, from where they start. */
void get_multipliers(const uint8_t *bytes, uint16_t *multipliers);

/* The length of an answer area that is just right or longer, for so many bytes. */
size_t draw_room(size_t size);

/* The length of an area, mostly what is needed or more, else less, and often by one. */
size_t draw_length(size_t needed);

/* Every other model becomes numbered, which changes no answer. */
Model numbered_or_not(Model model);

/* Such models, with sizes up to the limits given, and of the sizes given; and small ones in which a number may stand twice. */
Model draw_any(size_t columns, size_t rows);
Model draw_sized(size_t n, size_t a, size_t b);
Model draw_with_twice(void);

/* Sizes about a word's and the most, and more columns than a word has bits, but for some about these. */
size_t draw_edge(void);
size_t draw_wide(void);

/* Columns below a bound: many, few, or none. */
Set draw_held(size_t bound);

/* A column below n, or else about n or far behind. */
size_t draw_faulty_named(size_t n);

/* Columns about n, about the limits, and where a number cut to 8 or 32 bits is below n. */
enum { NAMED = 16 };
void list_named(size_t n, size_t *named);

#endif
