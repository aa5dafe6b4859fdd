/* Random damage to a model's file. */
#include "model.h"

#include <string.h>

static size_t cut(uint8_t *file, size_t length)
{
    (void)file;
    return draw(length);
}

static size_t lengthen(uint8_t *file, size_t length)
{
    size_t added = 1 + draw(DAMAGE_ROOM);
    for (size_t i = 0; i < added; i++)
        file[length + i] = draw(8);
    return length + added;
}

static size_t turn_bit(uint8_t *file, size_t length)
{
    size_t bit = draw(8 * length);
    file[bit / 8] ^= 1 << bit % 8;
    return length;
}

/* Small numbers are tags and sizes more often than others are. */
static uint8_t draw_byte(void)
{
    return one_in(2) ? draw(8) : draw(256);
}

static size_t change_byte(uint8_t *file, size_t length)
{
    file[draw(length)] = draw_byte();
    return length;
}

static size_t leave_out_byte(uint8_t *file, size_t length)
{
    size_t place = draw(length);
    memmove(file + place, file + place + 1, length - place - 1);
    return length - 1;
}

static size_t put_in_byte(uint8_t *file, size_t length)
{
    size_t place = draw(length);
    memmove(file + place + 1, file + place, length - place);
    file[place] = draw_byte();
    return length + 1;
}

/* The prime and the sizes stand at the front, and decide most. */
static size_t change_front(uint8_t *file, size_t length)
{
    file[draw(length < 16 ? length : 16)] = draw_byte();
    return length;
}

size_t damage_file(uint8_t *file, size_t length)
{
    static size_t (*const ways[])(uint8_t *, size_t) = {cut,         lengthen,       turn_bit,    turn_bit,
                                                        change_byte, leave_out_byte, put_in_byte, change_front};
    return ways[draw(COUNT(ways))](file, length);
}
