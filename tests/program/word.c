/* Words for columns, and what they name, digit by digit. */
#include "word.h"

#include <stdio.h>
#include <string.h>

enum { READ_MAX = 20, PAST_ALL = WUNDRESKA_COLUMNS_MAX };

static int is_digit(char c)
{
    return c >= '0' && c <= '9';
}

size_t named_column(const char *word)
{
    size_t length = word ? strlen(word) : 0, column = 0;
    if (length == 0 || length > READ_MAX)
        return PAST_ALL;
    for (size_t i = 0; i < length; i++) {
        if (!is_digit(word[i]))
            return PAST_ALL;
        column = column < PAST_ALL ? 10 * column + (word[i] - '0') : PAST_ALL;
    }
    return column < PAST_ALL ? column : PAST_ALL;
}

void write_word(size_t column, char *word)
{
    int digits = one_in(4) ? 1 + (int)draw(READ_MAX) : 1;
    snprintf(word, WORD_MAX, "%0*zu", digits, column);
}

void write_wrapped_word(size_t column, unsigned power, char *word)
{
    char *end = word + WORD_MAX - 1, *first = end;
    unsigned __int128 number = ((unsigned __int128)1 << power) + column;
    for (*end = 0; number > 0; number /= 10)
        *--first = '0' + (int)(number % 10);
    memmove(word, first, end - first + 1);
}

void draw_word(char *word)
{
    size_t length = draw(READ_MAX + 4);
    for (size_t i = 0; i < length; i++)
        word[i] = one_in(4) ? 1 + draw(255) : '0' + draw(10);
    word[length] = 0;
}
