/* Files written down with their numbers. */
#include "numbers.h"

#include "wundreska.h"

#include <stdio.h>
#include <stdlib.h>

static FILE *numbers;

static void close_numbers(void)
{
    if (fclose(numbers) != 0)
        _Exit(2);
}

int write_numbers_to(const char *path)
{
    numbers = fopen(path, "wb");
    return numbers && atexit(close_numbers) == 0;
}

static void write_bytes(const void *bytes, size_t length)
{
    if (fwrite(bytes, 1, length, numbers) == length)
        return;
    perror("the files' numbers cannot be written");
    exit(2);
}

void write_number(const uint8_t *file, size_t length, uint32_t refusal)
{
    uint32_t kept = length <= WUNDRESKA_FILE_MAX ? length : WUNDRESKA_FILE_MAX + 1;
    if (!numbers)
        return;
    write_bytes(&refusal, sizeof refusal);
    write_bytes(&kept, sizeof kept);
    write_bytes(file, kept);
}
