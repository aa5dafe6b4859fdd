/* Listings of blocks: made by always taking the next, and judged by the rules. */
#include "block.h"

#include <string.h>

Blocks no_blocks(void)
{
    Blocks blocks = {0};
    memset(blocks.numbers, WUNDRESKA_NO_BLOCK, sizeof blocks.numbers);
    return blocks;
}

Blocks blocks_in(const uint8_t *bytes)
{
    Blocks blocks = {.count = bytes[WUNDRESKA_BLOCK_COUNT]};
    memcpy(blocks.numbers, bytes + WUNDRESKA_BLOCKS, sizeof blocks.numbers);
    return blocks;
}

int same_blocks(const Blocks *one, const Blocks *other)
{
    return one->count == other->count && !memcmp(one->numbers, other->numbers, sizeof one->numbers);
}

Set columns_of_block(const Blocks *blocks, size_t number)
{
    Set columns = 0;
    for (size_t c = 0; c < WUNDRESKA_COLUMNS_MAX; c++)
        if (blocks->numbers[c] == number)
            columns |= just(c);
    return columns;
}

/* ---- what brings what ---- */

int same_brought(const Brought *one, const Brought *other)
{
    return one->n == other->n && !memcmp(one->by, other->by, one->n * sizeof(Set));
}

Brought brought_by_sums(size_t n, const size_t *sums)
{
    Brought brought = {.n = n};
    size_t rank = n;
    for (Set set = 0; set <= all_below(n); set++)
        rank = sums[set] < rank ? sums[set] : rank;
    for (size_t x = 0; x < n; x++)
        brought.by[x] = all_below(n);
    for (Set set = 0; set <= all_below(n); set++)
        for (size_t x = 0; x < n && sums[set] == rank; x++)
            if (has(set, x))
                brought.by[x] &= set;
    return brought;
}

/* The block of a column, and the columns of all blocks that must come before it. */
static Set block_of(const Brought *b, size_t x)
{
    Set block = 0;
    for (size_t y = 0; y < b->n; y++)
        if (has(b->by[x], y) && has(b->by[y], x))
            block |= just(y);
    return block;
}

static Set before(const Brought *b, size_t x)
{
    Set earlier = 0;
    for (size_t y = 0; y < b->n; y++)
        if (has(b->by[y], x) && !has(b->by[x], y))
            earlier |= just(y);
    return earlier;
}

/* ---- the listing ---- */

/* The first column that is not listed and whose block is permitted. */
static size_t next_column(const Brought *b, Set listed)
{
    size_t x = 0;
    while (has(listed, x) || (before(b, x) & ~listed))
        x++;
    return x;
}

Blocks list_blocks(const Brought *b)
{
    Blocks blocks = no_blocks();
    for (Set listed = 0; listed != all_below(b->n); blocks.count++) {
        Set block = block_of(b, next_column(b, listed));
        for (size_t x = 0; x < b->n; x++)
            if (has(block, x))
                blocks.numbers[x] = blocks.count;
        listed |= block;
    }
    return blocks;
}

/* ---- the rules ---- */

/* Each column below n has a number, and the numbers are those below the count. */
static const char *numbers_complaint(size_t n, const Blocks *blocks)
{
    Set numbers = 0;
    for (size_t c = 0; c < WUNDRESKA_COLUMNS_MAX; c++) {
        if (c >= n && blocks->numbers[c] != WUNDRESKA_NO_BLOCK)
            return "a column from n on has a block";
        if (c < n && blocks->numbers[c] >= blocks->count)
            return "a column has no block";
        numbers |= c < n ? just(blocks->numbers[c]) : 0;
    }
    return numbers == all_below(blocks->count) ? NULL : "a block has no column";
}

static const char *shared_complaint(const Brought *b, const Blocks *blocks)
{
    for (size_t x = 0; x < b->n; x++)
        for (size_t y = 0; y < b->n; y++) {
            int share = has(b->by[x], y) && has(b->by[y], x);
            if (share != (blocks->numbers[x] == blocks->numbers[y]))
                return share ? "columns that share a block are parted" : "columns that share no block are together";
        }
    return NULL;
}

/* A block that comes later, though the block was permitted already, has a larger smallest column. The first column of a block is the
 * smallest, and the columns listed before a block are those of lower numbers. */
static const char *order_complaint(const Brought *b, const Blocks *blocks)
{
    Set listed[WUNDRESKA_COLUMNS_MAX + 1] = {0};
    for (size_t k = 0; k < blocks->count; k++)
        listed[k + 1] = listed[k] | columns_of_block(blocks, k);
    for (size_t x = 0; x < b->n; x++) {
        Set earlier = before(b, x), smaller_columns = all_below(x);
        if (earlier & ~listed[blocks->numbers[x]])
            return "a block comes too early";
        for (size_t k = 0; k < blocks->numbers[x]; k++) {
            int permitted = !(earlier & ~listed[k]), smallest = !(columns_of_block(blocks, k) & smaller_columns);
            if (permitted && smallest)
                return "a block with a larger smallest column comes first";
        }
    }
    return NULL;
}

const char *blocks_complaint(const Brought *b, const Blocks *blocks)
{
    const char *complaint = numbers_complaint(b->n, blocks);
    if (!complaint)
        complaint = shared_complaint(b, blocks);
    return complaint ? complaint : order_complaint(b, blocks);
}

/* Gives the blocks from the next one on every number that is not taken. */
static size_t orders_from(const Brought *b, const Blocks *blocks, size_t next, Set taken, uint8_t *numbers)
{
    size_t keeping = 0;
    if (next == blocks->count) {
        Blocks ordered = *blocks;
        for (size_t c = 0; c < b->n; c++)
            ordered.numbers[c] = numbers[blocks->numbers[c]];
        return order_complaint(b, &ordered) == NULL;
    }
    for (size_t number = 0; number < blocks->count; number++)
        if (!has(taken, number)) {
            numbers[next] = number;
            keeping += orders_from(b, blocks, next + 1, taken | just(number), numbers);
        }
    return keeping;
}

size_t orders_that_keep_rules(const Brought *b, const Blocks *blocks)
{
    uint8_t numbers[WUNDRESKA_COLUMNS_MAX];
    return orders_from(b, blocks, 0, 0, numbers);
}
