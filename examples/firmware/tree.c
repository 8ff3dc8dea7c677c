/* SPDX-License-Identifier: BSD-2-Clause OR GPL-2.0-or-later */
/*
 * tree.c - the bytes that are lent to the library
 *
 * Which bytes may be read: the 40 of the header, as the machine says that a tree lies there. More
 * only behind the right magic, at most the header's total size and at most SUNDERWATH_MAX_BLOB,
 * which machine_tree promises; offsets and sizes are added up in 64 bits and cannot wrap.
 *
 * A tree whose total size is above the limit has its blocks at the front and room behind them, as
 * QEMU's on aarch64 (1 MiB, 8 KB of them used), or is too long. The first kind is lent as a copy
 * that ends with the later of the two blocks and says so in its header; it is the one change ever
 * made, and it leaves every token, name and offset where it was. Of the second kind, and of what has
 * no magic, the header is lent alone, for the library to refuse.
 */
#include "tree.h"

#include "sunderwath.h"

enum {
    MAGIC = 0,
    TOTAL_SIZE = 4,
    STRUCTURE = 8,
    STRINGS = 12,
    STRINGS_SIZE = 32,
    STRUCTURE_SIZE = 36,
    HEADER_BYTES = 40
};

static uint8_t copy[SUNDERWATH_MAX_BLOB];

/* A big-endian word, on any alignment. */
static uint32_t word(const uint8_t *at)
{
    return (uint32_t)at[0] << 24 | (uint32_t)at[1] << 16 | (uint32_t)at[2] << 8 | at[3];
}

static void set_word(uint8_t *at, uint32_t value)
{
    at[0] = (uint8_t)(value >> 24);
    at[1] = (uint8_t)(value >> 16);
    at[2] = (uint8_t)(value >> 8);
    at[3] = (uint8_t)value;
}

/* Where the later of the two blocks ends, but not inside the header. */
static uint64_t end_of_blocks(const uint8_t *at)
{
    uint64_t structure = (uint64_t)word(at + STRUCTURE) + word(at + STRUCTURE_SIZE);
    uint64_t strings = (uint64_t)word(at + STRINGS) + word(at + STRINGS_SIZE);
    uint64_t end = structure > strings ? structure : strings;

    return end > HEADER_BYTES ? end : HEADER_BYTES;
}

static struct tree copy_up_to(const uint8_t *at, uint32_t end)
{
    for (uint32_t k = 0; k < end; k++)
        copy[k] = at[k];
    set_word(copy + TOTAL_SIZE, end);
    return (struct tree){ copy, end };
}

struct tree tree_lend(const uint8_t *at)
{
    uint32_t total = word(at + TOTAL_SIZE);

    if (word(at + MAGIC) != 0xD00DFEED)
        return (struct tree){ at, HEADER_BYTES };
    if (total <= SUNDERWATH_MAX_BLOB)
        return (struct tree){ at, total };
    if (end_of_blocks(at) <= SUNDERWATH_MAX_BLOB)
        return copy_up_to(at, (uint32_t)end_of_blocks(at));
    return (struct tree){ at, HEADER_BYTES };
}
