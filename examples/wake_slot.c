/* SPDX-License-Identifier: BSD-2-Clause OR GPL-2.0-or-later */
/*
 * The wake path. A board of three processors is read once, with a table from slot to row; a processor that wakes knows its MPIDR and finds
 * its row: the slot from mask and shifts, the row from the table, and then the row's MPIDR, as one that is not on the board can have the
 * slot of one that is.
 *
 *   gcc -Iinclude examples/wake_slot.c target/archive/x86_64/libsunderwath.a -o wake_slot && ./wake_slot
 */
#include <stdio.h>

#include "sunderwath.h"

/* The pool: names, property names and values, one after the other. */
static const char pool[] =
    "cpus" "cpu-map" "cluster0" "cluster1" "core0" "core1" "cpu@0" "cpu@1" "cpu@100"
    "#address-cells" "#size-cells" "device_type" "reg" "phandle" "cpu\0"
    "\0\0\0\0" "\0\0\0\1" "\0\0\0\2" "\0\0\0\3" "\0\0\1\0";

enum {
    CPUS = 0, MAP = 4, CLUSTER0 = 11, CLUSTER1 = 19, CORE0 = 27, CORE1 = 32, CPU0 = 37, CPU1 = 42, CPU100 = 47,
    ADDRESS = 54, SIZE = 68, TYPE = 79, REG = 90, PHANDLE = 93, CPU = 100,
    ZERO = 104, ONE = 108, TWO = 112, THREE = 116, HUNDRED = 120, POOL = 124
};

/* Node records: parent, name offset, name length. */
static const uint32_t nodes[] = {
    0xFFFFFFFF, CPUS, 4, 0, MAP, 7,
    1, CLUSTER0, 8, 2, CORE0, 5,
    1, CLUSTER1, 8, 4, CORE0, 5, 4, CORE1, 5,
    0, CPU0, 5, 0, CPU1, 5, 0, CPU100, 7
};

/* Property records: node, name offset, name length, value offset, value length. */
static const uint32_t props[] = {
    0, ADDRESS, 14, ONE, 4, 0, SIZE, 11, ZERO, 4,
    3, CPU, 3, THREE, 4, 5, CPU, 3, ONE, 4, 6, CPU, 3, TWO, 4,
    7, TYPE, 11, CPU, 4, 7, REG, 3, ZERO, 4, 7, PHANDLE, 7, ONE, 4,
    8, TYPE, 11, CPU, 4, 8, REG, 3, ONE, 4, 8, PHANDLE, 7, TWO, 4,
    9, TYPE, 11, CPU, 4, 9, REG, 3, HUNDRED, 4, 9, PHANDLE, 7, THREE, 4
};

/* What stays in memory while processors sleep. The table has room for every board that 38 does not refuse. */
static uint32_t rows[3 * SUNDERWATH_ROW_WORDS], table[SUNDERWATH_MAX_TABLE], answer[SUNDERWATH_ANSWER_WORDS];

/* The affinity bits: the register MPIDR has others beside them, such as bit 31. */
#define AFFINITY UINT64_C(0xFF00FFFFFF)

static uint64_t wide(uint32_t upper, uint32_t lower)
{
    return (uint64_t)upper << 32 | lower;
}

/* Of each affinity level the bits under the mask, moved right by its shift. */
static uint32_t slot_of(uint64_t mpidr)
{
    static const int begin[4] = { 0, 8, 16, 32 };
    uint64_t kept = mpidr & wide(answer[SUNDERWATH_ANSWER_MASK_HIGH], answer[SUNDERWATH_ANSWER_MASK_LOW]);
    uint64_t slot = 0;
    int level;

    for (level = 0; level < 4; level++)
        slot |= (kept & UINT64_C(0xFF) << begin[level]) >> answer[SUNDERWATH_ANSWER_SHIFTS + level];
    return (uint32_t)slot;
}

/* The number of the row that is this processor's own, or GAP: either no processor has its slot, or another one has. */
static uint32_t row_of(uint64_t mpidr)
{
    uint32_t slot = slot_of(mpidr), number;
    const uint32_t *row;

    if (slot >> answer[SUNDERWATH_ANSWER_BITS] != 0)
        return SUNDERWATH_GAP;
    number = table[slot];
    if (number == SUNDERWATH_GAP)
        return SUNDERWATH_GAP;
    row = rows + SUNDERWATH_ROW_WORDS * number;
    if (wide(row[SUNDERWATH_ROW_MPIDR_UPPER], row[SUNDERWATH_ROW_MPIDR_LOWER]) != (mpidr & AFFINITY))
        return SUNDERWATH_GAP;
    return number;
}

/* A processor without a row has nothing to restore: it never takes that of another. */
static void wake(uint64_t mpidr)
{
    uint32_t number = row_of(mpidr);

    printf("mpidr 0x%llx: slot %u, ", (unsigned long long)mpidr, (unsigned)slot_of(mpidr));
    if (number == SUNDERWATH_GAP)
        printf("no processor of this board\n");
    else
        printf("row %u, leaf %u\n", (unsigned)number, (unsigned)rows[SUNDERWATH_ROW_WORDS * number + SUNDERWATH_ROW_LEAF]);
}

int main(void)
{
    /* The three of the board; one whose slot is a gap; and one with the slot of 0x1. */
    static const uint64_t waking[] = { 0x80000000, 0x80000001, 0x80000100, 0x80000101, 0x80010001 };
    size_t k;

    if (sunderwath_read_tables_slots(SUNDERWATH_ARM64, nodes, sizeof nodes / 4, props, sizeof props / 4, (const uint8_t *)pool, POOL,
                                     rows, sizeof rows / 4, table, sizeof table / 4, answer, sizeof answer / 4) != 0) {
        printf("refused: rule %u at record %u\n", (unsigned)answer[SUNDERWATH_ANSWER_NUMBER], (unsigned)answer[SUNDERWATH_ANSWER_PLACE]);
        return 1;
    }
    for (k = 0; k < sizeof waking / sizeof waking[0]; k++)
        wake(waking[k]);
    return 0;
}
