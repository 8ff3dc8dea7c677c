/* SPDX-License-Identifier: BSD-2-Clause OR GPL-2.0-or-later */
/*
 * Reads a flattened devicetree from a file and prints the rows of its processors: the blob into tables, and the tables, with the blob as
 * their pool, into rows. BOARD is the board number: 64 (which it is without one), 32 or, for RISC-V, 5.
 *
 *   gcc -Iinclude examples/read_flat.c target/archive/x86_64/libsunderwath.a -o read_flat && ./read_flat board.dtb [BOARD]
 */
#include <stdio.h>
#include <stdlib.h>

#include "sunderwath.h"

/* One byte more than a blob may have, so that a longer file is told as 31. */
static uint8_t blob[SUNDERWATH_MAX_BLOB + 1];
static uint32_t nodes[SUNDERWATH_NODE_WORDS * SUNDERWATH_MAX_NODES];
static uint32_t props[SUNDERWATH_PROPERTY_WORDS * SUNDERWATH_MAX_PROPERTIES];
static uint32_t rows[SUNDERWATH_ROW_WORDS * SUNDERWATH_MAX_CPUS];

/* The second place is a property record or none; a refusal of the blob has none. */
static int refused(const uint32_t *answer, uint32_t second)
{
    printf("refused: rule %u at %u", (unsigned)answer[SUNDERWATH_ANSWER_NUMBER], (unsigned)answer[SUNDERWATH_ANSWER_PLACE]);
    if (second != SUNDERWATH_NO_PROPERTY) {
        const uint32_t *record = props + SUNDERWATH_PROPERTY_WORDS * second;
        printf(", property %u (%.*s)", (unsigned)second, (int)record[2], (const char *)blob + record[1]);
    }
    printf("\n");
    return 1;
}

/* Both cells of reg; a board with one address cell has 0 in the upper one. */
static unsigned long long mpidr(const uint32_t *row)
{
    return (unsigned long long)row[SUNDERWATH_ROW_MPIDR_UPPER] << 32 | row[SUNDERWATH_ROW_MPIDR_LOWER];
}

/* A RISC-V board has hart ids and no slots. */
static void print_row(uint32_t board, const uint32_t *row)
{
    printf("leaf %u, cpu %u, ", (unsigned)row[SUNDERWATH_ROW_LEAF], (unsigned)row[SUNDERWATH_ROW_CPU]);
    if (board == SUNDERWATH_RISCV)
        printf("hart %u\n", (unsigned)row[SUNDERWATH_ROW_HART]);
    else
        printf("mpidr 0x%llx, slot %u\n", mpidr(row), (unsigned)row[SUNDERWATH_ROW_SLOT]);
}

int main(int count, char **arguments)
{
    uint32_t flat[SUNDERWATH_FLAT_ANSWER_WORDS], answer[SUNDERWATH_ANSWER_WORDS];
    uint32_t board = count == 3 ? (uint32_t)strtoul(arguments[2], NULL, 10) : SUNDERWATH_ARM64;
    FILE *file = count == 2 || count == 3 ? fopen(arguments[1], "rb") : NULL;
    size_t bytes;
    uint32_t k;

    if (!file) {
        fprintf(stderr, "usage: read_flat FILE.dtb [BOARD]\n");
        return 2;
    }
    bytes = fread(blob, 1, sizeof blob, file);
    fclose(file);

    if (sunderwath_read_flat(blob, bytes, nodes, sizeof nodes / 4, props, sizeof props / 4, flat, sizeof flat / 4) != 0)
        return refused(flat, SUNDERWATH_NO_PROPERTY);
    printf("%u nodes, %u properties\n", (unsigned)flat[SUNDERWATH_FLAT_NODES], (unsigned)flat[SUNDERWATH_FLAT_PROPERTIES]);

    if (sunderwath_read_tables(board, nodes, SUNDERWATH_NODE_WORDS * flat[SUNDERWATH_FLAT_NODES], props,
                               SUNDERWATH_PROPERTY_WORDS * flat[SUNDERWATH_FLAT_PROPERTIES], blob, bytes, rows, sizeof rows / 4, answer,
                               sizeof answer / 4) != 0)
        return refused(answer, answer[SUNDERWATH_ANSWER_SECOND]);
    for (k = 0; k < answer[SUNDERWATH_ANSWER_COUNT]; k++)
        print_row(board, rows + SUNDERWATH_ROW_WORDS * k);
    return 0;
}
