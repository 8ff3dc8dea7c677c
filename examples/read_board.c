/* SPDX-License-Identifier: BSD-2-Clause OR GPL-2.0-or-later */
/*
 * Reads a board of two processors from tables and prints their rows; then the same board with a fault, which is refused with the
 * number of the rule, the node record and the property record.
 *
 *   gcc -Iinclude examples/read_board.c target/archive/x86_64/libsunderwath.a -o read_board && ./read_board
 */
#include <stdio.h>
#include <string.h>

#include "sunderwath.h"

/* The pool: names, property names and values, one after the other. */
static const char pool[] =
    "cpus" "cpu-map" "cluster0" "core0" "core1" "cpu@0" "cpu@100"
    "#address-cells" "#size-cells" "device_type" "reg" "phandle" "cpu\0"
    "\0\0\0\0" "\0\0\0\1" "\0\0\0\2" "\0\0\1\0";

enum {
    CPUS = 0, MAP = 4, CLUSTER = 11, CORE0 = 19, CORE1 = 24, CPU0 = 29, CPU100 = 34,
    ADDRESS = 41, SIZE = 55, TYPE = 66, REG = 77, PHANDLE = 80, CPU = 87,
    ZERO = 91, ONE = 95, TWO = 99, HUNDRED = 103, POOL = 107
};

/* Node records: parent, name offset, name length. */
static const uint32_t nodes[] = {
    0xFFFFFFFF, CPUS, 4, 0, MAP, 7, 1, CLUSTER, 8, 2, CORE0, 5, 2, CORE1, 5, 0, CPU0, 5, 0, CPU100, 7
};

/* Property records: node, name offset, name length, value offset, value length. */
static uint32_t props[] = {
    0, ADDRESS, 14, ONE, 4, 0, SIZE, 11, ZERO, 4,
    3, CPU, 3, TWO, 4, 4, CPU, 3, ONE, 4,
    5, TYPE, 11, CPU, 4, 5, REG, 3, ZERO, 4, 5, PHANDLE, 7, ONE, 4,
    6, TYPE, 11, CPU, 4, 6, REG, 3, HUNDRED, 4, 6, PHANDLE, 7, TWO, 4
};

/* Prints number, place and second place, which is a property record or none. */
static void refused(const uint32_t *answer)
{
    uint32_t property = answer[SUNDERWATH_ANSWER_SECOND];

    printf("refused: rule %u at record %u", (unsigned)answer[SUNDERWATH_ANSWER_NUMBER], (unsigned)answer[SUNDERWATH_ANSWER_PLACE]);
    if (property != SUNDERWATH_NO_PROPERTY) {
        const uint32_t *record = props + SUNDERWATH_PROPERTY_WORDS * property;
        printf(", property %u (%.*s)", (unsigned)property, (int)record[2], pool + record[1]);
    }
    printf("\n");
}

static void show(void)
{
    uint32_t rows[2 * SUNDERWATH_ROW_WORDS], answer[SUNDERWATH_ANSWER_WORDS];
    uint32_t number = sunderwath_read_tables(SUNDERWATH_ARM64, nodes, sizeof nodes / 4, props, sizeof props / 4,
                                             (const uint8_t *)pool, POOL, rows, sizeof rows / 4, answer, sizeof answer / 4);
    uint32_t k;

    if (number != 0) {
        refused(answer);
        return;
    }
    for (k = 0; k < answer[SUNDERWATH_ANSWER_COUNT]; k++) {
        const uint32_t *row = rows + SUNDERWATH_ROW_WORDS * k;
        printf("leaf %u, cpu %u, mpidr 0x%x, slot %u\n", (unsigned)row[0], (unsigned)row[1], (unsigned)row[3], (unsigned)row[11]);
    }
}

int main(void)
{
    show();
    /* The value of the last property, the phandle of cpu@100, becomes that of cpu@0. */
    props[sizeof props / 4 - 2] = ONE;
    show();
    return 0;
}
