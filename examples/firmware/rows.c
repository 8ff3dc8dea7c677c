/* SPDX-License-Identifier: BSD-2-Clause OR GPL-2.0-or-later */
/*
 * rows.c - the rows and the answer of sunderwath_read_blob, in words and as text
 */
#include "rows.h"

#include <stddef.h>

#include "machine.h"
#include "sunderwath.h"
#include "text.h"

uint32_t word_at(const uint8_t *bytes)
{
    return (uint32_t)bytes[0] | (uint32_t)bytes[1] << 8 | (uint32_t)bytes[2] << 16 |
           (uint32_t)bytes[3] << 24;
}

static uint32_t row_word(const uint8_t *rows, uint32_t number, uint32_t position)
{
    return word_at(rows + SUNDERWATH_ROW_BYTES * (size_t)number + 4 * (size_t)position);
}

/* An MPIDR; on a RISC-V board the upper word is 0, and the lower one the hart id. */
static uint64_t row_id(const uint8_t *rows, uint32_t number)
{
    return (uint64_t)row_word(rows, number, SUNDERWATH_ROW_MPIDR_UPPER) << 32 |
           row_word(rows, number, SUNDERWATH_ROW_MPIDR_LOWER);
}

uint32_t rows_find(const uint8_t *rows, uint32_t count, uint64_t id)
{
    for (uint32_t number = 0; number < count; number++)
        if (row_id(rows, number) == id)
            return number;
    return ROWS_NONE;
}

/* MPIDRs are written in hexadecimal, hart ids in decimal. */
void rows_put_id(uint64_t id)
{
    if (machine_board == SUNDERWATH_RISCV)
        put_number(id);
    else
        put_hex(id);
}

/* Every word is a slot, but on a RISC-V board, which has none. */
void rows_put_slot(const uint8_t *rows, uint32_t number, const char *before)
{
    if (machine_board == SUNDERWATH_RISCV)
        return;
    put_text(before);
    put_number(row_word(rows, number, SUNDERWATH_ROW_SLOT));
}

/* Nothing where the map states nothing: a gap is not 0. */
static void put_unless_gap(uint32_t number)
{
    if (number != SUNDERWATH_GAP)
        put_number(number);
}

/* The numbers of nested clusters, outermost first, as 0/1. */
static void put_clusters(const uint8_t *rows, uint32_t number)
{
    for (uint32_t depth = 0; depth < 4; depth++) {
        uint32_t cluster = row_word(rows, number, SUNDERWATH_ROW_CLUSTERS + depth);

        if (depth > 0 && cluster != SUNDERWATH_GAP)
            put_text("/");
        put_unless_gap(cluster);
    }
}

static void put_row(const uint8_t *rows, uint32_t number)
{
    rows_put_id(row_id(rows, number));
    put_text(",");
    put_unless_gap(row_word(rows, number, SUNDERWATH_ROW_SOCKET));
    put_text(",");
    put_clusters(rows, number);
    put_text(",");
    put_number(row_word(rows, number, SUNDERWATH_ROW_CORE));
    put_text(",");
    put_unless_gap(row_word(rows, number, SUNDERWATH_ROW_THREAD));
    put_text(",");
    rows_put_slot(rows, number, "");
    put_text("\n");
}

void rows_print(const uint8_t *rows, uint32_t count)
{
    put_text("# ");
    put_text(machine_id_name);
    put_text(",socket,cluster,core,thread,slot\n");
    for (uint32_t number = 0; number < count; number++)
        put_row(rows, number);
}
