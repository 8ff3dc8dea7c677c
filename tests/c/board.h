/* SPDX-License-Identifier: BSD-2-Clause OR GPL-2.0-or-later */
/*
 * Builds small boards, the whole case of the scope paper among them, and
 * compares lent words with the words around them.
 */
#ifndef BOARD_H
#define BOARD_H

#include "sunderwath.h"

#include <string.h>

#define PATTERN 0xA5A5A5A5u
#define GUARD 4
#define CPUS 2
#define NODES 7
#define PROPS 10
#define ROWS (CPUS * SUNDERWATH_ROW_WORDS)
#define GAP SUNDERWATH_GAP
#define NONE SUNDERWATH_NONE
#define WRONG_WIDTH 33

/* Property records of the whole case: `reg` of the cpus at records 5 and 6. */
#define REG_OF_5 5
#define REG_OF_6 8

struct board {
    uint32_t width;
    uint32_t nodes[NODES * SUNDERWATH_NODE_WORDS];
    uint32_t props[PROPS * SUNDERWATH_PROPERTY_WORDS];
    uint8_t pool[256];
    size_t n, p, bytes;
};

static inline uint32_t add_bytes(struct board *board, const void *bytes,
                                 size_t length)
{
    uint32_t offset = (uint32_t)board->bytes;

    memcpy(board->pool + offset, bytes, length);
    board->bytes += length;
    return offset;
}

static inline void add_node(struct board *board, uint32_t parent,
                            const char *name)
{
    uint32_t *node = board->nodes + board->n;

    node[0] = parent;
    node[1] = add_bytes(board, name, strlen(name));
    node[2] = (uint32_t)strlen(name);
    board->n += SUNDERWATH_NODE_WORDS;
}

static inline void add_prop(struct board *board, uint32_t node,
                            const char *name, const void *value, size_t length)
{
    uint32_t *prop = board->props + board->p;

    prop[0] = node;
    prop[1] = add_bytes(board, name, strlen(name));
    prop[2] = (uint32_t)strlen(name);
    prop[3] = add_bytes(board, value, length);
    prop[4] = (uint32_t)length;
    board->p += SUNDERWATH_PROPERTY_WORDS;
}

static inline void set_cell(uint8_t *cell, uint32_t value)
{
    cell[0] = (uint8_t)(value >> 24);
    cell[1] = (uint8_t)(value >> 16);
    cell[2] = (uint8_t)(value >> 8);
    cell[3] = (uint8_t)value;
}

static inline void add_cell(struct board *board, uint32_t node,
                            const char *name, uint32_t value)
{
    uint8_t cell[4];

    set_cell(cell, value);
    add_prop(board, node, name, cell, sizeof cell);
}

/* The board number of what is built. */
static uint32_t board_width = SUNDERWATH_ARM64;

/* With records 0 to 2: `cpus`, `cpu-map` and `cluster0`. */
static inline void start_board(struct board *board)
{
    memset(board, 0, sizeof *board);
    board->width = board_width;
    add_node(board, NONE, "cpus");
    add_node(board, 0, "cpu-map");
    add_node(board, 1, "cluster0");
}

static inline void whole_case(struct board *board)
{
    start_board(board);
    add_node(board, 2, "core0");
    add_node(board, 2, "core1");
    add_node(board, 0, "cpu@0");
    add_node(board, 0, "cpu@100");
    add_cell(board, 0, "#address-cells", 1);
    add_cell(board, 0, "#size-cells", 0);
    add_cell(board, 3, "cpu", 2);
    add_cell(board, 4, "cpu", 1);
    add_prop(board, 5, "device_type", "cpu", 4);
    add_cell(board, 5, "reg", 0x0);
    add_cell(board, 5, "phandle", 1);
    add_prop(board, 6, "device_type", "cpu", 4);
    add_cell(board, 6, "reg", 0x100);
    add_cell(board, 6, "phandle", 2);
}

/* The whole case as a board of a width, with other values of reg: that of the
 * cpu of row 0 and that of row 1's. */
static inline void whole_case_of(struct board *board, uint32_t width,
                                 uint32_t row_0, uint32_t row_1)
{
    whole_case(board);
    board->width = width;
    set_cell(board->pool + board->props[5 * REG_OF_6 + 3], row_0);
    set_cell(board->pool + board->props[5 * REG_OF_5 + 3], row_1);
}

/* The rows of the whole case as a RISC-V board with these hart ids. */
static inline void rows_of_harts(uint32_t rows[ROWS], uint32_t row_0,
                                 uint32_t row_1)
{
    static const uint32_t words[ROWS] = {
        3, 6, 0, 0, GAP, 0, GAP, GAP, GAP, 0, GAP, GAP,
        4, 5, 0, 0, GAP, 0, GAP, GAP, GAP, 1, GAP, GAP};

    memcpy(rows, words, sizeof words);
    rows[SUNDERWATH_ROW_HART] = row_0;
    rows[SUNDERWATH_ROW_WORDS + SUNDERWATH_ROW_HART] = row_1;
}

/* The answer of an accepted RISC-V board of two harts. */
static const uint32_t answer_of_harts[SUNDERWATH_ANSWER_WORDS] = {
    0, 0, 2, 0, 0, 0, 8, 16, 32, 0, NONE};

/* Pairs of hart ids; the last four have bits that no MPIDR has. */
#define HART_PAIRS 6
static const uint32_t hart_pairs[HART_PAIRS][2] = {
    {0x100, 0},           {5, 0xFFFFFF},       {0xFFFFFFFF, 0},
    {0, 0x80000000},      {0x1000000, 0},      {0xFF000007, 0x7}};

/* Whether a part holds these words behind its guard, and the pattern else. */
static inline int holds(const uint32_t *part, size_t part_n,
                        const uint32_t *words, size_t n)
{
    size_t i;
    int good = 1;

    for (i = 0; i < part_n; i++) {
        int inside = i >= GUARD && i < GUARD + n;

        good &= part[i] == (inside ? words[i - GUARD] : PATTERN);
    }
    return good;
}

#endif
