/* SPDX-License-Identifier: BSD-2-Clause OR GPL-2.0-or-later */
/*
 * Calls read_tables_slots from C: the whole case of the scope paper and boards
 * of other hashes, with tables of lengths around two to the bit count; RISC-V
 * boards, with a table of one entry; 38, 39, 49 and refusals by earlier rules.
 * Prints a line per case; exit status 1 on a difference.
 */
#include "board.h"

#include <stdio.h>

#define ANSWER_ROOM (SUNDERWATH_ANSWER_WORDS + 2 * GUARD)
#define ROW_ROOM (ROWS + SUNDERWATH_ROW_WORDS + 2 * GUARD)
#define ENTRIES (2 * SUNDERWATH_MAX_TABLE)
#define TABLE_ROOM (ENTRIES + 2 * GUARD)

/* What is expected of a call; no rows or no table where these are NULL. */
struct reading {
    uint32_t answer[SUNDERWATH_ANSWER_WORDS];
    const uint32_t *rows, *table;
    size_t rows_n, table_n;
};

/* The whole case with another second MPIDR: its slot, the shifts and bits. */
struct hash {
    const char *name;
    uint32_t mpidr, slot, shifts[4], bits;
};

static uint32_t rows[ROW_ROOM], table[TABLE_ROOM], answer[ANSWER_ROOM];
static int failures;

static void report(const char *name, int good)
{
    printf("%-36s %s\n", name, good ? "ok" : "DIFFERENT");
    if (!good)
        failures++;
}

static uint32_t call(const struct board *board, size_t words, size_t entries,
                     size_t answer_n)
{
    memset(rows, 0xA5, sizeof rows);
    memset(table, 0xA5, sizeof table);
    memset(answer, 0xA5, sizeof answer);
    return sunderwath_read_tables_slots(
        board->width, board->nodes, board->n, board->props, board->p,
        board->pool, board->bytes, rows + GUARD, words, table + GUARD, entries,
        answer + GUARD, answer_n);
}

/* Reads into rows and a table between guards, and into answers of the stated
 * words and of more, and compares all. */
static int reads_as(const struct board *board, size_t words, size_t entries,
                    const struct reading *want)
{
    size_t more;
    int good = 1;

    for (more = 0; more <= GUARD; more++) {
        good &= call(board, words, entries, SUNDERWATH_ANSWER_WORDS + more) ==
                want->answer[SUNDERWATH_ANSWER_NUMBER];
        good &= holds(answer, ANSWER_ROOM, want->answer,
                      SUNDERWATH_ANSWER_WORDS);
        good &= holds(rows, ROW_ROOM, want->rows, want->rows_n);
        good &= holds(table, TABLE_ROOM, want->table, want->table_n);
    }
    return good;
}

static int refused_with(const struct board *board, size_t words, size_t entries,
                        uint32_t number, uint32_t place, uint32_t second)
{
    struct reading want = {0};

    want.answer[SUNDERWATH_ANSWER_NUMBER] = number;
    want.answer[SUNDERWATH_ANSWER_PLACE] = place;
    want.answer[SUNDERWATH_ANSWER_SECOND] = second;
    return reads_as(board, words, entries, &want);
}

static int refused(const struct board *board, size_t words, size_t entries,
                   uint32_t number, uint32_t place)
{
    return refused_with(board, words, entries, number, place, NONE);
}

/* Whether read_tables writes the words that the last call has left. */
static int same_without_table(const struct board *board, size_t words)
{
    static uint32_t other_rows[ROW_ROOM], other_answer[ANSWER_ROOM];

    memset(other_rows, 0xA5, sizeof other_rows);
    memset(other_answer, 0xA5, sizeof other_answer);
    sunderwath_read_tables(board->width, board->nodes, board->n, board->props,
                           board->p, board->pool, board->bytes,
                           other_rows + GUARD, words, other_answer + GUARD,
                           SUNDERWATH_ANSWER_WORDS);
    return memcmp(rows, other_rows, sizeof rows) == 0 &&
           memcmp(answer, other_answer, sizeof answer) == 0;
}

/* The whole case with another MPIDR of its second cpu, which row 0 is of. */
static void whole_case_with(struct board *board, uint32_t mpidr)
{
    whole_case(board);
    set_cell(board->pool + board->props[5 * REG_OF_6 + 3], mpidr);
}

/* ---- accepted boards ---- */

/* Tables of no entry, of one, of lengths around what is needed, and of more. */
static int lengths(const struct board *board, const struct reading *want)
{
    const size_t need = want->table_n;
    const size_t tried[] = {0, 1, need / 2, need - 1, need, need + 1, need + 3,
                            SUNDERWATH_MAX_TABLE, 5000, ENTRIES};
    size_t i;
    int good = 1;

    for (i = 0; i < sizeof tried / sizeof *tried; i++) {
        if (tried[i] < need) {
            good &= refused(board, ROWS, tried[i], SUNDERWATH_SLOT_TABLE_SPACE,
                            0);
        } else {
            good &= reads_as(board, ROWS, tried[i], want);
            good &= same_without_table(board, ROWS);
            good &= reads_as(board, ROWS + 7, tried[i], want);
        }
    }
    return good;
}

/* The answer, the rows and the table, from the words of the hash. */
static void two_cpus(const struct hash *hash)
{
    static uint32_t entries[SUNDERWATH_MAX_TABLE];
    uint32_t two_rows[ROWS] = {
        3, 6, 0, 0,   GAP, 0, GAP, GAP, GAP, 0, GAP, 0,
        4, 5, 0, 0x0, GAP, 0, GAP, GAP, GAP, 1, GAP, 0};
    struct reading want = {{0, 0, 2}, two_rows, entries, ROWS, 0};
    struct board board;

    two_rows[SUNDERWATH_ROW_MPIDR_LOWER] = hash->mpidr;
    two_rows[SUNDERWATH_ROW_SLOT] = hash->slot;
    memset(entries, 0xFF, sizeof entries);
    entries[0] = 1;
    entries[hash->slot] = 0;
    want.table_n = (size_t)1 << hash->bits;
    want.answer[SUNDERWATH_ANSWER_MASK_LOW] = hash->mpidr;
    memcpy(want.answer + SUNDERWATH_ANSWER_SHIFTS, hash->shifts,
           sizeof hash->shifts);
    want.answer[SUNDERWATH_ANSWER_BITS] = hash->bits;
    want.answer[SUNDERWATH_ANSWER_SECOND] = NONE;
    whole_case_with(&board, hash->mpidr);
    report(hash->name, lengths(&board, &want));
}

/* No bits, and so a table of one entry. */
static void one_cpu(void)
{
    static const uint32_t row[SUNDERWATH_ROW_WORDS] = {
        3, 4, 0, 0x7, GAP, 0, GAP, GAP, GAP, 0, GAP, 0};
    static const uint32_t entry[1] = {0};
    static const struct reading want = {
        {0, 0, 1, 0, 0, 0, 8, 16, 32, 0, NONE},
        row, entry, SUNDERWATH_ROW_WORDS, 1};
    struct board board;

    start_board(&board);
    add_node(&board, 2, "core0");
    add_node(&board, 0, "cpu@7");
    add_cell(&board, 0, "#address-cells", 1);
    add_cell(&board, 0, "#size-cells", 0);
    add_cell(&board, 3, "cpu", 1);
    add_prop(&board, 4, "device_type", "cpu", 4);
    add_cell(&board, 4, "reg", 0x7);
    add_cell(&board, 4, "phandle", 1);
    report("one cpu, no bits", lengths(&board, &want));
}

static void accepted(void)
{
    static const struct hash hashes[] = {
        {"whole case, 1 bit", 0x100, 1, {0, 8, 15, 31}, 1},
        {"H7, 3 bits", 0x5, 5, {0, 5, 13, 29}, 3},
        {"7 bits, gaps between them", 0x82, 65, {1, 1, 9, 25}, 7},
        {"11 bits", 0x7FF, 2047, {0, 0, 5, 21}, 11},
        {"12 bits", 0xFFF, 4095, {0, 0, 4, 20}, 12},
        {"12 bits, gaps between them", 0x90081, 0x981, {0, 0, 8, 20}, 12}};
    size_t i;

    one_cpu();
    for (i = 0; i < sizeof hashes / sizeof *hashes; i++)
        two_cpus(hashes + i);
}

/* ---- refusals ---- */

/* A board is refused whatever the table's length. */
static int refused_by_all(const struct board *board, size_t words,
                          uint32_t number, uint32_t place, uint32_t second)
{
    static const size_t entries[] = {0, 1, 2, 4095, 4096, 8191, ENTRIES};
    size_t i;
    int good = 1;

    for (i = 0; i < sizeof entries / sizeof *entries; i++)
        good &= refused_with(board, words, entries[i], number, place, second);
    return good;
}

static void too_many_bits(void)
{
    static const uint32_t mpidrs[] = {0x1FFF, 0x110081, 0xFFFFFF};
    struct board board;
    size_t i, words;
    int good = 1, first = 1;

    for (i = 0; i < sizeof mpidrs / sizeof *mpidrs; i++) {
        whole_case_with(&board, mpidrs[i]);
        good &= refused_by_all(&board, ROWS, SUNDERWATH_SLOT_TABLE_BITS, 0,
                               NONE);
        for (words = 0; words < ROWS; words++)
            first &= refused_by_all(&board, words, 27, 0, NONE);
    }
    report("the header's names", SUNDERWATH_SLOT_TABLE_BITS == 38 &&
                                     SUNDERWATH_SLOT_TABLE_SPACE == 39 &&
                                     SUNDERWATH_MAX_TABLE_BITS == 12);
    report("38 before 39, 13 bits and 24", good);
    report("27 before 38", first);
}

/* Each is told before 39, too. */
static void earlier_rules(void)
{
    struct board board;

    whole_case(&board);
    report("27 before 39", refused_by_all(&board, ROWS - 1, 27, 0, NONE));
    board.width = WRONG_WIDTH;
    report("1 board width", refused_by_all(&board, ROWS, 1, 0, NONE));
    whole_case_with(&board, 0x1FFF);
    board.props[5 * 9 + 4] = 0xFFFFFFFF;
    report("7 property range", refused_by_all(&board, ROWS, 7, 9, NONE));
    whole_case_with(&board, 0x1FFF);
    board.props[5 * 3 + 3] = board.props[5 * 2 + 3];
    report("25 cpu repeated", refused_by_all(&board, ROWS, 25, 4, NONE));
    whole_case_with(&board, 0x1FFF);
    board.props[5 * 3 + 4]--;
    report("24 cpu cut", refused_by_all(&board, ROWS, 24, 4, 3));
}

/* A short answer: nothing is written, whatever the board is. */
static int writes_nothing(const struct board *board, size_t words,
                          size_t entries)
{
    size_t answer_n;
    int good = 1;

    for (answer_n = 0; answer_n < SUNDERWATH_ANSWER_WORDS; answer_n++) {
        good &= call(board, words, entries, answer_n) ==
                SUNDERWATH_ANSWER_SPACE;
        good &= holds(rows, ROW_ROOM, NULL, 0);
        good &= holds(table, TABLE_ROOM, NULL, 0);
        good &= holds(answer, ANSWER_ROOM, NULL, 0);
    }
    return good;
}

static void short_answers(void)
{
    struct board board;

    whole_case(&board);
    report("49 answer space", writes_nothing(&board, ROWS, 2));
    report("49 before 39", writes_nothing(&board, ROWS, 1));
    report("49 before 27", writes_nothing(&board, ROWS - 1, 2));
    whole_case_with(&board, 0x1FFF);
    report("49 before 38", writes_nothing(&board, ROWS, ENTRIES));
    board.width = WRONG_WIDTH;
    report("49 before 1", writes_nothing(&board, ROWS, 2));
}

/* ---- RISC-V boards ---- */

/* No slots: one entry, GAP, whatever the hart ids are; 39 with none. */
static void harts(void)
{
    static const uint32_t entry[1] = {GAP};
    uint32_t two_rows[ROWS];
    struct reading want = {{0}, two_rows, entry, ROWS, 1};
    struct board board;
    size_t i;
    int good = 1;

    memcpy(want.answer, answer_of_harts, sizeof answer_of_harts);
    for (i = 0; i < HART_PAIRS; i++) {
        whole_case_of(&board, SUNDERWATH_RISCV, hart_pairs[i][0],
                      hart_pairs[i][1]);
        rows_of_harts(two_rows, hart_pairs[i][0], hart_pairs[i][1]);
        good &= lengths(&board, &want);
    }
    report("RISC-V, one entry of GAP", good);
    report("39 no entry, RISC-V",
           refused(&board, ROWS, 0, SUNDERWATH_SLOT_TABLE_SPACE, 0));
}

/* Each is told before 39. */
static void refused_harts(void)
{
    struct board board;

    whole_case_of(&board, SUNDERWATH_RISCV, 0xFFFFFFFF, 0);
    report("27 before 39, RISC-V",
           refused_by_all(&board, ROWS - 1, SUNDERWATH_ROW_SPACE, 0, NONE));
    report("49 before 39, RISC-V", writes_nothing(&board, ROWS, 0));
    board.pool[board.props[3] + 3] = 2;
    report("36 two cells, RISC-V", refused_by_all(&board, ROWS, 36, 0, 0));
    whole_case_of(&board, SUNDERWATH_RISCV, 0xFFFFFFFF, 0xFFFFFFFF);
    report("13 equal hart ids", refused_by_all(&board, ROWS, 13, 6, NONE));
    whole_case_of(&board, SUNDERWATH_RISCV, 0xFFFFFFFF, 0);
    board.props[5 * REG_OF_5 + 4] = 8;
    report("12 hart id of 8 bytes",
           refused_by_all(&board, ROWS, SUNDERWATH_CPU_REG, 5, REG_OF_5));
    whole_case_of(&board, SUNDERWATH_ARM64, 0xFFFFFFFF, 0);
    report("12 the id as an MPIDR",
           refused_by_all(&board, ROWS, SUNDERWATH_CPU_REG, 6, REG_OF_6));
    whole_case_of(&board, SUNDERWATH_RISCV - 1, 1, 0);
    report("1 board 4", refused_by_all(&board, ROWS, 1, 0, NONE));
}

int main(void)
{
    accepted();
    too_many_bits();
    earlier_rules();
    short_answers();
    harts();
    refused_harts();
    printf("%d different\n", failures);
    return failures == 0 ? 0 : 1;
}
