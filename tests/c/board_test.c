/* SPDX-License-Identifier: BSD-2-Clause OR GPL-2.0-or-later */
/*
 * Calls read_tables, check_tables and find_property from C on the whole case
 * of the scope paper and on some refusals, those with a second place among
 * them, and on RISC-V boards. Prints a line per case; exit status 1 on a
 * difference.
 */
#include "board.h"

#include <stdio.h>

#define ANSWER_ROOM (SUNDERWATH_ANSWER_WORDS + 2 * GUARD)

static int failures;

static void report(const char *name, int good)
{
    printf("%-28s %s\n", name, good ? "ok" : "DIFFERENT");
    if (!good)
        failures++;
}

/* Reads into a buffer of `words` words and into answers of the stated words and
 * of more, all between guards, and compares all. */
static int reads_as(const struct board *board, size_t words,
                    const uint32_t want[SUNDERWATH_ANSWER_WORDS],
                    const uint32_t *want_rows)
{
    uint32_t rows[ROWS + 2 * GUARD], answer[ANSWER_ROOM];
    size_t more;
    int good = 1;

    for (more = 0; more <= GUARD; more++) {
        memset(rows, 0xA5, sizeof rows);
        memset(answer, 0xA5, sizeof answer);
        good &= sunderwath_read_tables(
                    board->width, board->nodes, board->n, board->props,
                    board->p, board->pool, board->bytes, rows + GUARD, words,
                    answer + GUARD, SUNDERWATH_ANSWER_WORDS + more) == want[0];
        good &= holds(answer, ANSWER_ROOM, want, SUNDERWATH_ANSWER_WORDS);
        good &= holds(rows, ROWS + 2 * GUARD, want_rows,
                      want_rows == NULL ? 0 : ROWS);
    }
    return good;
}

static int refused_with(const struct board *board, size_t words,
                        uint32_t number, uint32_t place, uint32_t second)
{
    uint32_t want[SUNDERWATH_ANSWER_WORDS] = {0};

    want[SUNDERWATH_ANSWER_NUMBER] = number;
    want[SUNDERWATH_ANSWER_PLACE] = place;
    want[SUNDERWATH_ANSWER_SECOND] = second;
    return reads_as(board, words, want, NULL);
}

static int refused(const struct board *board, size_t words, uint32_t number,
                   uint32_t place)
{
    return refused_with(board, words, number, place, NONE);
}

static void accepted(void)
{
    static const uint32_t answer[SUNDERWATH_ANSWER_WORDS] = {
        0, 0, 2, 0x100, 0, 0, 8, 15, 31, 1, NONE};
    static const uint32_t rows[ROWS] = {
        3, 6, 0, 0x100, GAP, 0, GAP, GAP, GAP, 0, GAP, 1,
        4, 5, 0, 0x0,   GAP, 0, GAP, GAP, GAP, 1, GAP, 0};
    struct board board;

    whole_case(&board);
    report("whole case", reads_as(&board, ROWS, answer, rows));
    report("whole case, more room", reads_as(&board, ROWS + 3, answer, rows));
    report("27 row space", refused(&board, ROWS - 1, 27, 0));
    report("27 no room", refused(&board, 0, 27, 0));
}

static void refusals(void)
{
    struct board board;

    whole_case(&board);
    board.width = WRONG_WIDTH;
    report("1 board width", refused(&board, ROWS, 1, 0));
    whole_case(&board);
    board.n--;
    report("2 node table size", refused(&board, ROWS, 2, 0));
    whole_case(&board);
    board.nodes[3 * 4] = 4;
    report("6 node parent order", refused(&board, ROWS, 6, 4));
    whole_case(&board);
    board.props[5 * 9 + 4] = 0xFFFFFFFF;
    report("7 property range", refused(&board, ROWS, 7, 9));
    whole_case(&board);
    board.nodes[3 * 1 + 2] = 3; /* the name is now "cpu" */
    report("11 no device type", refused(&board, ROWS, 11, 1));
    whole_case(&board);
    board.props[5 * 3 + 3] = board.props[5 * 2 + 3];
    report("25 cpu repeated", refused(&board, ROWS, 25, 4));
}

/* A property record's name is cut by a byte, so that it is missing. */
static void missing(const char *name, uint32_t prop, uint32_t number,
                    uint32_t place)
{
    struct board board;

    whole_case(&board);
    board.props[5 * prop + 2]--;
    report(name, refused(&board, ROWS, number, place));
}

/* A property record's value is cut by a byte. */
static void cut(const char *name, uint32_t prop, uint32_t number,
                uint32_t place)
{
    struct board board;

    whole_case(&board);
    board.props[5 * prop + 4]--;
    report(name, refused_with(&board, ROWS, number, place, prop));
}

/* The last byte of a property record's value is changed. */
static void changed(const char *name, uint32_t prop, uint8_t byte,
                    uint32_t number, uint32_t place)
{
    struct board board;
    const uint32_t *words = board.props + 5 * prop;

    whole_case(&board);
    board.pool[words[3] + words[4] - 1] = byte;
    report(name, refused_with(&board, ROWS, number, place, prop));
}

/* The property records are those of the whole case, in its order. */
static void second_places(void)
{
    struct board board;

    whole_case(&board);
    board.nodes[2] = 3; /* the name is now "cpu" */
    board.props[2]--;
    report("9 name and cells", refused(&board, ROWS, 9, 0));
    missing("36 no #address-cells", 0, 36, 0);
    cut("36 #address-cells cut", 0, 36, 0);
    changed("36 #address-cells 3", 0, 3, 36, 0);
    missing("37 no #size-cells", 1, 37, 0);
    cut("37 #size-cells cut", 1, 37, 0);
    changed("37 #size-cells 1", 1, 1, 37, 0);
    missing("11 no device_type", 7, 11, 6);
    cut("11 device_type cut", 7, 11, 6);
    changed("11 device_type cpux", 4, 'x', 11, 5);
    missing("12 no reg", 8, 12, 6);
    cut("12 reg cut", 5, 12, 5);
    missing("17 no phandle", 6, 17, 5);
    cut("17 phandle cut", 9, 17, 6);
    changed("17 phandle repeated", 9, 1, 17, 6);
    missing("24 no cpu", 3, 24, 4);
    cut("24 cpu cut", 2, 24, 3);
    changed("24 cpu 9", 3, 9, 24, 4);
}

/* 36 on width 32, and a bit of reg outside the affinity bits. */
static void other_second_places(void)
{
    struct board board;

    whole_case(&board);
    board.width = 32;
    board.pool[board.props[3] + 3] = 2;
    report("36 two cells on width 32", refused_with(&board, ROWS, 36, 0, 0));
    whole_case(&board);
    board.pool[board.props[5 * 8 + 3]] = 1;
    report("12 reg with bit 24", refused_with(&board, ROWS, 12, 6, 8));
    whole_case(&board);
    board.pool[board.props[5 * 8 + 3] + 2] = 0;
    report("13 reg repeated", refused(&board, ROWS, 13, 6));
}

/* With a short answer read_tables and check_tables write nothing. */
static int writes_nothing(const struct board *board)
{
    uint32_t rows[ROWS + 2 * GUARD], answer[ANSWER_ROOM];
    size_t words;
    int good = 1;

    memset(rows, 0xA5, sizeof rows);
    memset(answer, 0xA5, sizeof answer);
    for (words = 0; words < SUNDERWATH_ANSWER_WORDS; words++) {
        good &= sunderwath_read_tables(
                    board->width, board->nodes, board->n, board->props,
                    board->p, board->pool, board->bytes, rows + GUARD, ROWS,
                    answer + GUARD, words) == SUNDERWATH_ANSWER_SPACE;
        good &= sunderwath_check_tables(
                    board->width, board->nodes, board->n, board->props,
                    board->p, board->pool, board->bytes, answer + GUARD,
                    words) == SUNDERWATH_ANSWER_SPACE;
        good &= holds(rows, ROWS + 2 * GUARD, NULL, 0);
        good &= holds(answer, ANSWER_ROOM, NULL, 0);
    }
    return good;
}

/* Rules 1 to 8 alone have no second place. */
static int checks_as(const struct board *board, uint32_t number, uint32_t place)
{
    uint32_t want[SUNDERWATH_ANSWER_WORDS] = {number, place};
    uint32_t answer[ANSWER_ROOM];
    uint32_t told;

    want[SUNDERWATH_ANSWER_SECOND] = NONE;
    memset(answer, 0xA5, sizeof answer);
    told = sunderwath_check_tables(board->width, board->nodes, board->n,
                                   board->props, board->p, board->pool,
                                   board->bytes, answer + GUARD,
                                   SUNDERWATH_ANSWER_WORDS + 1);
    return told == number &&
           holds(answer, ANSWER_ROOM, want, SUNDERWATH_ANSWER_WORDS);
}

static uint32_t find(const struct board *board, uint32_t node, const char *name)
{
    return sunderwath_find_property(board->props, board->p, board->pool,
                                    board->bytes, node, (const uint8_t *)name,
                                    strlen(name));
}

/* A record that breaks rule 7 does not matter behind the match. Each word of
 * the last record is broken in turn, and then all of them. */
static void lookups(void)
{
    struct board board;
    uint32_t *last = board.props + 5 * (PROPS - 1);
    uint32_t word;
    int good = 1;

    whole_case(&board);
    report("find_property", find(&board, 6, "reg") == 8);
    report("find_property, none", find(&board, 2, "reg") == NONE);
    report("find_property, last record", find(&board, 6, "phandle") == 9);
    for (word = 0; word < SUNDERWATH_PROPERTY_WORDS; word++) {
        whole_case(&board);
        last[word] = 0xFFFFFFFF;
        good &= checks_as(&board, 7, 9) && find(&board, 6, "reg") == 8;
    }
    memset(last, 0xFF, SUNDERWATH_PROPERTY_WORDS * sizeof *last);
    good &= checks_as(&board, 7, 9) && find(&board, 6, "reg") == 8;
    report("find_property, 7 behind it", good);
}

static void test_calls(void)
{
    struct board board;

    whole_case(&board);
    report("49 answer space", writes_nothing(&board));
    report("check_tables", checks_as(&board, 0, 0));
    board.nodes[2] = 3; /* no rule of check_tables */
    report("check_tables, name", checks_as(&board, 0, 0));
    board.props[5 * 9 + 4] = 0xFFFFFFFF;
    report("check_tables, 7", checks_as(&board, 7, 9));
    board.width = WRONG_WIDTH;
    report("49 before 1", writes_nothing(&board));
    whole_case(&board);
    board.width = SUNDERWATH_RISCV;
    report("check_tables, RISC-V", checks_as(&board, 0, 0));
    report("49 answer space, RISC-V", writes_nothing(&board));
    board.props[5 * 9 + 4] = 0xFFFFFFFF;
    report("check_tables, RISC-V, 7", checks_as(&board, 7, 9));
}

/* ---- RISC-V boards ---- */

/* Each pair is accepted as hart ids; as MPIDRs 12 is told of the lowest record
 * with a bit outside. */
static void accepted_harts(void)
{
    uint32_t rows[ROWS];
    struct board board;
    size_t i;
    int good = 1, outside = 1;

    for (i = 0; i < HART_PAIRS; i++) {
        const uint32_t *pair = hart_pairs[i];
        uint32_t width = i % 2 == 0 ? SUNDERWATH_ARM32 : SUNDERWATH_ARM64;
        int first = pair[1] >> 24 != 0;

        whole_case_of(&board, SUNDERWATH_RISCV, pair[0], pair[1]);
        rows_of_harts(rows, pair[0], pair[1]);
        good &= reads_as(&board, ROWS, answer_of_harts, rows);
        good &= reads_as(&board, ROWS + 3, answer_of_harts, rows);
        good &= refused(&board, ROWS - 1, SUNDERWATH_ROW_SPACE, 0);
        board.width = width;
        if ((pair[0] | pair[1]) >> 24 != 0)
            outside &= refused_with(&board, ROWS, SUNDERWATH_CPU_REG,
                                    first ? 5 : 6, first ? REG_OF_5 : REG_OF_6);
    }
    report("the header's names",
           SUNDERWATH_ARM32 == 32 && SUNDERWATH_ARM64 == 64 &&
               SUNDERWATH_RISCV == 5 && SUNDERWATH_ROW_HART == 3);
    report("RISC-V hart ids", good);
    report("12 the same as MPIDRs", outside);
}

/* A bit at a time: ids that differ in it are accepted, equal ones are 13. */
static void equal_harts(void)
{
    uint32_t rows[ROWS];
    struct board board;
    unsigned at;
    int good = 1, equal = 1;

    for (at = 0; at < 32; at++) {
        uint32_t id = UINT32_C(1) << at;

        whole_case_of(&board, SUNDERWATH_RISCV, id, 0);
        rows_of_harts(rows, id, 0);
        good &= reads_as(&board, ROWS, answer_of_harts, rows);
        whole_case_of(&board, SUNDERWATH_RISCV, ~id, 0xFFFFFFFF);
        rows_of_harts(rows, ~id, 0xFFFFFFFF);
        good &= reads_as(&board, ROWS, answer_of_harts, rows);
        whole_case_of(&board, SUNDERWATH_RISCV, id, id);
        equal &= refused(&board, ROWS, SUNDERWATH_DUPLICATE_CPU_REG, 6);
    }
    report("RISC-V ids of one bit", good);
    report("13 equal hart ids", equal);
}

/* One address cell, and reg of four bytes. */
static void cells_of_harts(void)
{
    uint32_t reg;
    struct board board;
    int good = 1;

    whole_case_of(&board, SUNDERWATH_RISCV, 1, 0);
    board.pool[board.props[3] + 3] = 2;
    report("36 two cells, RISC-V", refused_with(&board, ROWS, 36, 0, 0));
    board.props[5 * REG_OF_5 + 4] = board.props[5 * REG_OF_6 + 4] = 8;
    report("36 two cells, reg of two", refused_with(&board, ROWS, 36, 0, 0));
    for (reg = 0; reg <= 9; reg++) {
        whole_case_of(&board, SUNDERWATH_RISCV, 0xFFFFFFFF, 0);
        board.props[5 * REG_OF_6 + 4] = reg;
        if (reg != 4)
            good &= refused_with(&board, ROWS, SUNDERWATH_CPU_REG, 6, REG_OF_6);
    }
    report("12 length of a hart id", good);
    whole_case_of(&board, SUNDERWATH_RISCV, 0xFFFFFFFF, 0);
    board.props[5 * REG_OF_5 + 2]--;
    report("12 no hart id", refused(&board, ROWS, SUNDERWATH_CPU_REG, 5));
}

/* Rules behind them are those of the other boards. */
static void map_of_harts(void)
{
    struct board board;

    whole_case_of(&board, SUNDERWATH_RISCV, 0xFFFFFFFF, 0);
    board.props[5 * 3 + 3] = board.props[5 * 2 + 3];
    report("25 hart repeated", refused(&board, ROWS, 25, 4));
    whole_case_of(&board, SUNDERWATH_RISCV, 0xFFFFFFFF, 0);
    board.props[5 * 3 + 2]--;
    report("24 no hart", refused(&board, ROWS, 24, 4));
    whole_case_of(&board, SUNDERWATH_RISCV, 0xFFFFFFFF, 0);
    board.props[5 * 9 + 4]--;
    report("17 phandle cut, RISC-V", refused_with(&board, ROWS, 17, 6, 9));
}

/* Every other board number is 1. */
static void widths(void)
{
    static const uint32_t wrong[] = {0, 1, 4, 6, 7, 31, 33, 63, 65, 0xFFFFFFFF};
    struct board board;
    size_t i;
    unsigned at;
    int good = 1;

    whole_case(&board);
    for (i = 0; i < sizeof wrong / sizeof *wrong; i++) {
        board.width = wrong[i];
        good &= refused(&board, ROWS, SUNDERWATH_BOARD_WIDTH, 0);
        good &= checks_as(&board, SUNDERWATH_BOARD_WIDTH, 0);
    }
    for (at = 0; at < 32; at++) {
        board.width = SUNDERWATH_RISCV + (UINT32_C(1) << at);
        good &= refused(&board, ROWS, SUNDERWATH_BOARD_WIDTH, 0);
        good &= checks_as(&board, SUNDERWATH_BOARD_WIDTH, 0);
    }
    report("1 other board numbers", good);
}

int main(void)
{
    accepted();
    refusals();
    second_places();
    other_second_places();
    lookups();
    test_calls();
    puts("the same refusals of RISC-V boards");
    board_width = SUNDERWATH_RISCV;
    refusals();
    second_places();
    accepted_harts();
    equal_harts();
    cells_of_harts();
    map_of_harts();
    widths();
    printf("%d different\n", failures);
    return failures == 0 ? 0 : 1;
}
