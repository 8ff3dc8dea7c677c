/* SPDX-License-Identifier: BSD-2-Clause OR GPL-2.0-or-later */
/*
 * A loader in C: reads a flattened devicetree from a file with the two calls that take and write bytes only. It prints the answer and the
 * rows, with the columns of `sunderwath -p` and record numbers in place of names; then the slot that sunderwath_slot tells of each row's
 * MPIDR, which has to be that of the row. A RISC-V board has hart ids and no slots. A board that is refused is told in words.
 *
 *   gcc -Iinclude examples/loader.c include/sunderwath_text.c target/archive/x86_64/libsunderwath.a -o loader && ./loader board.dtb [BOARD]
 *
 * BOARD is the board number: 64 (which it is without one), 32 or, for RISC-V, 5.
 *
 * Exit status: 0 accepted, 1 refused, 2 wrong usage or a file that cannot be read, 3 the two calls do not keep what the header says.
 */
#include <stdio.h>
#include <stdlib.h>
#include <string.h>

#include "sunderwath.h"

enum { ACCEPTED, REFUSED, UNREADABLE, BROKEN };

/* One byte more than a blob may have, so that a longer file is told as 31. */
static uint8_t blob[SUNDERWATH_MAX_BLOB + 1];
static uint8_t rows[SUNDERWATH_MAX_CPUS * SUNDERWATH_ROW_BYTES];
static uint8_t list[SUNDERWATH_MAX_CPUS * SUNDERWATH_MPIDR_BYTES];

/* The little-endian word at a byte, whatever the machine's own order. */
static uint32_t word(const uint8_t *at)
{
    return (uint32_t)at[0] | (uint32_t)at[1] << 8 | (uint32_t)at[2] << 16 | (uint32_t)at[3] << 24;
}

static const uint8_t *row(uint32_t number)
{
    return rows + SUNDERWATH_ROW_BYTES * (size_t)number;
}

static uint32_t row_word(uint32_t number, int position)
{
    return word(row(number) + 4 * position);
}

static uint64_t mpidr(uint32_t number)
{
    return (uint64_t)row_word(number, SUNDERWATH_ROW_MPIDR_UPPER) << 32 | row_word(number, SUNDERWATH_ROW_MPIDR_LOWER);
}

static int broken(const char *what)
{
    fflush(stdout);
    fprintf(stderr, "loader: %s\n", what);
    return BROKEN;
}

static int untouched(const uint8_t *bytes, size_t count)
{
    size_t k;

    for (k = 0; k < count; k++)
        if (bytes[k] != 0xA5)
            return 0;
    return 1;
}

/* With a byte too few for the answer both calls tell 49 and write nothing. */
static int short_answers(uint32_t board, size_t bytes)
{
    uint8_t answer[SUNDERWATH_BYTES_ANSWER];
    size_t room = sizeof answer - 1;

    memset(answer, 0xA5, sizeof answer);
    memset(rows, 0xA5, sizeof rows);
    if (sunderwath_read_blob(board, blob, bytes, rows, sizeof rows, answer, room) != SUNDERWATH_ANSWER_SPACE)
        return broken("sunderwath_read_blob does not tell 49 of an answer of 15 bytes");
    if (sunderwath_slot(0, list, SUNDERWATH_MPIDR_BYTES, answer, room) != SUNDERWATH_ANSWER_SPACE)
        return broken("sunderwath_slot does not tell 49 of an answer of 15 bytes");
    if (!untouched(answer, sizeof answer) || !untouched(rows, sizeof rows))
        return broken("something is written though the answer has 15 bytes");
    return ACCEPTED;
}

/* Number, place, second place and count. The second place is a property record or none. */
static void print_answer(const uint8_t *answer)
{
    uint32_t second = word(answer + SUNDERWATH_BYTES_SECOND);

    printf("# number=%u place=%u ", (unsigned)word(answer + SUNDERWATH_BYTES_NUMBER), (unsigned)word(answer + SUNDERWATH_BYTES_PLACE));
    if (second == SUNDERWATH_NO_PROPERTY)
        printf("second=none ");
    else
        printf("second=%u ", (unsigned)second);
    printf("count=%u\n", (unsigned)word(answer + SUNDERWATH_BYTES_COUNT));
}

/* A number and what follows it; the number is left out where it is a gap. */
static void print_or_gap(uint32_t number, const char *end)
{
    if (number != SUNDERWATH_GAP)
        printf("%u", (unsigned)number);
    printf("%s", end);
}

/* An MPIDR in hexadecimal; on a RISC-V board the hart id, in decimal. */
static void print_id(uint32_t board, uint32_t number)
{
    if (board == SUNDERWATH_RISCV)
        printf("%u,", (unsigned)row_word(number, SUNDERWATH_ROW_HART));
    else
        printf("0x%llx,", (unsigned long long)mpidr(number));
}

/* The numbers of nested clusters, outermost first, as in 0/1. */
static void print_clusters(uint32_t number)
{
    int depth;

    for (depth = 0; depth < 4; depth++) {
        uint32_t cluster = row_word(number, SUNDERWATH_ROW_CLUSTERS + depth);
        if (cluster != SUNDERWATH_GAP)
            printf("%s%u", depth == 0 ? "" : "/", (unsigned)cluster);
    }
    printf(",");
}

/* Every word is a slot, but on a RISC-V board a gap. */
static void print_slot(uint32_t board, uint32_t number)
{
    uint32_t slot = row_word(number, SUNDERWATH_ROW_SLOT);

    if (board == SUNDERWATH_RISCV)
        print_or_gap(slot, "\n");
    else
        printf("%u\n", (unsigned)slot);
}

static void print_row(uint32_t board, uint32_t number)
{
    printf("%u,%u,", (unsigned)row_word(number, SUNDERWATH_ROW_LEAF), (unsigned)row_word(number, SUNDERWATH_ROW_CPU));
    print_id(board, number);
    print_or_gap(row_word(number, SUNDERWATH_ROW_SOCKET), ",");
    print_clusters(number);
    printf("%u,", (unsigned)row_word(number, SUNDERWATH_ROW_CORE));
    print_or_gap(row_word(number, SUNDERWATH_ROW_THREAD), ",");
    print_slot(board, number);
}

/* All MPIDRs as bytes, eight each, the lowest first. */
static void fill_list(uint32_t count)
{
    uint32_t number;
    int k;

    for (number = 0; number < count; number++)
        for (k = 0; k < SUNDERWATH_MPIDR_BYTES; k++)
            list[SUNDERWATH_MPIDR_BYTES * (size_t)number + (size_t)k] = (uint8_t)(mpidr(number) >> 8 * k & 0xFF);
}

/* The slot of each MPIDR in the list of all has to be that of its row. */
static int print_slots(uint32_t count)
{
    uint8_t answer[SUNDERWATH_BYTES_ANSWER];
    uint32_t number;

    fill_list(count);
    for (number = 0; number < count; number++) {
        if (sunderwath_slot(mpidr(number), list, SUNDERWATH_MPIDR_BYTES * (size_t)count, answer, sizeof answer) != SUNDERWATH_ACCEPTED)
            return broken("an MPIDR of a row has no slot");
        if (word(answer + SUNDERWATH_BYTES_COUNT) != row_word(number, SUNDERWATH_ROW_SLOT))
            return broken("the slot of an MPIDR is not that of its row");
        printf("mpidr 0x%llx: slot %u\n", (unsigned long long)mpidr(number), (unsigned)word(answer + SUNDERWATH_BYTES_COUNT));
    }
    return ACCEPTED;
}

/* Number, check name and sentence. The answer has no count then, and no row is written. */
static int refused(const uint8_t *answer)
{
    uint32_t told = word(answer + SUNDERWATH_BYTES_NUMBER);

    fflush(stdout);
    fprintf(stderr, "ERROR %u (%s): %s\n", (unsigned)told, sunderwath_check_name(told), sunderwath_strerror(told));
    if (word(answer + SUNDERWATH_BYTES_COUNT) != 0 || !untouched(rows, sizeof rows))
        return broken("a refusal has a count or rows");
    return REFUSED;
}

static int accepted(uint32_t board, uint32_t count)
{
    uint32_t number;

    if (count > SUNDERWATH_MAX_CPUS || !untouched(row(count), SUNDERWATH_ROW_BYTES * (size_t)(SUNDERWATH_MAX_CPUS - count)))
        return broken("something is written behind the last row");
    printf("# leaf,cpu,%s,socket,cluster,core,thread,slot\n", board == SUNDERWATH_RISCV ? "hart" : "mpidr");
    for (number = 0; number < count; number++)
        print_row(board, number);
    return board == SUNDERWATH_RISCV ? ACCEPTED : print_slots(count);
}

static int load(uint32_t board, size_t bytes)
{
    uint8_t answer[SUNDERWATH_BYTES_ANSWER];
    uint32_t told = sunderwath_read_blob(board, blob, bytes, rows, sizeof rows, answer, sizeof answer);

    if (told != word(answer + SUNDERWATH_BYTES_NUMBER))
        return broken("the number that is returned is not that of the answer");
    print_answer(answer);
    return told == SUNDERWATH_ACCEPTED ? accepted(board, word(answer + SUNDERWATH_BYTES_COUNT)) : refused(answer);
}

/* Any number is lent to the call, which tells 1 of a board that it does not know. */
static int read_board(const char *text, uint32_t *board)
{
    char *end;
    unsigned long value = strtoul(text, &end, 10);

    *board = (uint32_t)value;
    return *text >= '0' && *text <= '9' && *end == '\0' && value <= 0xFFFFFFFFu;
}

static int read_file(const char *name, size_t *bytes)
{
    FILE *file = fopen(name, "rb");
    int good;

    if (!file)
        return 0;
    *bytes = fread(blob, 1, sizeof blob, file);
    good = !ferror(file);
    fclose(file);
    return good;
}

int main(int count, char **arguments)
{
    uint32_t board = SUNDERWATH_ARM64;
    size_t bytes = 0;
    int status;

    if (count < 2 || count > 3 || (count == 3 && !read_board(arguments[2], &board))) {
        fprintf(stderr, "usage: loader FILE.dtb [BOARD]\n");
        return UNREADABLE;
    }
    if (!read_file(arguments[1], &bytes)) {
        fprintf(stderr, "loader: cannot read %s\n", arguments[1]);
        return UNREADABLE;
    }
    status = short_answers(board, bytes);
    return status == ACCEPTED ? load(board, bytes) : status;
}
