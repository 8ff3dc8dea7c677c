/* SPDX-License-Identifier: BSD-2-Clause OR GPL-2.0-or-later */
/*
 * Calls read_blob and slot from C: the whole case of the scope paper as a blob,
 * rows and answers of every length, blobs and boards that are refused, RISC-V
 * boards, the limits of the blob call, and lists of bytes. Each part is lent as
 * an allocation of its own length, so that valgrind sees a byte touched
 * outside, and between guards from any start. Prints a line per case; exit
 * status 1 on a difference.
 */
#include "blob.h"
#include "sunderwath.h"

#include <stdio.h>
#include <stdlib.h>
#include <string.h>

#define GUARD 64
#define NONE SUNDERWATH_NO_PROPERTY
#define GAP SUNDERWATH_GAP
#define CPUS 2
#define ROWS (CPUS * SUNDERWATH_ROW_BYTES)
#define MOST_ROWS 1000
#define LIST 300
#define WRONG_WIDTH 33

/* Offsets in the blob: the cell of #address-cells, those of the first and the
 * last cpu node's reg, and the end token. */
struct places {
    size_t address_cells, first_reg, reg, end;
};

/* What a call has to return and write: number, place, second place, count or
 * slot; then row words. */
struct told {
    uint32_t words[4];
    const uint32_t *rows;
    size_t rows_n;
};

/* A lent part of n bytes, with guards around it or alone. */
struct part {
    uint8_t *all, *lent;
    size_t n, guard, start;
};

static struct blob blob;
static struct places places;
static int failures;

static void report(const char *name, int good)
{
    printf("%-36s %s\n", name, good ? "ok" : "DIFFERENT");
    if (!good)
        failures++;
}

/* ---- lent parts ---- */

static uint8_t pattern(size_t at)
{
    return (uint8_t)(1 + at * 37 % 253);
}

/* A start that is negative lends an allocation of n bytes and no more. */
static struct part new_part(size_t n, int start)
{
    struct part part = {NULL, NULL, n, start < 0 ? 0 : GUARD,
                        start < 0 ? 0 : (size_t)start};
    size_t total = part.guard + part.start + n + part.guard, i;

    part.all = malloc(total > 0 ? total : 1);
    if (part.all == NULL)
        abort();
    for (i = 0; i < total; i++)
        part.all[i] = pattern(i);
    part.lent = part.all + part.guard + part.start;
    return part;
}

static struct part part_of(const uint8_t *bytes, size_t n, int start)
{
    struct part part = new_part(n, start);

    if (n > 0)
        memcpy(part.lent, bytes, n);
    return part;
}

/* The byte of a list of words, each with its lowest byte first. */
static uint8_t byte_of(const uint32_t *words, size_t at)
{
    return (uint8_t)(words[at / 4] >> 8 * (at % 4));
}

/* Whether a part holds these words from its start, and the pattern else. */
static int holds(const struct part *part, const uint32_t *words, size_t words_n)
{
    size_t before = part->guard + part->start, i;
    size_t total = before + part->n + part->guard;
    int good = 1;

    for (i = 0; i < total; i++) {
        int inside = i >= before && i - before < 4 * words_n;

        good &= part->all[i] ==
                (inside ? byte_of(words, i - before) : pattern(i));
    }
    return good;
}

/* Whether a part still holds the bytes it was made of. */
static int same(const struct part *part, const uint8_t *bytes)
{
    struct part before = part_of(bytes, part->n,
                                 part->guard > 0 ? (int)part->start : -1);
    size_t total = part->guard + part->start + part->n + part->guard;
    int good = memcmp(before.all, part->all, total) == 0;

    free(before.all);
    return good;
}

/* ---- the calls ---- */

/* Reads the blob into rows and an answer of these lengths; all parts start at
 * `start`. */
static int reads_from(int start, uint32_t width, size_t rows_n, size_t answer_n,
                      const struct told *want)
{
    struct part bytes = part_of(blob.bytes, blob.n, start);
    struct part rows = new_part(rows_n, start);
    struct part answer = new_part(answer_n, start);
    uint32_t number = sunderwath_read_blob(width, bytes.lent, bytes.n,
                                           rows.lent, rows.n, answer.lent,
                                           answer.n);
    int written = want->words[0] != SUNDERWATH_ANSWER_SPACE;
    int good = number == want->words[0] &&
               holds(&answer, want->words, written ? 4 : 0) &&
               holds(&rows, want->rows, want->rows_n) &&
               same(&bytes, blob.bytes);

    free(bytes.all);
    free(rows.all);
    free(answer.all);
    return good;
}

static int reads_as(uint32_t width, size_t rows_n, size_t answer_n,
                    const struct told *want)
{
    int start, good = 1;

    for (start = -1; start < 4; start++)
        good &= reads_from(start, width, rows_n, answer_n, want);
    return good;
}

/* The blob is refused with every length of answer, and no row changes. */
static int refused_with(uint32_t width, size_t rows_n, uint32_t number,
                        uint32_t place, uint32_t second)
{
    const struct told want = {{number, place, second, 0}, NULL, 0};
    const struct told nothing = {{SUNDERWATH_ANSWER_SPACE}, NULL, 0};

    return reads_as(width, rows_n, SUNDERWATH_BYTES_ANSWER, &want) &&
           reads_as(width, rows_n, SUNDERWATH_BYTES_ANSWER + 5, &want) &&
           reads_as(width, rows_n, SUNDERWATH_BYTES_ANSWER - 1, &nothing) &&
           reads_as(width, rows_n, 0, &nothing);
}

static int refused(uint32_t number, uint32_t place, uint32_t second)
{
    return refused_with(64, MOST_ROWS, number, place, second);
}

static int slot_from(int start, uint64_t mpidr, const uint8_t *list, size_t n,
                     size_t answer_n, const uint32_t want[4])
{
    struct part bytes = part_of(list, n, start);
    struct part answer = new_part(answer_n, start);
    uint32_t number = sunderwath_slot(mpidr, bytes.lent, bytes.n, answer.lent,
                                      answer.n);
    int written = want[0] != SUNDERWATH_ANSWER_SPACE;
    int good = number == want[0] && holds(&answer, want, written ? 4 : 0) &&
               same(&bytes, list);

    free(bytes.all);
    free(answer.all);
    return good;
}

/* The answer of a slot question, for answers of every length. */
static int slot_is(uint64_t mpidr, const uint8_t *list, size_t n,
                   uint32_t number, uint32_t place, uint32_t slot)
{
    const uint32_t want[4] = {number, place, NONE, slot};
    const uint32_t nothing[4] = {SUNDERWATH_ANSWER_SPACE, 0, 0, 0};
    size_t answer_n;
    int start, good = 1;

    for (answer_n = 0; answer_n <= SUNDERWATH_BYTES_ANSWER + 4; answer_n++) {
        const uint32_t *told =
            answer_n < SUNDERWATH_BYTES_ANSWER ? nothing : want;

        for (start = -1; start < 4; start++)
            good &= slot_from(start, mpidr, list, n, answer_n, told);
    }
    return good;
}

/* ---- building blobs ---- */

static void put_cell(const char *name, uint32_t value)
{
    const uint8_t cell[4] = {(uint8_t)(value >> 24), (uint8_t)(value >> 16),
                             (uint8_t)(value >> 8), (uint8_t)value};

    put_prop(&blob, name, cell, sizeof cell);
}

static void put_leaf(const char *name, uint32_t phandle)
{
    put_begin(&blob, name);
    put_cell("cpu", phandle);
    put_word(&blob, END_NODE);
}

static void put_cpu(const char *name, uint32_t mpidr, uint32_t phandle)
{
    put_begin(&blob, name);
    put_prop(&blob, "device_type", "cpu", 4);
    places.reg = blob.n + 12;
    put_cell("reg", mpidr);
    put_cell("phandle", phandle);
    put_word(&blob, END_NODE);
}

/* Nodes without a name that a rule speaks of; the first have a property, or
 * two where there are more properties than nodes. */
static void put_others(size_t nodes, size_t props)
{
    size_t i;

    for (i = 0; i < nodes; i++) {
        put_begin(&blob, "x");
        if (i < props)
            put_prop(&blob, "p", "", 0);
        if (i + nodes < props)
            put_prop(&blob, "q", "", 0);
        put_word(&blob, END_NODE);
    }
}

/* The whole case of 7 nodes and 10 properties, with others in /cpus and with as
 * many nodes and properties outside it. */
static void whole_case_with(size_t nodes, size_t props, size_t outside)
{
    start_blob(&blob);
    put_others(outside / 2, outside / 2);
    put_begin(&blob, "cpus");
    places.address_cells = blob.n + 12;
    put_cell("#address-cells", 1);
    put_cell("#size-cells", 0);
    put_begin(&blob, "cpu-map");
    put_begin(&blob, "cluster0");
    put_leaf("core0", 2);
    put_leaf("core1", 1);
    put_word(&blob, END_NODE);
    put_word(&blob, END_NODE);
    put_cpu("cpu@0", 0x0, 1);
    places.first_reg = places.reg;
    put_cpu("cpu@100", 0x100, 2);
    put_others(nodes, props);
    put_word(&blob, END_NODE);
    put_others(outside - outside / 2, outside - outside / 2);
    put_word(&blob, END_NODE);
    places.end = blob.n;
    put_word(&blob, END);
    finish_blob(&blob);
}

static void whole_case(void)
{
    whole_case_with(0, 0, 0);
}

static const uint32_t whole_rows[CPUS * SUNDERWATH_ROW_WORDS] = {
    3, 6, 0, 0x100, GAP, 0, GAP, GAP, GAP, 0, GAP, 1,
    4, 5, 0, 0x0,   GAP, 0, GAP, GAP, GAP, 1, GAP, 0};
static const struct told whole = {
    {0, 0, NONE, CPUS}, whole_rows, CPUS * SUNDERWATH_ROW_WORDS};

/* ---- accepted blobs, and the room ---- */

static void names_and_bytes(void)
{
    static const uint8_t answer[SUNDERWATH_BYTES_ANSWER] = {
        0, 0, 0, 0, 0, 0, 0, 0, 0xFF, 0xFF, 0xFF, 0xFF, 2, 0, 0, 0};
    static const uint8_t start[16] = {3, 0, 0, 0, 6, 0, 0, 0,
                                      0, 0, 0, 0, 0, 1, 0, 0};
    uint8_t rows[ROWS], told[SUNDERWATH_BYTES_ANSWER];

    report("the header's names",
           SUNDERWATH_BYTES_ANSWER == 16 && SUNDERWATH_BYTES_NUMBER == 0 &&
               SUNDERWATH_BYTES_PLACE == 4 && SUNDERWATH_BYTES_SECOND == 8 &&
               SUNDERWATH_BYTES_COUNT == 12 && SUNDERWATH_ROW_BYTES == 48 &&
               SUNDERWATH_MPIDR_BYTES == 8 &&
               SUNDERWATH_BLOB_MAX_NODES == 1024 &&
               SUNDERWATH_BLOB_MAX_PROPERTIES == 1024);
    whole_case();
    report("bytes by hand",
           sunderwath_read_blob(64, blob.bytes, blob.n, rows, sizeof rows, told,
                                sizeof told) == 0 &&
               memcmp(told, answer, sizeof answer) == 0 &&
               memcmp(rows, start, sizeof start) == 0);
}

static void lengths(void)
{
    const struct told short_of = {
        {SUNDERWATH_ROW_SPACE, 0, NONE, 0}, NULL, 0};
    const struct told nothing = {{SUNDERWATH_ANSWER_SPACE}, NULL, 0};
    size_t n;
    int good = 1;

    whole_case();
    for (n = 0; n < ROWS; n++)
        good &= reads_as(64, n, SUNDERWATH_BYTES_ANSWER, &short_of);
    report("27 rows of 0 to 95 bytes", good);
    for (n = ROWS, good = 1; n < ROWS + SUNDERWATH_ROW_BYTES + 7; n++)
        good &= reads_as(64, n, SUNDERWATH_BYTES_ANSWER, &whole);
    report("rows of 96 bytes and more", good);
    for (n = 0, good = 1; n < SUNDERWATH_BYTES_ANSWER; n++)
        good &= reads_as(64, ROWS, n, &nothing) && reads_as(64, 0, n, &nothing);
    report("49 answers of 0 to 15 bytes", good);
    for (good = 1; n < 3 * SUNDERWATH_BYTES_ANSWER; n++)
        good &= reads_as(32, MOST_ROWS, n, &whole);
    report("answers of 16 bytes and more", good);
}

/* ---- refusals ---- */

/* The whole case with one word changed: refused, with a wrong width too. */
static void changed(const char *name, size_t at, uint32_t word,
                    uint32_t number, uint32_t place)
{
    whole_case();
    set_word(&blob, at, word);
    report(name, refused(number, place, NONE) &&
                     refused_with(SUNDERWATH_RISCV, 0, number, place, NONE) &&
                     refused_with(WRONG_WIDTH, 0, number, place, NONE));
}

static void blobs(void)
{
    size_t n;
    int good = 1;

    whole_case();
    n = blob.n;
    changed("31 magic", 0, 0xEDFE0DD0, SUNDERWATH_BLOB_HEADER, 0);
    changed("31 version", 20, 16, SUNDERWATH_BLOB_HEADER, 0);
    changed("32 total size", 4, (uint32_t)n - 1, SUNDERWATH_BLOB_BLOCKS, 0);
    changed("32 structure offset", 8, 0xFFFFFFF0, SUNDERWATH_BLOB_BLOCKS, 0);
    changed("33 end token", places.end, NOP, SUNDERWATH_BLOB_STRUCTURE,
            (uint32_t)places.end + 4);
    changed("33 begin token", STRUCTURE + 8, 8, SUNDERWATH_BLOB_STRUCTURE,
            STRUCTURE + 8);
    changed("34 no cpus", STRUCTURE + 12, 0x63707573 + 1, SUNDERWATH_BLOB_CPUS,
            0);
    whole_case();
    while (blob.n-- > 0)
        good &= refused(SUNDERWATH_BLOB_HEADER, 0, NONE);
    report("31 every truncation", good);
}

static void widths(void)
{
    static const uint32_t wrong[] = {0,  1,  4,  6,   7,         31,
                                     33, 63, 65, 128, 0xFFFFFFFF};
    size_t i;
    unsigned at;
    int good = 1;

    whole_case();
    for (i = 0; i < sizeof wrong / sizeof *wrong; i++)
        good &= refused_with(wrong[i], 0, SUNDERWATH_BOARD_WIDTH, 0, NONE);
    for (at = 0; at < 32; at++)
        good &= refused_with(SUNDERWATH_RISCV + (UINT32_C(1) << at), MOST_ROWS,
                             SUNDERWATH_BOARD_WIDTH, 0, NONE);
    report("1 board width", good);
}

/* Rules of boards; six of them tell the property record. */
static void boards(void)
{
    whole_case();
    set_word(&blob, places.address_cells, 3);
    report("36 #address-cells", refused(36, 0, 0));
    whole_case();
    set_word(&blob, places.address_cells + 16, 1);
    report("37 #size-cells", refused(37, 0, 1));
    whole_case();
    set_word(&blob, places.reg - 16, 0x63707500 + 1);
    report("11 device_type", refused(11, 6, 7));
    whole_case();
    set_word(&blob, places.reg, 0x1000000);
    report("12 reg", refused(12, 6, 8));
    whole_case();
    set_word(&blob, places.reg, 0);
    report("13 reg twice", refused(13, 6, NONE));
    whole_case();
    set_word(&blob, places.reg + 16, 1);
    report("17 phandle", refused(17, 6, 9));
    whole_case();
    set_word(&blob, places.reg + 16, 3);
    report("24 cpu", refused(24, 3, 2));
    start_blob(&blob);
    put_begin(&blob, "cpus");
    put_word(&blob, END_NODE);
    put_word(&blob, END_NODE);
    put_word(&blob, END);
    finish_blob(&blob);
    report("36 no #address-cells", refused(36, 0, NONE));
}

/* ---- RISC-V boards ---- */

static int refused_harts(uint32_t number, uint32_t place, uint32_t second)
{
    return refused_with(SUNDERWATH_RISCV, MOST_ROWS, number, place, second);
}

/* The whole case with these hart ids, that of row 0 first. */
static void whole_case_of_harts(uint32_t row_0, uint32_t row_1)
{
    whole_case();
    set_word(&blob, places.reg, row_0);
    set_word(&blob, places.first_reg, row_1);
}

static int harts_read(uint32_t row_0, uint32_t row_1)
{
    uint32_t rows[CPUS * SUNDERWATH_ROW_WORDS];
    const struct told want = {
        {0, 0, NONE, CPUS}, rows, CPUS * SUNDERWATH_ROW_WORDS};
    uint32_t *second = rows + SUNDERWATH_ROW_WORDS;

    memcpy(rows, whole_rows, sizeof rows);
    rows[SUNDERWATH_ROW_HART] = row_0;
    second[SUNDERWATH_ROW_HART] = row_1;
    rows[SUNDERWATH_ROW_SLOT] = second[SUNDERWATH_ROW_SLOT] = GAP;
    whole_case_of_harts(row_0, row_1);
    return reads_as(SUNDERWATH_RISCV, ROWS, SUNDERWATH_BYTES_ANSWER, &want) &&
           reads_as(SUNDERWATH_RISCV, ROWS + 3, SUNDERWATH_BYTES_ANSWER + 5,
                    &want) &&
           refused_with(SUNDERWATH_RISCV, ROWS - 1, SUNDERWATH_ROW_SPACE, 0,
                        NONE);
}

static void harts(void)
{
    unsigned at;
    int good = 1, equal = 1;

    report("the board numbers",
           SUNDERWATH_ARM32 == 32 && SUNDERWATH_ARM64 == 64 &&
               SUNDERWATH_RISCV == 5 && SUNDERWATH_ROW_HART == 3);
    report("RISC-V, 0xffffffff and 0", harts_read(0xFFFFFFFF, 0));
    report("RISC-V, bytes of an id", harts_read(0x92345678, 0x100));
    for (at = 0; at < 32; at++) {
        uint32_t id = UINT32_C(1) << at;

        good &= harts_read(id, 0) && harts_read(0xFFFFFFFF, ~id);
        whole_case_of_harts(id, id);
        equal &= refused_harts(SUNDERWATH_DUPLICATE_CPU_REG, 6, NONE);
    }
    report("RISC-V, ids of one bit", good);
    report("13 equal hart ids", equal);
}

static void more_harts(void)
{
    whole_case_of_harts(0xFFFFFFFF, 0);
    report("12 the ids as MPIDRs", refused(SUNDERWATH_CPU_REG, 6, 8));
    set_word(&blob, places.address_cells, 2);
    report("36 two cells, RISC-V", refused_harts(36, 0, 0));
    whole_case_of_harts(0xFFFFFFFF, 0);
    set_word(&blob, places.reg - 8, 3);
    report("12 hart id of 3 bytes", refused_harts(SUNDERWATH_CPU_REG, 6, 8));
    whole_case_of_harts(0xFFFFFFFF, 0);
    set_word(&blob, places.reg + 16, 3);
    report("24 cpu, RISC-V", refused_harts(24, 3, 2));
}

/* ---- limits ---- */

static int accepted(void)
{
    return reads_as(64, ROWS + 3, SUNDERWATH_BYTES_ANSWER, &whole);
}

/* The blob has so many nodes and properties in /cpus. */
static void of_size(size_t nodes, size_t props, size_t outside)
{
    whole_case_with(nodes - 7, props - 10, outside);
}

static int too_many(void)
{
    return refused_with(64, ROWS, SUNDERWATH_TABLE_SPACE, 0, NONE) &&
           refused_with(SUNDERWATH_RISCV, ROWS, SUNDERWATH_TABLE_SPACE, 0,
                        NONE) &&
           refused_with(WRONG_WIDTH, 0, SUNDERWATH_TABLE_SPACE, 0, NONE);
}

static void limits(void)
{
    of_size(1024, 1024, 0);
    report("1,024 nodes and properties", accepted());
    of_size(1024, 1024, 600);
    report("the same, 600 more outside", accepted());
    of_size(600, 700, 1200);
    report("600 and 700, 1,200 more outside", accepted());
    of_size(1025, 1024, 0);
    report("35 1,025 nodes", too_many());
    of_size(1025, 10, 600);
    report("35 1,025 nodes, few properties", too_many());
    of_size(1024, 1025, 0);
    report("35 1,025 properties", too_many());
    of_size(600, 1025, 600);
    report("35 1,025 properties, fewer nodes", too_many());
    of_size(1025, 1025, 0);
    report("35 1,025 of both", too_many());
}

/* ---- lists ---- */

static void put_mpidr(uint8_t *list, size_t at, uint64_t mpidr)
{
    size_t i;

    for (i = 0; i < SUNDERWATH_MPIDR_BYTES; i++)
        list[SUNDERWATH_MPIDR_BYTES * at + i] = (uint8_t)(mpidr >> 8 * i);
}

static void lists(void)
{
    uint8_t list[3 * SUNDERWATH_MPIDR_BYTES];

    put_mpidr(list, 0, UINT64_C(0x2));
    put_mpidr(list, 1, UINT64_C(0x100000080));
    put_mpidr(list, 2, UINT64_C(0x2));
    report("slot", slot_is(UINT64_C(0x100000080), list, 24, 0, 0, 192));
    report("slot, listed twice", slot_is(2, list, 24, 0, 0, 1));
    report("slot, one MPIDR", slot_is(2, list, 8, 0, 0, 0));
    report("30 other upper half", slot_is(0x80, list, 24, 30, 0, 0));
    report("30 bit outside, asked",
           slot_is(UINT64_C(0x1000002), list, 24, 30, 0, 0));
    put_mpidr(list, 2, UINT64_C(1) << 24);
    report("29 last", slot_is(2, list, 24, 29, 2, 0));
    put_mpidr(list, 0, UINT64_C(1) << 63);
    report("29 lowest", slot_is(2, list, 24, 29, 0, 0));
    report("28 before 29", slot_is(2, list, 23, 28, 0, 0));
    put_mpidr(list, 0, 0);
    put_mpidr(list, 1, UINT64_C(0xFF00FFFFFF));
    report("slot of 32 bits",
           slot_is(UINT64_C(0xFF00FFFFFF), list, 16, 0, 0, 0xFFFFFFFF));
}

/* Lists of lengths up to five MPIDRs, and around 256 of them. Each has its
 * number as its slot. */
static void list_lengths(void)
{
    static uint8_t list[LIST * SUNDERWATH_MPIDR_BYTES];
    size_t n, at;
    int good = 1;

    for (at = 0; at < LIST; at++)
        put_mpidr(list, at, (uint64_t)(at >> 4) << 8 | (at & 15));
    for (n = 0; n <= 2064; n = n == 40 ? 2040 : n + 1) {
        size_t count = n / SUNDERWATH_MPIDR_BYTES;
        uint64_t last = count > 0 ? (count - 1) >> 4 << 8 | ((count - 1) & 15)
                                  : 0;

        if (n % SUNDERWATH_MPIDR_BYTES != 0 || count < 1 || count > 256)
            good &= slot_is(0, list, n, SUNDERWATH_LIST_LENGTH, 0, 0);
        else
            good &= slot_is(last, list, n, 0, 0, (uint32_t)count - 1);
    }
    report("28 lists of every length", good);
    put_mpidr(list, 255, UINT64_C(1) << 40);
    report("29 last of 256", slot_is(0, list, 2048, 29, 255, 0));
    report("28 before 29, 257", slot_is(0, list, 2056, 28, 0, 0));
}

int main(void)
{
    names_and_bytes();
    lengths();
    blobs();
    widths();
    boards();
    harts();
    more_harts();
    limits();
    lists();
    list_lengths();
    printf("%d different\n", failures);
    return failures == 0 ? 0 : 1;
}
