/* SPDX-License-Identifier: BSD-2-Clause OR GPL-2.0-or-later */
/*
 * Calls read_flat from C on a small blob and on blobs that are refused. Each
 * blob is lent as an allocation of its own length, so that valgrind sees a byte
 * read behind it. Prints a line per case; exit status 1 on a difference.
 */
#include "blob.h"
#include "sunderwath.h"

#include <stdio.h>
#include <stdlib.h>
#include <string.h>

#define GUARD 4
#define WORDS 64

/* A lent part with the words around it. */
struct part {
    uint32_t words[GUARD + WORDS + GUARD];
};

static int failures;

static void report(const char *name, int good)
{
    printf("%-28s %s\n", name, good ? "ok" : "DIFFERENT");
    if (!good)
        failures++;
}

/* Offset 40 "/", 48 NOP, 52 "/cpus", 64 `reg`, 80 "/cpus/a", 88 `e`, the ends of
 * the nodes from 100 on, 112 the end token, 116 the strings. */
static void small(struct blob *blob)
{
    start_blob(blob);
    put_word(blob, NOP);
    put_begin(blob, "cpus");
    put_prop(blob, "reg", "abc", 3);
    put_begin(blob, "a");
    put_prop(blob, "e", "", 0);
    put_word(blob, END_NODE);
    put_word(blob, END_NODE);
    put_word(blob, END_NODE);
    put_word(blob, END);
    finish_blob(blob);
}

static const uint32_t small_nodes[6] = {0xFFFFFFFF, 56, 4, 0, 84, 1};
static const uint32_t small_props[10] = {0, 116, 3, 76, 3, 1, 120, 1, 100, 0};

static void fill(struct part *part, const uint32_t *words, size_t n)
{
    memset(part, 0xA5, sizeof *part);
    if (n > 0)
        memcpy(part->words + GUARD, words, n * sizeof *words);
}

static int same(const struct part *part, const uint32_t *words, size_t n)
{
    struct part wanted;

    fill(&wanted, words, n);
    return memcmp(part, &wanted, sizeof wanted) == 0;
}

/* Lends a blob and three parts, and compares every word of them. */
static int reads_as(const struct blob *blob, const size_t lent[3],
                    uint32_t number, const uint32_t *answer, size_t answer_n)
{
    struct part nodes, props, told;
    uint8_t *bytes = malloc(blob->n > 0 ? blob->n : 1);
    uint32_t given;
    int good;

    if (bytes == NULL)
        return 0;
    memcpy(bytes, blob->bytes, blob->n);
    fill(&nodes, NULL, 0);
    fill(&props, NULL, 0);
    fill(&told, NULL, 0);
    given = sunderwath_read_flat(bytes, blob->n, nodes.words + GUARD, lent[0],
                                 props.words + GUARD, lent[1],
                                 told.words + GUARD, lent[2]);
    good = given == number && same(&told, answer, answer_n) &&
           same(&nodes, small_nodes, number == 0 ? 6 : 0) &&
           same(&props, small_props, number == 0 ? 10 : 0) &&
           memcmp(bytes, blob->bytes, blob->n) == 0;
    free(bytes);
    return good;
}

static int refused(const struct blob *blob, uint32_t number, uint32_t place)
{
    const uint32_t answer[SUNDERWATH_FLAT_ANSWER_WORDS] = {number, place, 0, 0};
    const size_t lent[3] = {WORDS, WORDS, SUNDERWATH_FLAT_ANSWER_WORDS};

    return reads_as(blob, lent, number, answer, SUNDERWATH_FLAT_ANSWER_WORDS);
}

/* The small blob with one word changed. */
static void changed(const char *name, size_t at, uint32_t word,
                    uint32_t number, uint32_t place)
{
    struct blob blob;

    small(&blob);
    set_word(&blob, at, word);
    report(name, refused(&blob, number, place));
}

static void lengths(void)
{
    static const uint32_t accepted[SUNDERWATH_FLAT_ANSWER_WORDS] = {0, 0, 2, 2};
    static const uint32_t short_of[SUNDERWATH_FLAT_ANSWER_WORDS] = {
        SUNDERWATH_TABLE_SPACE, 0, 0, 0};
    static const size_t enough[3][3] = {{6, 10, 4}, {7, 10, 5}, {64, 64, 64}};
    static const size_t few[4][3] = {
        {5, 10, 4}, {6, 9, 4}, {0, 64, 4}, {64, 0, 5}};
    struct blob blob;
    size_t i;

    small(&blob);
    for (i = 0; i < 3; i++)
        report("small blob", reads_as(&blob, enough[i], 0, accepted, 4));
    for (i = 0; i < 4; i++)
        report("35 table space",
               reads_as(&blob, few[i], SUNDERWATH_TABLE_SPACE, short_of, 4));
    for (i = 0; i < SUNDERWATH_FLAT_ANSWER_WORDS; i++) {
        const size_t lent[3] = {WORDS, WORDS, i};

        report("49 answer space",
               reads_as(&blob, lent, SUNDERWATH_ANSWER_SPACE, NULL, 0));
        blob.n -= 30; /* a blob that would be refused */
    }
}

static void refusals(void)
{
    struct blob blob;
    int good = 1;

    changed("31 magic", 0, 0xEDFE0DD0, SUNDERWATH_BLOB_HEADER, 0);
    changed("31 total size", 4, 123, SUNDERWATH_BLOB_HEADER, 0);
    changed("31 version", 20, 16, SUNDERWATH_BLOB_HEADER, 0);
    changed("31 compatible", 24, 18, SUNDERWATH_BLOB_HEADER, 0);
    changed("32 total size", 4, 121, SUNDERWATH_BLOB_BLOCKS, 0);
    changed("32 structure offset", 8, 0xFFFFFFF0, SUNDERWATH_BLOB_BLOCKS, 0);
    changed("32 structure size", 36, 74, SUNDERWATH_BLOB_BLOCKS, 0);
    changed("33 no token", 48, 5, SUNDERWATH_BLOB_STRUCTURE, 48);
    changed("33 end inside", 80, END, SUNDERWATH_BLOB_STRUCTURE, 80);
    changed("33 value leaves", 92, 0xFFFFFFFC, SUNDERWATH_BLOB_STRUCTURE, 88);
    changed("33 name outside", 96, 6, SUNDERWATH_BLOB_STRUCTURE, 88);
    changed("33 name open", 32, 5, SUNDERWATH_BLOB_STRUCTURE, 88);
    changed("33 block ends", 36, 60, SUNDERWATH_BLOB_STRUCTURE, 100);
    changed("34 no cpus", 60, 0x40000000, SUNDERWATH_BLOB_CPUS, 0);
    small(&blob);
    while (blob.n-- > 0)
        good &= refused(&blob, SUNDERWATH_BLOB_HEADER, 0);
    report("31 every truncation", good);
    start_blob(&blob);
    put_begin(&blob, "cpus");
    put_word(&blob, END_NODE);
    put_word(&blob, END_NODE);
    put_word(&blob, END);
    put_word(&blob, NOP);
    finish_blob(&blob);
    report("33 behind the end",
           refused(&blob, SUNDERWATH_BLOB_STRUCTURE, 72));
}

/* The tables go on to read_tables, with the blob as their pool. It tells a
 * number of record 0, and the property record that is wrong. */
static int goes_on(const struct blob *blob, uint32_t number, uint32_t second)
{
    uint32_t nodes[WORDS], props[WORDS], rows[1];
    uint32_t told[SUNDERWATH_FLAT_ANSWER_WORDS];
    uint32_t answer[SUNDERWATH_ANSWER_WORDS];
    uint32_t want[SUNDERWATH_ANSWER_WORDS] = {number};

    want[SUNDERWATH_ANSWER_SECOND] = second;
    if (sunderwath_read_flat(blob->bytes, blob->n, nodes, WORDS, props, WORDS,
                             told, SUNDERWATH_FLAT_ANSWER_WORDS) != 0)
        return 0;
    return sunderwath_read_tables(
               64, nodes, SUNDERWATH_NODE_WORDS * (size_t)told[2], props,
               SUNDERWATH_PROPERTY_WORDS * (size_t)told[3], blob->bytes,
               blob->n, rows, 0, answer, SUNDERWATH_ANSWER_WORDS) == number &&
           memcmp(answer, want, sizeof want) == 0;
}

static void joined(void)
{
    static const uint8_t two[4] = {0, 0, 0, 2};
    struct blob blob;

    small(&blob);
    report("36 no #address-cells", goes_on(&blob, 36, SUNDERWATH_NONE));
    start_blob(&blob);
    put_begin(&blob, "cpus");
    put_prop(&blob, "reg", "abc", 3);
    put_prop(&blob, "#size-cells", two, 4);
    put_prop(&blob, "#address-cells", two, 4);
    put_word(&blob, END_NODE);
    put_word(&blob, END_NODE);
    put_word(&blob, END);
    finish_blob(&blob);
    report("37 #size-cells 2", goes_on(&blob, 37, 1));
}

int main(void)
{
    lengths();
    refusals();
    joined();
    printf("%d different\n", failures);
    return failures == 0 ? 0 : 1;
}
