/* SPDX-License-Identifier: BSD-2-Clause OR GPL-2.0-or-later */
/*
 * Makes the calls that make_vectors wrote to the file `vectors`, read from
 * standard input, and writes what is given back and what each lent part holds
 * afterwards to standard output, in the form of the file `expected`. Both forms
 * are described in tests/src/bin/make_vectors/file.rs.
 *
 * It has no C library, so that it runs with each archive as it is, also with
 * those for an ABI that Linux has no library for. Each part is lent at its
 * exact length, between canaries, at an address that is aligned for its type
 * and no better: bytes at odd addresses, words 4 bytes behind a multiple of 8,
 * MPIDRs 8 bytes behind a multiple of 16. In some calls the parts that are only
 * read end at a wall instead, a page that traps.
 *
 * Exit status 0 where all calls were made, whatever they answered; 2 where the
 * input is not what it should be, 3 where the output cannot be written, 4 where
 * a returned number breaks RISC-V's calling convention, and 5 where parts that
 * overlap are copied.
 */
#include "bare.h"
#include "sunderwath.h"

#define CANARY 16
#define MOST_PARTS 6
#define INPUT_BYTES (96u << 20)
#define OUTPUT_BYTES (1u << 20)

/* Room for a part, its canaries and what they are moved by. The wall behind it
 * is whole pages, of any size that Linux has on these processors. */
#define AREA_BYTES (1u << 18)
#define WALL_BYTES (1u << 16)
#define MARGIN 64

/* The start of a call whose parts end at a wall. */
#define AT_WALL 4

/* The words of a call before its parts. */
enum { CALL, START, FILL, ASKED_LOW, ASKED_HIGH, CALL_WORDS };

struct part {
    uint8_t *at;
    size_t count; /* elements */
    size_t bytes;
    const uint8_t *from; /* what was lent; NULL for a part that is written */
    size_t element;      /* bytes of one */
    size_t behind;       /* bytes of the canary behind it */
};

static union {
    uint32_t words[INPUT_BYTES / 4];
    uint8_t bytes[INPUT_BYTES];
} input;
static size_t input_words, next_word;

static uint8_t output[OUTPUT_BYTES];
static size_t output_n;

static struct {
    uint8_t bytes[AREA_BYTES];
    uint8_t wall[WALL_BYTES];
} areas[MOST_PARTS] __attribute__((aligned(WALL_BYTES)));

/* ---- the calls ---- */

/*
 * RISC-V's calling convention has the number that is returned in the lower half
 * of a register extended by its sign, and callers rely on it. So there each
 * call is declared once more, with the whole register as its result.
 */
#ifdef __riscv
typedef int64_t returned;
#define LIBRARY(name) whole_##name
#define WHOLE(name) returned whole_##name
#define NAMED(name) __asm__("sunderwath_" #name)

WHOLE(list_hash)(const uint64_t *, size_t, uint32_t *, size_t) NAMED(list_hash);
WHOLE(list_slot)(uint64_t, const uint64_t *, size_t, uint32_t *,
                 size_t) NAMED(list_slot);
WHOLE(check_tables)(uint32_t, const uint32_t *, size_t, const uint32_t *, size_t,
                    const uint8_t *, size_t, uint32_t *,
                    size_t) NAMED(check_tables);
WHOLE(find_property)(const uint32_t *, size_t, const uint8_t *, size_t, uint32_t,
                     const uint8_t *, size_t) NAMED(find_property);
WHOLE(read_tables)(uint32_t, const uint32_t *, size_t, const uint32_t *, size_t,
                   const uint8_t *, size_t, uint32_t *, size_t, uint32_t *,
                   size_t) NAMED(read_tables);
WHOLE(read_tables_slots)(uint32_t, const uint32_t *, size_t, const uint32_t *,
                         size_t, const uint8_t *, size_t, uint32_t *, size_t,
                         uint32_t *, size_t, uint32_t *,
                         size_t) NAMED(read_tables_slots);
WHOLE(read_flat)(const uint8_t *, size_t, uint32_t *, size_t, uint32_t *, size_t,
                 uint32_t *, size_t) NAMED(read_flat);
WHOLE(read_blob)(uint32_t, const uint8_t *, size_t, uint8_t *, size_t, uint8_t *,
                 size_t) NAMED(read_blob);
WHOLE(slot)(uint64_t, const uint8_t *, size_t, uint8_t *, size_t) NAMED(slot);
WHOLE(plan_check)(const uint64_t *, size_t, const uint32_t *, size_t, uint32_t *,
                  size_t) NAMED(plan_check);
WHOLE(plan_slot)(uint64_t, const uint64_t *, size_t, const uint32_t *, size_t,
                 uint32_t *, size_t) NAMED(plan_slot);
WHOLE(plan_make)(const uint64_t *, size_t, uint32_t *, size_t) NAMED(plan_make);
#else
typedef uint32_t returned;
#define LIBRARY(name) sunderwath_##name
#endif

/* A part as a call takes it: where it is, and its count. */
#define BYTES(k) part[k].at, part[k].count
#define WORDS(k) (uint32_t *)(void *)part[k].at, part[k].count
#define MPIDRS(k) (uint64_t *)(void *)part[k].at, part[k].count

static returned list_hash(uint64_t asked, const struct part *part)
{
    (void)asked;
    return LIBRARY(list_hash)(MPIDRS(0), WORDS(1));
}

static returned list_slot(uint64_t asked, const struct part *part)
{
    return LIBRARY(list_slot)(asked, MPIDRS(0), WORDS(1));
}

static returned check_tables(uint64_t asked, const struct part *part)
{
    return LIBRARY(check_tables)((uint32_t)asked, WORDS(0), WORDS(1), BYTES(2),
                                 WORDS(3));
}

static returned find_property(uint64_t asked, const struct part *part)
{
    return LIBRARY(find_property)(WORDS(0), BYTES(1), (uint32_t)asked,
                                  BYTES(2));
}

static returned read_tables(uint64_t asked, const struct part *part)
{
    return LIBRARY(read_tables)((uint32_t)asked, WORDS(0), WORDS(1), BYTES(2),
                                WORDS(3), WORDS(4));
}

static returned read_tables_slots(uint64_t asked, const struct part *part)
{
    return LIBRARY(read_tables_slots)((uint32_t)asked, WORDS(0), WORDS(1),
                                      BYTES(2), WORDS(3), WORDS(4), WORDS(5));
}

static returned read_flat(uint64_t asked, const struct part *part)
{
    (void)asked;
    return LIBRARY(read_flat)(BYTES(0), WORDS(1), WORDS(2), WORDS(3));
}

static returned read_blob(uint64_t asked, const struct part *part)
{
    return LIBRARY(read_blob)((uint32_t)asked, BYTES(0), BYTES(1), BYTES(2));
}

static returned slot(uint64_t asked, const struct part *part)
{
    return LIBRARY(slot)(asked, BYTES(0), BYTES(1));
}

static returned plan_check(uint64_t asked, const struct part *part)
{
    (void)asked;
    return LIBRARY(plan_check)(MPIDRS(0), WORDS(1), WORDS(2));
}

static returned plan_slot(uint64_t asked, const struct part *part)
{
    return LIBRARY(plan_slot)(asked, MPIDRS(0), WORDS(1), WORDS(2));
}

static returned plan_make(uint64_t asked, const struct part *part)
{
    (void)asked;
    return LIBRARY(plan_make)(MPIDRS(0), WORDS(1));
}

/* By their number in the file. Parts: m MPIDRs, w words and b bytes that are
 * only read, W words and B bytes that are written. */
static const struct {
    const char *parts;
    returned (*make)(uint64_t asked, const struct part *part);
} calls[] = {
    {"mW", list_hash},
    {"mW", list_slot},
    {"wwbW", check_tables},
    {"wbb", find_property},
    {"wwbWW", read_tables},
    {"wwbWWW", read_tables_slots},
    {"bWWW", read_flat},
    {"bBB", read_blob},
    {"bB", slot},
    {"mwW", plan_check},
    {"mwW", plan_slot},
    {"mW", plan_make},
};

/* ---- input and output ---- */

/* The next words of the input. */
static const uint32_t *take(size_t words)
{
    const uint32_t *at = input.words + next_word;

    if (words > input_words - next_word)
        fail(2, "vectors: the input ends inside a call\n");
    next_word += words;
    return at;
}

static void flush(void)
{
    if (!write_all(1, output, output_n))
        fail(3, "vectors: the output cannot be written\n");
    output_n = 0;
}

static void put(const uint8_t *from, size_t count)
{
    for (; count > 0; count--) {
        if (output_n == sizeof output)
            flush();
        output[output_n++] = *from++;
    }
}

static void put_word(uint32_t word)
{
    uint8_t bytes[4] = {(uint8_t)word, (uint8_t)(word >> 8),
                        (uint8_t)(word >> 16), (uint8_t)(word >> 24)};

    put(bytes, sizeof bytes);
}

/* ---- the parts ---- */

/* Byte `at` of what stands around a part. */
static uint8_t fill_byte(const struct part *part, uint32_t fill, size_t at)
{
    return (uint8_t)(part->element == 1 ? fill : fill >> 8 * (at % 4));
}

/* Bytes that a part starts behind a multiple of 16. */
static size_t shift(size_t element, size_t start)
{
    switch (element) {
    case 1:
        return 1 + 2 * (start % 4);
    case 4:
        return 4 + 8 * (start % 2);
    default:
        return 8;
    }
}

/* Finds a place for a part; before it there is room for a canary. */
static void place(struct part *part, uint8_t *area, size_t start)
{
    if (part->bytes > AREA_BYTES - MARGIN)
        fail(2, "vectors: a part is too long\n");
    if (start == AT_WALL && part->from != NULL) {
        part->at = area + AREA_BYTES - part->bytes;
        part->behind = 0;
    } else {
        part->at = area + CANARY + shift(part->element, start);
        part->behind = CANARY;
    }
}

/* Takes a part of a kind from the input and lays it out. */
static void lend(struct part *part, uint8_t *area, char kind,
                 const uint32_t *call)
{
    size_t at;

    part->element = kind == 'm' ? 8 : kind == 'w' || kind == 'W' ? 4 : 1;
    part->count = *take(1);
    part->bytes = part->count * part->element;
    part->from = NULL;
    if (kind != 'W' && kind != 'B')
        part->from = (const uint8_t *)take((part->bytes + 3) / 4);
    place(part, area, call[START]);
    for (at = 0; at < CANARY + part->bytes + part->behind; at++)
        part->at[at - CANARY] = fill_byte(part, call[FILL], at);
    for (at = 0; part->from != NULL && at < part->bytes; at++)
        part->at[at] = part->from[at];
}

/* How many bytes of a part and its canaries are not as they were lent. */
static uint32_t changed(const struct part *part, uint32_t fill)
{
    const uint8_t *before = part->at - CANARY;
    size_t all = CANARY + part->bytes + part->behind, at;
    uint32_t count = 0;

    for (at = 0; at < all; at++) {
        int inside = at >= CANARY && at < CANARY + part->bytes;

        count += before[at] != (inside ? part->from[at - CANARY]
                                       : fill_byte(part, fill, at));
    }
    return count;
}

/* ---- one call, and all ---- */

static uint32_t number_of(returned told)
{
#ifdef __riscv
    if (told != (int32_t)told)
        fail(4, "vectors: a returned number is not extended by its sign\n");
#endif
    return (uint32_t)told;
}

static void make_call(void)
{
    const uint32_t *call = take(CALL_WORDS);
    struct part part[MOST_PARTS];
    const char *kinds;
    size_t at;

    if (call[CALL] >= sizeof calls / sizeof *calls)
        fail(2, "vectors: no such call\n");
    kinds = calls[call[CALL]].parts;
    for (at = 0; kinds[at] != '\0'; at++)
        lend(&part[at], areas[at].bytes, kinds[at], call);
    put_word(number_of(calls[call[CALL]].make(
        (uint64_t)call[ASKED_HIGH] << 32 | call[ASKED_LOW], part)));
    for (at = 0; kinds[at] != '\0'; at++) {
        if (part[at].from != NULL)
            put_word(changed(&part[at], call[FILL]));
        else
            put(part[at].at - CANARY, part[at].bytes + 2 * CANARY);
    }
}

static int run(void)
{
    long bytes = read_all(input.bytes, sizeof input.bytes);
    uint32_t count;
    size_t at;

    for (at = 0; at < MOST_PARTS; at++) {
        if (!make_wall(areas[at].wall, WALL_BYTES))
            fail(2, "vectors: no wall can be made\n");
    }
    if (bytes < 4 || bytes % 4 != 0)
        fail(2, "vectors: the input is not whole words, or too long\n");
    input_words = (size_t)bytes / 4;
    for (count = *take(1); count > 0; count--)
        make_call();
    if (next_word != input_words)
        fail(2, "vectors: the input goes on behind its last call\n");
    flush();
    return 0;
}
