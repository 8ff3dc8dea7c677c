/* SPDX-License-Identifier: BSD-2-Clause OR GPL-2.0-or-later */
/*
 * Calls list_hash and list_slot from C on the worked cases of the scope paper
 * and on each refusal. Prints a line per case; exit status 1 on a difference.
 */
#include "sunderwath.h"

#include <inttypes.h>
#include <stdio.h>
#include <string.h>

#define PATTERN 0xA5A5A5A5u
#define GUARD 2
#define ROOM (SUNDERWATH_ANSWER_WORDS + 2 * GUARD)
#define COUNT(array) (sizeof(array) / sizeof((array)[0]))

struct expected {
    uint32_t number;
    uint32_t place;
    uint64_t mask;
    uint32_t shifts[4];
    uint32_t bits;
};

struct hash_case {
    const char *name;
    const uint64_t *list;
    size_t n;
    struct expected answer;
    const uint32_t *slots; /* NULL in a refusal */
};

static const uint64_t h1[] = {0x0};
static const uint64_t h2[] = {
    0x0,           0x1,           0x100,         0x101,
    0x10000,       0x10001,       0x10100,       0x10101,
    0x100000000,   0x100000001,   0x100000100,   0x100000101,
    0x100010000,   0x100010001,   0x100010100,   0x100010101,
};
static const uint64_t h3[] = {0x0, 0x1, 0x2, 0x3, 0x100, 0x101, 0x102, 0x103};
static const uint64_t h4[] = {0x2, 0x80};
static const uint64_t h5[] = {0xF00, 0xF01, 0xF02, 0xF03};
static const uint64_t h6[] = {0x0, 0xFF00FFFFFF};
static const uint64_t h7[] = {0x0, 0x5};
static const uint64_t bad[] = {0x0, 0x1, 0x1000000, 0x8000000000000000};
static uint64_t many[257];

static const uint32_t in_order[] = {0, 1, 2,  3,  4,  5,  6,  7,
                                    8, 9, 10, 11, 12, 13, 14, 15};
static const uint32_t s4[] = {1, 64};
static const uint32_t s6[] = {0, 0xFFFFFFFF};
static const uint32_t s7[] = {0, 5};

static const struct hash_case cases[] = {
    {"H1", h1, COUNT(h1), {0, 0, 0x0, {0, 8, 16, 32}, 0}, in_order},
    {"H2", h2, COUNT(h2), {0, 0, 0x100010101, {0, 7, 14, 29}, 4}, in_order},
    {"H3", h3, COUNT(h3), {0, 0, 0x103, {0, 6, 13, 29}, 3}, in_order},
    {"H4", h4, COUNT(h4), {0, 0, 0x82, {1, 1, 9, 25}, 7}, s4},
    {"H5", h5, COUNT(h5), {0, 0, 0x3, {0, 6, 14, 30}, 2}, in_order},
    {"H6", h6, COUNT(h6), {0, 0, 0xFF00FFFFFF, {0, 0, 0, 8}, 32}, s6},
    {"H7", h7, COUNT(h7), {0, 0, 0x5, {0, 5, 13, 29}, 3}, s7},
    {"28 empty", h1, 0, {28, 0, 0, {0}, 0}, NULL},
    {"28 long", many, 257, {28, 0, 0, {0}, 0}, NULL},
    {"256 long", many, 256, {0, 0, 0, {0, 8, 16, 32}, 0}, NULL},
    {"29", bad, COUNT(bad), {29, 2, 0, {0}, 0}, NULL},
};

static int failures;

static void report(const char *name, const char *call, int good)
{
    printf("%-9s %-10s %s\n", name, call, good ? "ok" : "DIFFERENT");
    if (!good)
        failures++;
}

static void fill(uint32_t *words, size_t n)
{
    size_t i;

    for (i = 0; i < n; i++)
        words[i] = PATTERN;
}

/* The words around the answer keep the pattern. */
static int guards_kept(const uint32_t *room)
{
    int i, kept = 1;

    for (i = 0; i < GUARD; i++)
        kept &= room[i] == PATTERN && room[ROOM - 1 - i] == PATTERN;
    return kept;
}

static int check_hash(const struct hash_case *c)
{
    const struct expected *e = &c->answer;
    uint32_t room[ROOM];
    uint32_t *answer = room + GUARD;
    uint32_t want[SUNDERWATH_ANSWER_WORDS] = {
        e->number,    e->place,     0,
        (uint32_t)e->mask, (uint32_t)(e->mask >> 32),
        e->shifts[0], e->shifts[1], e->shifts[2], e->shifts[3],
        e->bits,      SUNDERWATH_NONE,
    };
    uint32_t number;

    fill(room, ROOM);
    number = sunderwath_list_hash(c->list, c->n, answer,
                                  SUNDERWATH_ANSWER_WORDS);
    return number == e->number && guards_kept(room) &&
           memcmp(answer, want, sizeof want) == 0;
}

/* Number, place and slot of one question; there is no second place. */
static int check_slot(uint64_t mpidr, const uint64_t *list, size_t n,
                      uint32_t number, uint32_t place, uint32_t slot)
{
    uint32_t room[ROOM];
    uint32_t *answer = room + GUARD;
    uint32_t want[SUNDERWATH_ANSWER_WORDS] = {number, place, slot};
    uint32_t told;

    want[SUNDERWATH_ANSWER_SECOND] = SUNDERWATH_NONE;
    fill(room, ROOM);
    told = sunderwath_list_slot(mpidr, list, n, answer,
                                SUNDERWATH_ANSWER_WORDS);
    return told == number && guards_kept(room) &&
           memcmp(answer, want, sizeof want) == 0;
}

static int check_slots(const struct hash_case *c)
{
    size_t i;
    int good = 1;

    for (i = 0; i < c->n; i++)
        good &= check_slot(c->list[i], c->list, c->n, 0, 0, c->slots[i]);
    return good;
}

/* 49: nothing is written, whatever the list. */
static int check_short_answer(const uint64_t *list, size_t n)
{
    uint32_t room[ROOM];
    size_t words, i;
    int good = 1;

    for (words = 0; words < SUNDERWATH_ANSWER_WORDS; words++) {
        fill(room, ROOM);
        good &= sunderwath_list_hash(list, n, room, words) ==
                SUNDERWATH_ANSWER_SPACE;
        good &= sunderwath_list_slot(0, list, n, room, words) ==
                SUNDERWATH_ANSWER_SPACE;
        for (i = 0; i < ROOM; i++)
            good &= room[i] == PATTERN;
    }
    return good;
}

/* Longer answers: exactly the stated words are written. */
static int check_long_answer(const uint64_t *list, size_t n)
{
    uint32_t room[ROOM];
    size_t words, i;
    int good = 1;

    for (words = SUNDERWATH_ANSWER_WORDS; words <= ROOM; words++) {
        fill(room, ROOM);
        good &= sunderwath_list_hash(list, n, room, words) == 0;
        good &= room[SUNDERWATH_ANSWER_SECOND] == SUNDERWATH_NONE;
        room[SUNDERWATH_ANSWER_SECOND] = PATTERN;
        good &= sunderwath_list_slot(list[0], list, n, room, words) == 0;
        good &= room[SUNDERWATH_ANSWER_SECOND] == SUNDERWATH_NONE;
        for (i = SUNDERWATH_ANSWER_WORDS; i < ROOM; i++)
            good &= room[i] == PATTERN;
    }
    return good;
}

int main(void)
{
    size_t i;

    for (i = 0; i < COUNT(cases); i++) {
        report(cases[i].name, "list_hash", check_hash(&cases[i]));
        if (cases[i].slots != NULL)
            report(cases[i].name, "list_slot", check_slots(&cases[i]));
    }
    report("28 empty", "list_slot", check_slot(0, h1, 0, 28, 0, 0));
    report("28 long", "list_slot", check_slot(0, many, 257, 28, 0, 0));
    report("29", "list_slot", check_slot(0x1, bad, COUNT(bad), 29, 2, 0));
    report("30", "list_slot", check_slot(0x81, h4, COUNT(h4), 30, 0, 0));
    report("30 bits", "list_slot",
           check_slot(0x80000000, h7, COUNT(h7), 30, 0, 0));
    report("49", "both", check_short_answer(h2, COUNT(h2)));
    report("49 empty", "both", check_short_answer(h2, 0));
    report("longer", "both", check_long_answer(h2, COUNT(h2)));
    printf("%d different\n", failures);
    return failures == 0 ? 0 : 1;
}
