/* SPDX-License-Identifier: BSD-2-Clause OR GPL-2.0-or-later */
/*
 * Calls plan_check, plan_slot and plan_make from C: lists with our plans and
 * their slots, each refusal, and answers of every length. Each part that is
 * lent stands between guards. Prints a line per case; exit status 1 on a
 * difference.
 */
#include "board.h"
#include "plan.h"

#include <stdio.h>

#define COUNT(array) (sizeof(array) / sizeof((array)[0]))
#define CHECK_WORDS SUNDERWATH_PLAN_CHECK_ANSWER_WORDS
#define SLOT_WORDS SUNDERWATH_PLAN_SLOT_ANSWER_WORDS
#define MAKE_WORDS SUNDERWATH_PLAN_MAKE_ANSWER_WORDS
#define ROOM (MAKE_WORDS + 3 * GUARD)
#define LIST_ROOM (SUNDERWATH_MAX_CPUS + 1)
#define POSITIONS_ROOM (SUNDERWATH_MAX_PLAN + 1)
#define ALL_BITS UINT64_C(0xFF00FFFFFF)

_Static_assert(CHECK_WORDS == 2 && SLOT_WORDS == 3 && MAKE_WORDS == 35,
               "the words of the answers");
_Static_assert(SUNDERWATH_PLAN_ANSWER_SLOT == 2 &&
                   SUNDERWATH_PLAN_ANSWER_LENGTH == 2 &&
                   SUNDERWATH_PLAN_ANSWER_FIRST == 3 &&
                   SUNDERWATH_MAX_PLAN == 32,
               "their places, and the most positions");

/* A list with our plan, the slots under it and those of the hash. */
struct planned {
    const char *name;
    const uint64_t *list;
    size_t n;
    const uint32_t *plan;
    size_t plan_n;
    const uint32_t *slots, *hash_slots;
};

/* What is told of an MPIDR, a list and positions; 30 by plan_slot alone. */
struct refused {
    const char *name;
    const uint64_t *list;
    size_t n;
    const uint32_t *positions;
    size_t positions_n;
    uint64_t mpidr;
    uint32_t number, place;
};

static const uint64_t h1[] = {0x0};
static const uint64_t same[] = {0x7, 0x7};
static const uint64_t h4[] = {0x2, 0x80};
static const uint64_t h5[] = {0xF00, 0xF01, 0xF02, 0xF03};
static const uint64_t h6[] = {0x0, ALL_BITS};
static const uint64_t h7[] = {0x0, 0x5};
static const uint64_t three[] = {0x0, 0x101, 0x10001, 0x101};
static const uint64_t bad[] = {0x0, 0x5, 0x1000000, 0x8000000000000000};
static const uint64_t zeros[LIST_ROOM];

static const uint32_t none[] = {0};
static const uint32_t p2[] = {2}, p7[] = {7}, p39[] = {39};
static const uint32_t p01[] = {0, 1}, p816[] = {8, 16};
static const uint32_t in_order[] = {0, 1, 2, 3};
static const uint32_t zero_twice[] = {0, 0};
static const uint32_t s4[] = {1, 64}, s6[] = {0, 0xFFFFFFFF}, s7[] = {0, 5};
static const uint32_t s3[] = {0, 1, 2, 1}, hash_s3[] = {0, 3, 5, 3};

static const struct planned plans[] = {
    {"H1", h1, COUNT(h1), none, 0, in_order, in_order},
    {"equal", same, COUNT(same), none, 0, zero_twice, zero_twice},
    {"H4", h4, COUNT(h4), p7, 1, in_order, s4},
    {"H5", h5, COUNT(h5), p01, 2, in_order, in_order},
    {"H6", h6, COUNT(h6), p39, 1, in_order, s6},
    {"H7", h7, COUNT(h7), p2, 1, in_order, s7},
    {"three", three, COUNT(three), p816, 2, s3, hash_s3},
};

static const uint32_t falling[] = {2, 0}, twice[] = {0, 2, 2};
static const uint32_t low_gap[] = {2, 24}, high_gap[] = {2, 31};
static const uint32_t beyond[] = {2, 40}, most[] = {2, 0xFFFFFFFF};
static const uint32_t wrapped[] = {66}, p1[] = {1};

static const struct refused refusals[] = {
    {"28 empty", h7, 0, p2, 1, 0x0, 28, 0},
    {"28 long", zeros, 257, none, 0, 0x0, 28, 0},
    {"28 before 40", h7, 0, falling, 2, 0x0, 28, 0},
    {"29", bad, COUNT(bad), p2, 1, 0x0, 29, 2},
    {"29 before 40", bad, COUNT(bad), falling, 2, 0x9, 29, 2},
    {"40 none", h7, COUNT(h7), none, 0, 0x0, 40, 0},
    {"40 another bit", h7, COUNT(h7), p1, 1, 0x5, 40, 0},
    {"40 falling", h7, COUNT(h7), falling, 2, 0x5, 40, 0},
    {"40 twice", h7, COUNT(h7), twice, 3, 0x5, 40, 0},
    {"40 bit 24", h7, COUNT(h7), low_gap, 2, 0x5, 40, 0},
    {"40 bit 31", h7, COUNT(h7), high_gap, 2, 0x5, 40, 0},
    {"40 bit 40", h7, COUNT(h7), beyond, 2, 0x5, 40, 0},
    {"40 no bit", h7, COUNT(h7), most, 2, 0x5, 40, 0},
    {"40 bit 66", h7, COUNT(h7), wrapped, 1, 0x5, 40, 0},
    {"40 before 30", h7, COUNT(h7), p1, 1, 0x9, 40, 0},
    {"30", h7, COUNT(h7), p2, 1, 0x4, 30, 0},
    {"30 bits", h7, COUNT(h7), p2, 1, 0x8000000000000005, 30, 0},
    {"30 equal", same, COUNT(same), none, 0, 0x0, 30, 0},
};

/* What is only read, and how it was lent. */
static struct lent {
    uint64_t list[LIST_ROOM + 2 * GUARD];
    uint32_t positions[POSITIONS_ROOM + 2 * GUARD];
} lent, as_lent;
static size_t list_n, positions_n;
static uint64_t asked;
static uint32_t answer[ROOM];
static int failures;

static void report(const char *name, const char *call, int good)
{
    printf("%-15s %-11s %s\n", name, call, good ? "ok" : "DIFFERENT");
    if (!good)
        failures++;
}

/* ---- the calls, on what is lent ---- */

static void lend_list(const uint64_t *list, size_t n)
{
    memset(lent.list, 0xA5, sizeof lent.list);
    memcpy(lent.list + GUARD, list, n * sizeof *list);
    list_n = n;
}

static void lend_positions(const uint32_t *positions, size_t n)
{
    memset(lent.positions, 0xA5, sizeof lent.positions);
    memcpy(lent.positions + GUARD, positions, n * sizeof *positions);
    positions_n = n;
}

static uint32_t check(size_t words)
{
    return sunderwath_plan_check(lent.list + GUARD, list_n,
                                 lent.positions + GUARD, positions_n,
                                 answer + GUARD, words);
}

static uint32_t slot(size_t words)
{
    return sunderwath_plan_slot(asked, lent.list + GUARD, list_n,
                                lent.positions + GUARD, positions_n,
                                answer + GUARD, words);
}

static uint32_t make(size_t words)
{
    return sunderwath_plan_make(lent.list + GUARD, list_n, answer + GUARD,
                                words);
}

/* Whether a call with an answer of so many words tells a number and writes
 * these words alone. */
static int tells(uint32_t (*call)(size_t), size_t words, uint32_t number,
                 const uint32_t *want, size_t want_n)
{
    as_lent = lent;
    memset(answer, 0xA5, sizeof answer);
    return call(words) == number && holds(answer, ROOM, want, want_n) &&
           memcmp(&lent, &as_lent, sizeof lent) == 0;
}

/* The same with answers of the stated words and of more. */
static int answers(uint32_t (*call)(size_t), const uint32_t *want, size_t n)
{
    size_t more;
    int good = 1;

    for (more = 0; more <= GUARD; more++)
        good &= tells(call, n + more, want[0], want, n);
    return good;
}

/* 49 of each answer that is too short, and nothing written. */
static int refuses_short(uint32_t (*call)(size_t), size_t stated)
{
    size_t words;
    int good = 1;

    for (words = 0; words < stated; words++)
        good &= tells(call, words, SUNDERWATH_ANSWER_SPACE, NULL, 0);
    return good;
}

static int short_answers(void)
{
    return refuses_short(check, CHECK_WORDS) &
           refuses_short(slot, SLOT_WORDS) & refuses_short(make, MAKE_WORDS);
}

/* ---- plans ---- */

static int makes(const uint32_t *plan, size_t n)
{
    uint32_t want[MAKE_WORDS] = {0, 0, (uint32_t)n};

    memcpy(want + SUNDERWATH_PLAN_ANSWER_FIRST, plan, n * sizeof *plan);
    return answers(make, want, MAKE_WORDS);
}

static int checks(uint32_t number, uint32_t place)
{
    uint32_t want[CHECK_WORDS] = {number, place};

    return answers(check, want, CHECK_WORDS);
}

static int has_slot(uint64_t mpidr, uint32_t number, uint32_t place,
                    uint32_t wanted)
{
    uint32_t want[SLOT_WORDS] = {number, place, wanted};

    asked = mpidr;
    return answers(slot, want, SLOT_WORDS);
}

/* Without any one of its positions a plan of ours is none. */
static int needs_each(const uint32_t *plan, size_t n)
{
    uint32_t fewer[SUNDERWATH_MAX_PLAN];
    size_t at;
    int good = 1;

    for (at = 0; at < n; at++) {
        memcpy(fewer, plan, at * sizeof *plan);
        memcpy(fewer + at, plan + at + 1, (n - at - 1) * sizeof *plan);
        lend_positions(fewer, n - 1);
        good &= checks(SUNDERWATH_PLAN_POSITIONS, 0);
    }
    return good;
}

/* The slots of the hash stay, whatever plans there are. */
static int ordinary_slots(const struct planned *p)
{
    uint32_t words[SUNDERWATH_ANSWER_WORDS];
    size_t i;
    int good = 1;

    for (i = 0; i < p->n; i++)
        good &= sunderwath_list_slot(p->list[i], p->list, p->n, words,
                                     SUNDERWATH_ANSWER_WORDS) == 0 &&
                words[SUNDERWATH_ANSWER_COUNT] == p->hash_slots[i];
    return good;
}

static void try_plan(const struct planned *p)
{
    size_t i;
    int good = ordinary_slots(p);

    lend_list(p->list, p->n);
    report(p->name, "plan_make", makes(p->plan, p->plan_n));
    report(p->name, "each needed", needs_each(p->plan, p->plan_n));
    lend_positions(p->plan, p->plan_n);
    report(p->name, "plan_check", checks(0, 0));
    for (i = 0; i < p->n; i++)
        good &= has_slot(p->list[i], 0, 0, p->slots[i]);
    report(p->name, "plan_slot", good & ordinary_slots(p));
    report(p->name, "49", short_answers());
}

/* The slot of each single bit, of two and of none. */
static void try_all_positions(void)
{
    uint64_t list[SUNDERWATH_MAX_CPUS];
    uint32_t plan[SUNDERWATH_MAX_PLAN];
    size_t i;
    int good = 1;

    need_all_positions(list, COUNT(list), plan);
    lend_list(list, COUNT(list));
    report("all positions", "plan_make", makes(plan, COUNT(plan)));
    report("all positions", "each needed", needs_each(plan, COUNT(plan)));
    lend_positions(plan, COUNT(plan));
    report("all positions", "plan_check", checks(0, 0));
    for (i = 0; i < SUNDERWATH_MAX_PLAN; i++)
        good &= has_slot(list[1 + i], 0, 0, UINT32_C(1) << i);
    good &= has_slot(0, 0, 0, 0) & has_slot(3, 0, 0, 3);
    report("all positions", "plan_slot", good);
}

/* A refusal by all calls, or of an MPIDR that is not in the list. */
static void try_refusal(const struct refused *r)
{
    uint32_t want[MAKE_WORDS] = {r->number, r->place};
    int good = 1;

    lend_list(r->list, r->n);
    lend_positions(r->positions, r->positions_n);
    if (r->number == SUNDERWATH_LIST_UNKNOWN)
        good &= checks(0, 0);
    else
        good &= checks(r->number, r->place);
    if (r->number < SUNDERWATH_LIST_UNKNOWN)
        good &= answers(make, want, MAKE_WORDS);
    good &= has_slot(r->mpidr, r->number, r->place, 0);
    report(r->name, "told", good);
    report(r->name, "49", short_answers());
}

int main(void)
{
    size_t i;

    for (i = 0; i < COUNT(plans); i++)
        try_plan(&plans[i]);
    try_all_positions();
    for (i = 0; i < COUNT(refusals); i++)
        try_refusal(&refusals[i]);
    printf("%d different\n", failures);
    return failures == 0 ? 0 : 1;
}
