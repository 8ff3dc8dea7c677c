/* SPDX-License-Identifier: BSD-2-Clause OR GPL-2.0-or-later */
/*
 * Fewer save slots. The build of a firmware makes a plan for the board's MPIDRs, once, and ships the list and the positions. At boot the
 * firmware checks them, and each processor that wakes asks for its slot. Positions that are no plan for the list are refused. Damage that
 * leaves another plan is not seen: its slots are distinct all the same, but may be others.
 *
 *   gcc -Iinclude examples/plan_slots.c target/archive/x86_64/libsunderwath.a -o plan_slots && ./plan_slots
 */
#include <stdio.h>

#include "sunderwath.h"

/* The board's MPIDRs: two clusters of two cores, the second one numbered 5. */
static const uint64_t list[] = { 0x0, 0x1, 0x500, 0x501 };
enum { COUNT = sizeof list / sizeof list[0] };

/* What is shipped beside the list. */
static uint32_t positions[SUNDERWATH_MAX_PLAN];
static size_t length;

/* The affinity bits: the register MPIDR has others beside them, such as bit 31. */
#define AFFINITY UINT64_C(0xFF00FFFFFF)

/* On the build machine. Any planner will do, as the plan is checked at boot; this is the library's own. */
static uint32_t build(void)
{
    uint32_t hash[SUNDERWATH_ANSWER_WORDS], plan[SUNDERWATH_PLAN_MAKE_ANSWER_WORDS], number;
    size_t k;

    number = sunderwath_plan_make(list, COUNT, plan, SUNDERWATH_PLAN_MAKE_ANSWER_WORDS);
    if (number != 0)
        return number;
    sunderwath_list_hash(list, COUNT, hash, SUNDERWATH_ANSWER_WORDS); /* refuses no list that has a plan */
    length = plan[SUNDERWATH_PLAN_ANSWER_LENGTH];
    printf("positions");
    for (k = 0; k < length; k++) {
        positions[k] = plan[SUNDERWATH_PLAN_ANSWER_FIRST + k];
        printf(" %u", (unsigned)positions[k]);
    }
    printf(": %llu slots before, %llu after\n", 1ULL << hash[SUNDERWATH_ANSWER_BITS], 1ULL << length);
    return 0;
}

/* At boot: no slot is used under a plan that is none. The call believes the count, so one that was shipped is looked at first. */
static uint32_t boot(void)
{
    uint32_t answer[SUNDERWATH_PLAN_CHECK_ANSWER_WORDS];

    if (length > SUNDERWATH_MAX_PLAN)
        return SUNDERWATH_PLAN_POSITIONS;
    return sunderwath_plan_check(list, COUNT, positions, length, answer, SUNDERWATH_PLAN_CHECK_ANSWER_WORDS);
}

/* A processor that is not in the list has no slot: it never takes that of another. */
static void wake(uint64_t mpidr)
{
    uint32_t answer[SUNDERWATH_PLAN_SLOT_ANSWER_WORDS], number;

    number = sunderwath_plan_slot(mpidr & AFFINITY, list, COUNT, positions, length, answer, SUNDERWATH_PLAN_SLOT_ANSWER_WORDS);
    if (number == 0)
        printf("mpidr 0x%llx: slot %u\n", (unsigned long long)mpidr, (unsigned)answer[SUNDERWATH_PLAN_ANSWER_SLOT]);
    else
        printf("mpidr 0x%llx: refused, number %u\n", (unsigned long long)mpidr, (unsigned)number);
}

int main(void)
{
    /* The four of the list, and one with the bits of the last at both positions. */
    static const uint64_t waking[] = { 0x80000000, 0x80000001, 0x80000500, 0x80000501, 0x80000401 };
    uint32_t number;
    size_t k;

    if ((number = build()) != 0 || (number = boot()) != 0) {
        printf("refused: number %u\n", (unsigned)number);
        return 1;
    }
    for (k = 0; k < sizeof waking / sizeof waking[0]; k++)
        wake(waking[k]);
    positions[1] ^= 1; /* one bit, damaged on the way: no plan any more */
    printf("damaged: positions %u %u, number %u\n", (unsigned)positions[0], (unsigned)positions[1], (unsigned)boot());
    return 0;
}
