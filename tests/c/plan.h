/* SPDX-License-Identifier: BSD-2-Clause OR GPL-2.0-or-later */
/*
 * A list whose only plan has all positions.
 */
#ifndef PLAN_H
#define PLAN_H

#include "sunderwath.h"

/* Fills a list with zero, each single bit and pairs of bits, up to `n`; from 33
 * MPIDRs on a plan needs every position. */
static inline void need_all_positions(uint64_t *list, size_t n,
                                      uint32_t plan[SUNDERWATH_MAX_PLAN])
{
    size_t a, b, at = 1;

    for (b = 0; b < SUNDERWATH_MAX_PLAN; b++)
        plan[b] = (uint32_t)(b < 24 ? b : b + 8);
    list[0] = 0;
    for (b = 0; b < SUNDERWATH_MAX_PLAN && at < n; b++)
        list[at++] = UINT64_C(1) << plan[b];
    for (b = 0; b < SUNDERWATH_MAX_PLAN; b++)
        for (a = 0; a < b && at < n; a++)
            list[at++] = list[1 + a] | list[1 + b];
}

#endif /* PLAN_H */
