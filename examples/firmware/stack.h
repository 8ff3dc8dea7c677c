/* SPDX-License-Identifier: BSD-2-Clause OR GPL-2.0-or-later */
/*
 * stack.h - the stack, and how much of it was used
 */
#ifndef STACK_H
#define STACK_H

#include <stdbool.h>
#include <stddef.h>

#include "sunderwath.h"

/* What the library's call needs at most, and more than enough for the functions here; a multiple
 * of 16, as the processors want it. */
#define OWN_STACK_BYTES 4096
#define STACK_BYTES ((SUNDERWATH_BLOB_STACK_BYTES + OWN_STACK_BYTES + 15) / 16 * 16)

/* The most bytes used so far. */
size_t stack_used(void);

/* Whether it was long enough: some of it was never used. */
bool stack_sufficed(void);

#endif /* STACK_H */
