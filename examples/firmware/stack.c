/* SPDX-License-Identifier: BSD-2-Clause OR GPL-2.0-or-later */
/*
 * stack.c - the stack, and how much of it was used
 *
 * Start-up fills it with PAINT and sets the stack pointer to its end.
 */
#include "stack.h"

#define PAINT 0xA5

/* Frames have holes that nobody writes to, so more than one byte has to be left. */
#define LEFT_BYTES 1024

extern uint8_t stack[STACK_BYTES];
_Alignas(16) uint8_t stack[STACK_BYTES] __attribute__((section(".stack")));

size_t stack_used(void)
{
    size_t free = 0;

    while (free < STACK_BYTES && stack[free] == PAINT)
        free++;
    return STACK_BYTES - free;
}

bool stack_sufficed(void)
{
    return stack_used() <= STACK_BYTES - LEFT_BYTES;
}
