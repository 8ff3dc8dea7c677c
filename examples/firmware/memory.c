/* SPDX-License-Identifier: BSD-2-Clause OR GPL-2.0-or-later */
/*
 * memory.c - memset and memcpy, the two functions that the library and the compiler call
 *
 * To be compiled so that the loops are not made into calls of these functions themselves.
 */
#include <stddef.h>
#include <stdint.h>

void *memset(void *to, int byte, size_t count);
void *memcpy(void *restrict to, const void *restrict from, size_t count);

void *memset(void *to, int byte, size_t count)
{
    uint8_t *at = to;

    while (count--)
        *at++ = (uint8_t)byte;
    return to;
}

void *memcpy(void *restrict to, const void *restrict from, size_t count)
{
    uint8_t *at = to;
    const uint8_t *source = from;

    while (count--)
        *at++ = *source++;
    return to;
}
