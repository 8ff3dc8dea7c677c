/* SPDX-License-Identifier: BSD-2-Clause OR GPL-2.0-or-later */
/*
 * text.c - text on the UART
 */
#include "text.h"

#include "machine.h"

void put_text(const char *text)
{
    for (; *text; text++) {
        if (*text == '\n')
            machine_put('\r');
        machine_put(*text);
    }
}

/* Digits are found from the last to the first; 20 are enough for 64 bits. */
static void put_digits(uint64_t number, uint32_t base)
{
    char digits[21];
    char *first = digits + 20;

    *first = '\0';
    do
        *--first = "0123456789abcdef"[number % base];
    while (number /= base);
    put_text(first);
}

void put_number(uint64_t number)
{
    put_digits(number, 10);
}

void put_hex(uint64_t number)
{
    put_text("0x");
    put_digits(number, 16);
}
