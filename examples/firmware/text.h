/* SPDX-License-Identifier: BSD-2-Clause OR GPL-2.0-or-later */
/*
 * text.h - text on the UART
 */
#ifndef TEXT_H
#define TEXT_H

#include <stdint.h>

/* A line feed is sent as carriage return and line feed. */
void put_text(const char *text);

/* A number in decimal. */
void put_number(uint64_t number);

/* A number in hexadecimal, as 0x100. */
void put_hex(uint64_t number);

#endif /* TEXT_H */
