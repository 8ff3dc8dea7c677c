/* SPDX-License-Identifier: BSD-2-Clause OR GPL-2.0-or-later */
/*
 * rows.h - the rows and the answer of sunderwath_read_blob, in words and as text
 */
#ifndef ROWS_H
#define ROWS_H

#include <stdint.h>

/* What rows_find returns where no row has the id. */
#define ROWS_NONE 0xFFFFFFFFu

/* The little-endian word of an answer or a row. */
uint32_t word_at(const uint8_t *bytes);

/* The columns, and a line for each row, as `sunderwath -p` prints them without the names. */
void rows_print(const uint8_t *rows, uint32_t count);

/* The number of the row that has an id. */
uint32_t rows_find(const uint8_t *rows, uint32_t count, uint64_t id);

/* An id as the board writes it, and the slot of a row with the text before it, if it has one. */
void rows_put_id(uint64_t id);
void rows_put_slot(const uint8_t *rows, uint32_t number, const char *before);

#endif /* ROWS_H */
