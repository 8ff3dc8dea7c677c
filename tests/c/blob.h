/* SPDX-License-Identifier: BSD-2-Clause OR GPL-2.0-or-later */
/*
 * Builds a flattened devicetree, token by token: the structure block behind the
 * header, the strings block behind that.
 */
#ifndef BLOB_H
#define BLOB_H

#include "sunderwath.h"

#include <string.h>

#define STRUCTURE 40

enum { BEGIN_NODE = 1, END_NODE = 2, PROP = 3, NOP = 4, END = 9 };

struct blob {
    uint8_t bytes[SUNDERWATH_MAX_BLOB];
    size_t n;
    char strings[SUNDERWATH_MAX_BLOB];
    size_t strings_n;
};

static inline void set_word(struct blob *blob, size_t at, uint32_t word)
{
    blob->bytes[at] = (uint8_t)(word >> 24);
    blob->bytes[at + 1] = (uint8_t)(word >> 16);
    blob->bytes[at + 2] = (uint8_t)(word >> 8);
    blob->bytes[at + 3] = (uint8_t)word;
}

static inline void put_word(struct blob *blob, uint32_t word)
{
    set_word(blob, blob->n, word);
    blob->n += 4;
}

/* Bytes, and padding that is not zero. */
static inline void put_bytes(struct blob *blob, const void *bytes,
                             size_t length)
{
    memcpy(blob->bytes + blob->n, bytes, length);
    blob->n += length;
    while (blob->n % 4 != 0)
        blob->bytes[blob->n++] = 0xEE;
}

static inline void put_begin(struct blob *blob, const char *name)
{
    put_word(blob, BEGIN_NODE);
    put_bytes(blob, name, strlen(name) + 1);
}

static inline void put_prop(struct blob *blob, const char *name,
                            const void *value, size_t length)
{
    put_word(blob, PROP);
    put_word(blob, (uint32_t)length);
    put_word(blob, (uint32_t)blob->strings_n);
    memcpy(blob->strings + blob->strings_n, name, strlen(name) + 1);
    blob->strings_n += strlen(name) + 1;
    put_bytes(blob, value, length);
}

/* A new blob, with only the begin token of its root. */
static inline void start_blob(struct blob *blob)
{
    memset(blob, 0, sizeof *blob);
    blob->n = STRUCTURE;
    put_begin(blob, "");
}

/* The strings block, and the header. */
static inline void finish_blob(struct blob *blob)
{
    uint32_t structure = (uint32_t)(blob->n - STRUCTURE);
    uint32_t total = (uint32_t)(blob->n + blob->strings_n);
    const uint32_t header[10] = {
        0xD00DFEED, total, STRUCTURE, (uint32_t)blob->n, 0, 17, 16, 0,
        (uint32_t)blob->strings_n, structure};
    size_t i;

    for (i = 0; i < 10; i++)
        set_word(blob, 4 * i, header[i]);
    memcpy(blob->bytes + blob->n, blob->strings, blob->strings_n);
    blob->n = total;
}

#endif /* BLOB_H */
