/* SPDX-License-Identifier: BSD-2-Clause OR GPL-2.0-or-later */
/*
 * tree.h - the bytes that are lent to the library
 */
#ifndef TREE_H
#define TREE_H

#include <stddef.h>
#include <stdint.h>

struct tree {
    const uint8_t *bytes;
    size_t count;
};

/*
 * What to lend of the devicetree at an address, so that the library can say whether it is one.
 * Nothing is judged here: whatever stands at the address, something is lent, and a damaged tree is
 * lent with its damage.
 */
struct tree tree_lend(const uint8_t *at);

#endif /* TREE_H */
