// SPDX-License-Identifier: BSD-2-Clause OR GPL-2.0-or-later
//! Rules 1 to 8 in one pass over each table, and a lookup that stops at its match.

use crate::answer::Answer;
use crate::width::{ARM32, ARM64, RISCV};

const NODE_LIMIT: usize = 1024;
const PROP_LIMIT: usize = 4096;
const POOL_LIMIT: usize = 65536;
const CELLS: usize = 2 * PROP_LIMIT;
const EMPTY: u16 = u16::MAX;

fn inside(offset: u32, length: u32, pool: &[u8]) -> bool {
    u64::from(offset) + u64::from(length) <= pool.len() as u64
}

pub(super) fn slice(pool: &[u8], offset: u32, length: u32) -> &[u8] {
    &pool[offset as usize..offset as usize + length as usize]
}

pub fn check_tables(width: u32, nodes: &[u32], props: &[u32], pool: &[u8]) -> Answer {
    match check(width, nodes, props, pool) {
        Ok(()) => Answer::default(),
        Err(refusal) => refusal,
    }
}

pub(super) fn check(width: u32, nodes: &[u32], props: &[u32], pool: &[u8]) -> Result<(), Answer> {
    let fail = |number| Err(Answer::refusal(number, 0));
    let count = nodes.len() / 3;
    if !matches!(width, ARM32 | ARM64 | RISCV) {
        return fail(1);
    }
    if nodes.len() % 3 != 0 || count == 0 || count > NODE_LIMIT {
        return fail(2);
    }
    if props.len() % 5 != 0 || props.len() / 5 > PROP_LIMIT {
        return fail(3);
    }
    if pool.len() > POOL_LIMIT {
        return fail(4);
    }
    check_nodes(nodes, pool)?;
    check_props(count as u32, props, pool)
}

/// Keeps the open path, so that a parent is looked for in it alone.
fn check_nodes(nodes: &[u32], pool: &[u8]) -> Result<(), Answer> {
    let mut path: Vec<u32> = Vec::with_capacity(32);
    for (record, node) in nodes.chunks_exact(3).enumerate() {
        let [parent, offset, length] = [node[0], node[1], node[2]];
        if length.wrapping_sub(1) >= 64 || !inside(offset, length, pool) {
            return Err(Answer::refusal(5, record));
        }
        if record == 0 {
            if parent != u32::MAX {
                return Err(Answer::refusal(6, 0));
            }
        } else {
            while path.last().map_or(false, |&top| top != parent) {
                path.pop();
            }
            if path.is_empty() {
                return Err(Answer::refusal(6, record));
            }
        }
        path.push(record as u32);
    }
    Ok(())
}

/// FNV-1a over the node number and the name.
fn cell_of(node: u32, name: &[u8]) -> usize {
    let start = (0x811C_9DC5 ^ node).wrapping_mul(0x0100_0193);
    let hash = name.iter().fold(start, |hash, &byte| {
        (hash ^ u32::from(byte)).wrapping_mul(0x0100_0193)
    });
    (hash ^ (hash >> 15)) as usize % CELLS
}

fn check_props(count: u32, props: &[u32], pool: &[u8]) -> Result<(), Answer> {
    let mut seen = [EMPTY; CELLS];
    for (at, prop) in props.chunks_exact(5).enumerate() {
        let [node, offset, length] = [prop[0], prop[1], prop[2]];
        let [value, bytes] = [prop[3], prop[4]];
        if node >= count
            || length.wrapping_sub(1) >= 31
            || !inside(offset, length, pool)
            || !inside(value, bytes, pool)
        {
            return Err(Answer::refusal(7, at));
        }
        let name = slice(pool, offset, length);
        let mut cell = cell_of(node, name);
        while seen[cell] != EMPTY {
            let other = &props[5 * usize::from(seen[cell])..];
            if other[0] == node && slice(pool, other[1], other[2]) == name {
                return Err(Answer::refusal(8, at));
            }
            cell = (cell + 1) % CELLS;
        }
        seen[cell] = at as u16;
    }
    Ok(())
}

/// The lowest property of a node with a name that is in the pool, or 0xFFFFFFFF.
pub fn find_property(props: &[u32], pool: &[u8], node: u32, name: &[u8]) -> u32 {
    for (at, prop) in props.chunks_exact(5).enumerate() {
        if prop[0] == node
            && prop[2] as usize == name.len()
            && inside(prop[1], prop[2], pool)
            && slice(pool, prop[1], prop[2]) == name
        {
            return at as u32;
        }
    }
    u32::MAX
}
