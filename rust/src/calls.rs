// SPDX-License-Identifier: BSD-2-Clause OR GPL-2.0-or-later
//! Each C call as a safe function over slices, which interprets nothing.
//!
//! The number told is returned, and the words or bytes of the answer are as include/sunderwath.h has them. Any board number,
//! any length and any content may be lent, an answer that is too short as well. The functions at the crate's root say the same
//! in types of Rust.

// SAFETY, of each call below: every pointer is that of a slice and comes with the slice's length, so it is aligned, not null
// and valid for that many elements. What is written is borrowed mutably, so it overlaps no other part, and no other thread
// sees it during the call. The library keeps no pointer and never unwinds.

use crate::raw;
use crate::Tables;

/// `sunderwath_list_hash`: the hash of a list of MPIDRs.
pub fn list_hash(list: &[u64], answer: &mut [u32]) -> u32 {
    let (out, words) = (answer.as_mut_ptr(), answer.len());
    // SAFETY: see the head of this file.
    unsafe { raw::sunderwath_list_hash(list.as_ptr(), list.len(), out, words) }
}

/// `sunderwath_list_slot`: the slot of an MPIDR in the hash of a list.
pub fn list_slot(mpidr: u64, list: &[u64], answer: &mut [u32]) -> u32 {
    let (out, words) = (answer.as_mut_ptr(), answer.len());
    // SAFETY: see the head of this file.
    unsafe { raw::sunderwath_list_slot(mpidr, list.as_ptr(), list.len(), out, words) }
}

/// `sunderwath_plan_check`: whether positions are a plan for a list.
pub fn plan_check(list: &[u64], positions: &[u32], answer: &mut [u32]) -> u32 {
    // SAFETY: see the head of this file.
    unsafe {
        raw::sunderwath_plan_check(
            list.as_ptr(),
            list.len(),
            positions.as_ptr(),
            positions.len(),
            answer.as_mut_ptr(),
            answer.len(),
        )
    }
}

/// `sunderwath_plan_slot`: the slot of an MPIDR of a list under a plan.
pub fn plan_slot(mpidr: u64, list: &[u64], positions: &[u32], answer: &mut [u32]) -> u32 {
    // SAFETY: see the head of this file.
    unsafe {
        raw::sunderwath_plan_slot(
            mpidr,
            list.as_ptr(),
            list.len(),
            positions.as_ptr(),
            positions.len(),
            answer.as_mut_ptr(),
            answer.len(),
        )
    }
}

/// `sunderwath_plan_make`: a plan for a list.
pub fn plan_make(list: &[u64], answer: &mut [u32]) -> u32 {
    let (out, words) = (answer.as_mut_ptr(), answer.len());
    // SAFETY: see the head of this file.
    unsafe { raw::sunderwath_plan_make(list.as_ptr(), list.len(), out, words) }
}

/// `sunderwath_check_tables`: rules 1 to 8 alone. For tests only; it may change or go.
pub fn check_tables(width: u32, tables: Tables<'_>, answer: &mut [u32]) -> u32 {
    let Tables { nodes, props, pool } = tables;
    // SAFETY: see the head of this file.
    unsafe {
        raw::sunderwath_check_tables(
            width,
            nodes.as_ptr(),
            nodes.len(),
            props.as_ptr(),
            props.len(),
            pool.as_ptr(),
            pool.len(),
            answer.as_mut_ptr(),
            answer.len(),
        )
    }
}

/// `sunderwath_find_property`: the lowest property of a node with a name, or [`NONE`](crate::NONE). For tests only; it may
/// change or go.
pub fn find_property(props: &[u32], pool: &[u8], node: u32, name: &[u8]) -> u32 {
    // SAFETY: see the head of this file; nothing is written.
    unsafe {
        raw::sunderwath_find_property(
            props.as_ptr(),
            props.len(),
            pool.as_ptr(),
            pool.len(),
            node,
            name.as_ptr(),
            name.len(),
        )
    }
}

/// `sunderwath_read_tables`: the rows of a board.
pub fn read_tables(width: u32, tables: Tables<'_>, rows: &mut [u32], answer: &mut [u32]) -> u32 {
    let Tables { nodes, props, pool } = tables;
    // SAFETY: see the head of this file.
    unsafe {
        raw::sunderwath_read_tables(
            width,
            nodes.as_ptr(),
            nodes.len(),
            props.as_ptr(),
            props.len(),
            pool.as_ptr(),
            pool.len(),
            rows.as_mut_ptr(),
            rows.len(),
            answer.as_mut_ptr(),
            answer.len(),
        )
    }
}

/// `sunderwath_read_tables_slots`: the rows of a board, and a table from slot to row.
pub fn read_tables_slots(
    width: u32,
    tables: Tables<'_>,
    rows: &mut [u32],
    table: &mut [u32],
    answer: &mut [u32],
) -> u32 {
    let Tables { nodes, props, pool } = tables;
    // SAFETY: see the head of this file.
    unsafe {
        raw::sunderwath_read_tables_slots(
            width,
            nodes.as_ptr(),
            nodes.len(),
            props.as_ptr(),
            props.len(),
            pool.as_ptr(),
            pool.len(),
            rows.as_mut_ptr(),
            rows.len(),
            table.as_mut_ptr(),
            table.len(),
            answer.as_mut_ptr(),
            answer.len(),
        )
    }
}

/// `sunderwath_read_flat`: the records of a flattened devicetree's `/cpus`.
pub fn read_flat(blob: &[u8], nodes: &mut [u32], props: &mut [u32], answer: &mut [u32]) -> u32 {
    // SAFETY: see the head of this file.
    unsafe {
        raw::sunderwath_read_flat(
            blob.as_ptr(),
            blob.len(),
            nodes.as_mut_ptr(),
            nodes.len(),
            props.as_mut_ptr(),
            props.len(),
            answer.as_mut_ptr(),
            answer.len(),
        )
    }
}

/// `sunderwath_read_blob`: the rows of a board from a flattened devicetree, all as bytes.
pub fn read_blob(width: u32, blob: &[u8], rows: &mut [u8], answer: &mut [u8]) -> u32 {
    // SAFETY: see the head of this file.
    unsafe {
        raw::sunderwath_read_blob(
            width,
            blob.as_ptr(),
            blob.len(),
            rows.as_mut_ptr(),
            rows.len(),
            answer.as_mut_ptr(),
            answer.len(),
        )
    }
}

/// `sunderwath_slot`: the slot of an MPIDR in the hash of a list of bytes.
pub fn slot(mpidr: u64, list: &[u8], answer: &mut [u8]) -> u32 {
    let (out, bytes) = (answer.as_mut_ptr(), answer.len());
    // SAFETY: see the head of this file.
    unsafe { raw::sunderwath_slot(mpidr, list.as_ptr(), list.len(), out, bytes) }
}
