// SPDX-License-Identifier: BSD-2-Clause OR GPL-2.0-or-later
//! The constants of include/sunderwath.h, by the same names without the prefix: sizes, positions of words, limits, marks.

macro_rules! constants {
    ($($(#[$doc:meta])* $name:ident: $type:ty = $value:expr;)*) => {
        $($(#[$doc])* pub const $name: $type = $value;)*

        /// Name and value of each, to compare them with the header.
        #[cfg(test)]
        const NAMED: &[(&str, u64)] = &[$((stringify!($name), $name as u64)),*];
    };
}

constants! {
    /// Words of an answer.
    ANSWER_WORDS: usize = 11;
    /// Word of an answer: 0, or the number of the rule broken.
    ANSWER_NUMBER: usize = 0;
    /// Word of an answer: where the rule is broken.
    ANSWER_PLACE: usize = 1;
    /// Word of an answer: processors; for `list_slot` the slot.
    ANSWER_COUNT: usize = 2;
    /// Word of an answer: bits 31..0 of the mask.
    ANSWER_MASK_LOW: usize = 3;
    /// Word of an answer: bits 63..32 of the mask.
    ANSWER_MASK_HIGH: usize = 4;
    /// First of four words of an answer: the shifts, affinity level 0 first.
    ANSWER_SHIFTS: usize = 5;
    /// Word of an answer: bits of a slot.
    ANSWER_BITS: usize = 9;
    /// Word of an answer: the second place, a property record or [`NO_PROPERTY`].
    ANSWER_SECOND: usize = 10;
    /// The second place of an answer that speaks of no property record.
    NO_PROPERTY: u32 = u32::MAX;

    /// Words of the answer of `read_flat`.
    FLAT_ANSWER_WORDS: usize = 4;
    /// Word of the answer of `read_flat`: node records written.
    FLAT_NODES: usize = 2;
    /// Word of the answer of `read_flat`: property records written.
    FLAT_PROPERTIES: usize = 3;

    /// Bytes of the answer of `read_blob` and `slot`: four words, the lowest byte of each first.
    BYTES_ANSWER: usize = 16;
    /// Byte at which the number begins in an answer of bytes.
    BYTES_NUMBER: usize = 0;
    /// Byte at which the place begins in an answer of bytes.
    BYTES_PLACE: usize = 4;
    /// Byte at which the second place begins in an answer of bytes.
    BYTES_SECOND: usize = 8;
    /// Byte at which the count begins in an answer of bytes: processors; for `slot` the slot.
    BYTES_COUNT: usize = 12;

    /// Words of the answer of `plan_check`.
    PLAN_CHECK_ANSWER_WORDS: usize = 2;
    /// Words of the answer of `plan_slot`.
    PLAN_SLOT_ANSWER_WORDS: usize = 3;
    /// Words of the answer of `plan_make`.
    PLAN_MAKE_ANSWER_WORDS: usize = 35;
    /// Word of the answer of `plan_slot`: the slot.
    PLAN_ANSWER_SLOT: usize = 2;
    /// Word of the answer of `plan_make`: how many positions there are.
    PLAN_ANSWER_LENGTH: usize = 2;
    /// First of 32 words of the answer of `plan_make`: the positions, rising, and 0 behind them.
    PLAN_ANSWER_FIRST: usize = 3;

    /// Words of a row.
    ROW_WORDS: usize = 12;
    /// Bytes of a row that `read_blob` writes.
    ROW_BYTES: usize = 4 * ROW_WORDS;
    /// Word of a row: node record of the thread or core.
    ROW_LEAF: usize = 0;
    /// Word of a row: node record of its cpu node.
    ROW_CPU: usize = 1;
    /// Word of a row: upper cell of `reg`, 0 for one cell.
    ROW_MPIDR_UPPER: usize = 2;
    /// Word of a row: lower cell of `reg`.
    ROW_MPIDR_LOWER: usize = 3;
    /// Word of a row of a RISC-V board: the hart id.
    ROW_HART: usize = ROW_MPIDR_LOWER;
    /// Word of a row: socket number or [`GAP`].
    ROW_SOCKET: usize = 4;
    /// First of four words of a row: cluster numbers, outermost first, or [`GAP`].
    ROW_CLUSTERS: usize = 5;
    /// Word of a row: core number.
    ROW_CORE: usize = 9;
    /// Word of a row: thread number or [`GAP`].
    ROW_THREAD: usize = 10;
    /// Word of a row: slot, of which 0xFFFFFFFF is one; on a RISC-V board [`GAP`].
    ROW_SLOT: usize = 11;
    /// A number that the map does not have, the slot in a row of a RISC-V board, and in a table of slots the entry of a slot
    /// that no processor has.
    GAP: u32 = u32::MAX;

    /// Bytes of an MPIDR in the list of `slot`, the lowest first.
    MPIDR_BYTES: usize = 8;
    /// Words of a node record: parent, name offset, name length.
    NODE_WORDS: usize = 3;
    /// Words of a property record: node, name offset, name length, value offset, value length.
    PROPERTY_WORDS: usize = 5;
    /// Parent word of node record 0, and what `find_property` returns if there is no such property.
    NONE: u32 = u32::MAX;

    /// Limit: bytes of a blob.
    MAX_BLOB: usize = 65536;
    /// Limit: node records.
    MAX_NODES: usize = 1024;
    /// Limit: property records.
    MAX_PROPERTIES: usize = 4096;
    /// Limit: bytes of a pool.
    MAX_POOL: usize = 65536;
    /// Limit: cpu nodes.
    MAX_CPUS: usize = 256;
    /// Limit: bits of a hash that has a table of slots.
    MAX_TABLE_BITS: u32 = 12;
    /// Entries of a table of slots with room for each such hash.
    MAX_TABLE: usize = 1 << MAX_TABLE_BITS;
    /// Limit: positions of a plan, one for each affinity bit.
    MAX_PLAN: usize = 32;
    /// Node records of `/cpus` that `read_blob` has room for, on the stack.
    BLOB_MAX_NODES: usize = 1024;
    /// Property records of `/cpus` that `read_blob` has room for, on the stack.
    BLOB_MAX_PROPERTIES: usize = 1024;
}

#[cfg(test)]
mod tests {
    use super::*;
    use crate::header::constants;
    use std::collections::BTreeMap;

    /// Every constant of the header is here with the same value, and no other one.
    #[test]
    fn constants_of_the_header() {
        let here: BTreeMap<&str, u64> = NAMED.iter().copied().collect();
        let mut there = constants();
        for kind in ["ARM32", "ARM64", "RISCV"] {
            assert!(there.remove(kind).is_some(), "{kind}");
        }
        assert_eq!(here, there);
        assert_eq!(here.len(), NAMED.len());
    }
}
