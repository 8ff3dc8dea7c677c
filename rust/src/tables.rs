// SPDX-License-Identifier: BSD-2-Clause OR GPL-2.0-or-later
//! The three tables of a `/cpus` subtree, lent to a call.

/// The `/cpus` subtree of a devicetree as three plain tables.
///
/// Nothing of them is assumed: a call checks them, and refuses what is not well formed.
#[derive(Clone, Copy, Debug, Default, PartialEq, Eq)]
pub struct Tables<'a> {
    /// Node records, depth first, [`NODE_WORDS`](crate::NODE_WORDS) words each: parent, name offset, name length. Record 0 is
    /// the cpus node, with [`NONE`](crate::NONE) as its parent.
    pub nodes: &'a [u32],
    /// Property records, [`PROPERTY_WORDS`](crate::PROPERTY_WORDS) words each: node, name offset, name length, value offset,
    /// value length.
    pub props: &'a [u32],
    /// The bytes that offsets count from. For records that [`read_flat`](crate::read_flat) wrote, the blob itself.
    pub pool: &'a [u8],
}
