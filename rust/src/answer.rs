// SPDX-License-Identifier: BSD-2-Clause OR GPL-2.0-or-later
//! What the library answers on acceptance.

use crate::layout::{
    ANSWER_BITS, ANSWER_COUNT, ANSWER_MASK_HIGH, ANSWER_MASK_LOW, ANSWER_SHIFTS, ANSWER_WORDS,
};
use crate::{Kind, Row};

/// The hash of a list of MPIDRs that gives each its own slot.
///
/// The slot of an MPIDR is made of its four affinity levels: of each the bits under the mask, moved right by the level's shift,
/// joined by or. One that is not in the list can fall on a slot of another: [`list_slot`](crate::list_slot) tells the two apart.
#[derive(Clone, Copy, Debug, PartialEq, Eq, Hash)]
pub struct Hash {
    /// The bits in which the MPIDRs differ.
    pub mask: u64,
    /// The shift of each affinity level, level 0 first.
    pub shifts: [u32; 4],
    /// The bits of a slot.
    pub bits: u32,
}

impl Hash {
    /// How many slots there are: 2 to the bits; 1 for a RISC-V board, whose rows have none.
    pub const fn slots(&self) -> u64 {
        1 << self.bits
    }

    pub(crate) fn of_words(words: &[u32; ANSWER_WORDS]) -> Self {
        let shift = |level| words[ANSWER_SHIFTS + level];
        Hash {
            mask: u64::from(words[ANSWER_MASK_HIGH]) << 32 | u64::from(words[ANSWER_MASK_LOW]),
            shifts: [shift(0), shift(1), shift(2), shift(3)],
            bits: words[ANSWER_BITS],
        }
    }
}

/// A board that was accepted; its rows are in the buffer that was lent.
#[derive(Clone, Copy, Debug, PartialEq, Eq, Hash)]
pub struct Board {
    /// The kind that it was read as.
    pub kind: Kind,
    /// How many processors it has, one row for each.
    pub count: usize,
    /// The hash of its MPIDRs. A RISC-V board has none: mask and bits are 0 then.
    pub hash: Hash,
}

impl Board {
    pub(crate) fn of_words(kind: Kind, words: &[u32; ANSWER_WORDS]) -> Self {
        Board {
            kind,
            count: words[ANSWER_COUNT] as usize,
            hash: Hash::of_words(words),
        }
    }

    /// The rows of the board, in the order of the map's leaves, from the buffer that was lent to the call.
    pub fn rows<'a>(&self, words: &'a [u32]) -> impl Iterator<Item = Row> + 'a {
        crate::rows(self.kind, words).take(self.count)
    }
}

/// How many records [`read_flat`](crate::read_flat) has written.
#[derive(Clone, Copy, Debug, PartialEq, Eq, Hash)]
pub struct Records {
    /// Node records.
    pub nodes: usize,
    /// Property records.
    pub properties: usize,
}
