// SPDX-License-Identifier: BSD-2-Clause OR GPL-2.0-or-later
//! One processor of a board.

use crate::layout::{
    GAP, ROW_BYTES, ROW_CLUSTERS, ROW_CORE, ROW_CPU, ROW_LEAF, ROW_MPIDR_LOWER, ROW_MPIDR_UPPER,
    ROW_SLOT, ROW_SOCKET, ROW_THREAD, ROW_WORDS,
};
use crate::Kind;

/// One processor: its place in the map, its MPIDR and its save slot, or its hart id.
#[derive(Clone, Copy, Debug, PartialEq, Eq, Hash)]
pub struct Row {
    /// The node record of the thread or core.
    pub leaf: u32,
    /// The node record of its cpu node.
    pub cpu: u32,
    /// The MPIDR or, on a RISC-V board, the hart id.
    pub reg: u64,
    /// The socket's number; none where the map states no socket.
    pub socket: Option<u32>,
    /// The numbers of the clusters, outermost first; none behind the innermost one.
    pub clusters: [Option<u32>; 4],
    /// The core's number.
    pub core: u32,
    /// The thread's number; none for a core without threads.
    pub thread: Option<u32>,
    /// The save slot; none on a RISC-V board.
    pub slot: Option<u32>,
}

/// The number in a word that can be a gap.
fn number_or_none(word: u32) -> Option<u32> {
    (word != GAP).then_some(word)
}

impl Row {
    /// The row that the first words are.
    ///
    /// # Panics
    ///
    /// With fewer than [`ROW_WORDS`](crate::ROW_WORDS) words.
    pub fn of_words(kind: Kind, words: &[u32]) -> Self {
        let words = &words[..ROW_WORDS];
        let cluster = |level| number_or_none(words[ROW_CLUSTERS + level]);
        Row {
            leaf: words[ROW_LEAF],
            cpu: words[ROW_CPU],
            reg: u64::from(words[ROW_MPIDR_UPPER]) << 32 | u64::from(words[ROW_MPIDR_LOWER]),
            socket: number_or_none(words[ROW_SOCKET]),
            clusters: [cluster(0), cluster(1), cluster(2), cluster(3)],
            core: words[ROW_CORE],
            thread: number_or_none(words[ROW_THREAD]),
            // With MPIDRs every word is a slot, 0xFFFFFFFF too.
            slot: kind.has_mpidrs().then_some(words[ROW_SLOT]),
        }
    }

    /// The row that the first bytes are, as [`read_blob`](crate::read_blob) writes them.
    ///
    /// # Panics
    ///
    /// With fewer than [`ROW_BYTES`](crate::ROW_BYTES) bytes.
    pub fn of_bytes(kind: Kind, bytes: &[u8]) -> Self {
        let mut words = [0; ROW_WORDS];
        for (word, bytes) in words.iter_mut().zip(bytes[..ROW_BYTES].chunks_exact(4)) {
            *word = u32::from_le_bytes([bytes[0], bytes[1], bytes[2], bytes[3]]);
        }
        Self::of_words(kind, &words)
    }
}

/// The rows in a buffer of words: as many as fit. The buffer does not say how many of them the board has;
/// [`Board::rows`](crate::Board::rows) ends there.
pub fn rows(kind: Kind, words: &[u32]) -> impl Iterator<Item = Row> + '_ {
    let rows = words.chunks_exact(ROW_WORDS);
    rows.map(move |row| Row::of_words(kind, row))
}

/// The rows in a buffer of bytes: as many as fit. [`read_blob`](crate::read_blob) tells how many of them the board has.
pub fn rows_of_bytes(kind: Kind, bytes: &[u8]) -> impl Iterator<Item = Row> + '_ {
    let rows = bytes.chunks_exact(ROW_BYTES);
    rows.map(move |row| Row::of_bytes(kind, row))
}

#[cfg(test)]
mod tests {
    use super::*;
    use std::vec::Vec;

    const WORDS: [u32; ROW_WORDS] = [3, 6, 1, 0x100, GAP, 2, 0, GAP, GAP, 5, GAP, GAP];

    #[test]
    fn words_by_name() {
        let row = Row::of_words(Kind::Arm64, &WORDS);
        let expected = Row {
            leaf: 3,
            cpu: 6,
            reg: 0x1_0000_0100,
            socket: None,
            clusters: [Some(2), Some(0), None, None],
            core: 5,
            thread: None,
            slot: Some(u32::MAX),
        };
        assert_eq!(row, expected);
        let slot = None;
        let hart = Row::of_words(Kind::Riscv, &WORDS);
        assert_eq!(hart, Row { slot, ..expected });
    }

    #[test]
    fn bytes_are_the_words_lowest_first() {
        let words: Vec<u32> = (1..=ROW_WORDS as u32).map(|k| k * 0x0102_0304).collect();
        let bytes: Vec<u8> = words.iter().flat_map(|word| word.to_le_bytes()).collect();
        for kind in Kind::ALL {
            let row = Row::of_words(kind, &words);
            assert_eq!(Row::of_bytes(kind, &bytes), row);
        }
    }

    #[test]
    fn a_row_that_is_not_whole_is_none() {
        let mut words = WORDS.repeat(2);
        words[ROW_WORDS] = 7;
        words.push(0);
        let leaves =
            |words: &[u32]| -> Vec<u32> { rows(Kind::Arm64, words).map(|row| row.leaf).collect() };
        assert_eq!(leaves(&words), [3, 7]);
        assert_eq!(leaves(&words[1..]).len(), 2);
        assert_eq!(leaves(&words[2..]).len(), 1);
        let bytes: Vec<u8> = words.iter().flat_map(|word| word.to_le_bytes()).collect();
        let leaves = rows_of_bytes(Kind::Arm64, &bytes).map(|row| row.leaf);
        assert!(leaves.eq([3, 7]));
    }
}
