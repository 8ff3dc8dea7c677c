// SPDX-License-Identifier: BSD-2-Clause OR GPL-2.0-or-later
//! Reading a board with a table from slots to rows.

use super::rows::{read, ROW_WORDS};
use super::tables::Tables;
use crate::answer::Answer;

const GAP: u32 = u32::MAX;
const SLOT_WORD: usize = 11;

/// More bits than these are refused.
const MOST_BITS: u32 = 12;

/// What is told after rule 27, in the order of checking.
pub const SLOT_NUMBERS: [u32; 2] = [38, 39];

/// The answer, and what both lent buffers hold afterwards.
#[derive(Clone, Debug, PartialEq, Eq)]
pub struct ReadSlots {
    pub answer: Answer,
    pub rows: Vec<u32>,
    pub table: Vec<u32>,
}

/// Two to the bit count.
fn slots(bits: u32) -> u64 {
    1 << bits
}

/// Whether a number is broken by a hash of so many bits and a table of so many
/// entries. Asked when no rule up to 27 is broken.
fn breaks(number: u32, bits: u32, entries: usize) -> bool {
    match number {
        38 => bits > MOST_BITS,
        39 => (entries as u64) < slots(bits),
        _ => false,
    }
}

/// The whole job. `rows` and `table` are the lent buffers as they were before;
/// `rows` has the room that the tables say.
pub fn read_slots(tables: &Tables, rows: &[u32], table: &[u32]) -> ReadSlots {
    assert_eq!(rows.len(), tables.room);
    let untouched = |answer| ReadSlots {
        answer,
        rows: rows.to_vec(),
        table: table.to_vec(),
    };
    let (answer, written) = read(tables);
    if answer.number != 0 {
        return untouched(answer);
    }
    let broken = |&number: &u32| breaks(number, answer.bits, table.len());
    if let Some(number) = SLOT_NUMBERS.into_iter().find(broken) {
        return untouched(Answer::refusal(number, 0));
    }
    let entries: Vec<u32> = (0..slots(answer.bits))
        .map(|slot| entry(&written, slot as u32))
        .collect();
    ReadSlots {
        answer,
        rows: from_the_start(rows, &written),
        table: from_the_start(table, &entries),
    }
}

/// The number of the row with a slot, or GAP. A row of a RISC-V board has none;
/// its table is one entry, as it has no bits.
fn entry(rows: &[u32], slot: u32) -> u32 {
    let has_it = |row: &[u32]| row[SLOT_WORD] == slot;
    let row = rows.chunks(ROW_WORDS).position(has_it);
    row.map_or(GAP, |row| row as u32)
}

/// A lent buffer that is filled from its start; the rest stays.
fn from_the_start(before: &[u32], words: &[u32]) -> Vec<u32> {
    [words, &before[words.len()..]].concat()
}
