// SPDX-License-Identifier: BSD-2-Clause OR GPL-2.0-or-later
//! The two calls on bytes. Blobs, boards and lists are read by the other files;
//! here is what the calls add: the limits, the byte order, lengths and 49.

use super::{flat_answer, list_slot, read, read_flat, Tables};
use crate::answer::{Answer, SHORT_ANSWER};

/// Bytes of an answer: number, place, second place, count or slot.
pub const BYTES_ANSWER: usize = 16;

/// Records of the `/cpus` subtree that the blob call holds.
pub const MOST_NODES: usize = 1024;
pub const MOST_PROPERTIES: usize = 1024;

const NODE_WORDS: usize = 3;
const PROPERTY_WORDS: usize = 5;
const WORD_BYTES: usize = 4;
const MPIDR_BYTES: usize = 8;

/// What a call tells, and the words of its rows.
#[derive(Clone, Debug, PartialEq, Eq)]
pub struct Told {
    /// None where the lent answer is too short.
    pub answer: Option<Answer>,
    pub rows: Vec<u32>,
}

impl Told {
    /// Nothing is written into an answer that is too short.
    fn unless_short(answer_n: usize, read: impl FnOnce() -> (Answer, Vec<u32>)) -> Told {
        let (answer, rows) = if answer_n < BYTES_ANSWER {
            (None, Vec::new())
        } else {
            let (answer, rows) = read();
            (Some(answer), rows)
        };
        Told { answer, rows }
    }

    /// The number that is given back.
    pub fn number(&self) -> u32 {
        self.answer.map_or(SHORT_ANSWER, |answer| answer.number)
    }

    /// Number, place, second place, count or slot, where they are written.
    pub fn words(&self) -> Option<[u32; 4]> {
        self.answer.map(|a| [a.number, a.place, a.second, a.count])
    }

    /// What is written from the start of the answer.
    pub fn answer_bytes(&self) -> Vec<u8> {
        little_endian(self.words().as_ref().map_or(&[], |words| words))
    }

    /// What is written from the start of the rows.
    pub fn row_bytes(&self) -> Vec<u8> {
        little_endian(&self.rows)
    }
}

/// Each word with its lowest byte first.
fn little_endian(words: &[u32]) -> Vec<u8> {
    let bytes = |&word: &u32| [0, 8, 16, 24].map(|at| (word >> at & 0xFF) as u8);
    words.iter().flat_map(bytes).collect()
}

/// A blob, for rows and an answer of so many bytes.
pub fn read_blob(width: u32, blob: &[u8], rows_n: usize, answer_n: usize) -> Told {
    Told::unless_short(answer_n, || {
        let (nodes, props) = (NODE_WORDS * MOST_NODES, PROPERTY_WORDS * MOST_PROPERTIES);
        let flat = read_flat(blob, nodes, props);
        match &flat {
            // A row word has room if all its bytes have.
            Ok(t) => read(&Tables::new(
                width,
                &t.nodes,
                &t.props,
                blob,
                rows_n / WORD_BYTES,
            )),
            Err(_) => {
                let told = flat_answer(&flat);
                (
                    Answer::refusal(told.number, told.place as usize),
                    Vec::new(),
                )
            }
        }
    })
}

/// The slot of an MPIDR in a list of bytes, for an answer of so many bytes.
pub fn slot(mpidr: u64, list: &[u8], answer_n: usize) -> Told {
    Told::unless_short(answer_n, || {
        let answer = match list.len() % MPIDR_BYTES {
            0 => list_slot(mpidr, &mpidrs(list)),
            _ => Answer::refusal(28, 0),
        };
        (answer, Vec::new())
    })
}

/// The MPIDRs of a list of whole ones, the lowest byte of each first.
fn mpidrs(list: &[u8]) -> Vec<u64> {
    let add = |sum: u64, &byte: &u8| sum << 8 | u64::from(byte);
    let mpidr = |bytes: &[u8]| bytes.iter().rev().fold(0, add);
    list.chunks(MPIDR_BYTES).map(mpidr).collect()
}

/// A list of MPIDRs as the call takes it.
pub fn list_bytes(list: &[u64]) -> Vec<u8> {
    let halves = |&mpidr: &u64| [mpidr as u32, (mpidr >> 32) as u32];
    little_endian(&list.iter().flat_map(halves).collect::<Vec<u32>>())
}
