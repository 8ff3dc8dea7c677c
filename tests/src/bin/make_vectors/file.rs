// SPDX-License-Identifier: BSD-2-Clause OR GPL-2.0-or-later
//! The two files. All words have their lowest byte first.
//!
//! `vectors` begins with the number of calls. A call is five words (its number,
//! the start, the fill, and what is asked, lower half first) and its parts: the
//! count of elements and, of a part that is only read, the elements, with zero
//! bytes up to a whole word.
//!
//! `expected` has for each call the word that is given back and then each part:
//! of one that is only read the count of bytes that changed, canaries included,
//! as a word; of one that is written a canary, its elements and a canary.

use crate::vector::{Call, Ground, Part, Vector};

/// Bytes before and behind each part that have to stay as they are.
pub const CANARY: usize = 16;

#[derive(Default)]
pub struct Files {
    pub vectors: Vec<u8>,
    pub expected: Vec<u8>,
}

pub fn files(list: &[Vector]) -> Files {
    let mut files = Files::default();
    word(&mut files.vectors, list.len() as u32);
    for vector in list {
        files.add(vector);
    }
    files
}

fn word(bytes: &mut Vec<u8>, word: u32) {
    bytes.extend(word.to_le_bytes());
}

fn le_bytes(words: &[u32]) -> Vec<u8> {
    words.iter().flat_map(|word| word.to_le_bytes()).collect()
}

impl Files {
    fn add(&mut self, vector: &Vector) {
        let Ground { start, fill } = vector.ground;
        let number = Call::ALL.iter().position(|call| *call == vector.call);
        let number = number.expect("all calls are listed") as u32;
        let (low, high) = (vector.asked as u32, (vector.asked >> 32) as u32);
        for asked in [number, start, fill, low, high] {
            word(&mut self.vectors, asked);
        }
        word(&mut self.expected, vector.number);
        for part in &vector.parts {
            self.part(fill, part);
        }
    }

    fn part(&mut self, fill: u32, part: &Part) {
        match part {
            Part::Words(words) => self.read(words.len(), &le_bytes(words)),
            Part::Bytes(bytes) => self.read(bytes.len(), bytes),
            Part::Mpidrs(list) => {
                let bytes: Vec<u8> = list.iter().flat_map(|mpidr| mpidr.to_le_bytes()).collect();
                self.read(list.len(), &bytes);
            }
            Part::WordsAfter(words) => {
                let canary = le_bytes(&[fill; CANARY / 4]);
                self.written(words.len(), &le_bytes(words), &canary);
            }
            Part::BytesAfter(bytes) => self.written(bytes.len(), bytes, &[fill as u8; CANARY]),
        }
    }

    fn read(&mut self, count: usize, bytes: &[u8]) {
        word(&mut self.vectors, count as u32);
        self.vectors.extend(bytes);
        let whole = (self.vectors.len() + 3) / 4 * 4;
        self.vectors.resize(whole, 0);
        word(&mut self.expected, 0);
    }

    fn written(&mut self, count: usize, bytes: &[u8], canary: &[u8]) {
        word(&mut self.vectors, count as u32);
        self.expected.extend(canary);
        self.expected.extend(bytes);
        self.expected.extend(canary);
    }
}
