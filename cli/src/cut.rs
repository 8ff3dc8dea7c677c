// SPDX-License-Identifier: BSD-2-Clause OR GPL-2.0-or-later
//! Cuts a blob that is too long for the library down to /cpus. This is outside the proof, so it decides nothing that the
//! library decides afterwards: every token of the long blob is followed, and each child of the root named cpus is kept.

use crate::fault::Fault;
use crate::header::{
    blocks, word_at, HEADER_BYTES, RESERVATION_OFFSET, STRINGS_OFFSET, STRINGS_SIZE,
    STRUCTURE_OFFSET, STRUCTURE_SIZE, TOTAL_SIZE,
};
use crate::stream::{survey, Survey};
use std::collections::HashMap;
use std::ops::Range;
use sunderwath::{Rule, MAX_BLOB};

/// The structure block stands behind the header and an empty memory reservation map.
const STRUCTURE_AT: usize = HEADER_BYTES + 16;

/// A blob of the root and its children named cpus, made of pieces of a longer one.
#[derive(Debug)]
pub struct Cut {
    pub blob: Vec<u8>,
    pieces: Vec<Range<usize>>,
}

impl Cut {
    /// Where an offset in the structure block of the cut blob stands in the long one.
    pub fn original(&self, place: usize) -> usize {
        let mut from = STRUCTURE_AT;
        for piece in &self.pieces {
            let end = from + piece.len();
            if place < end {
                return piece.start + place.saturating_sub(from);
            }
            from = end;
        }
        self.pieces.last().map_or(place, |piece| piece.end)
    }
}

/// The names that are wanted, in a strings block of their own.
struct Names {
    bytes: Vec<u8>,
    /// The new offset of each old one.
    moved: HashMap<u32, u32>,
}

impl Names {
    /// Copies each byte at most once: names that end in the same zero byte still share what they shared.
    fn of(strings: &[u8], mut wanted: Vec<u32>) -> Self {
        wanted.sort_unstable();
        wanted.dedup();
        let mut bytes = Vec::new();
        let mut moved = HashMap::with_capacity(wanted.len());
        let mut copied_to = 0;
        for offset in wanted {
            let from = offset as usize;
            if from >= copied_to {
                let rest = &strings[from..];
                let zero = rest.iter().position(|&byte| byte == 0);
                copied_to = from + zero.map_or(rest.len(), |at| at + 1);
                bytes.extend_from_slice(&strings[from..copied_to]);
            }
            moved.insert(offset, (bytes.len() - (copied_to - from)) as u32);
        }
        Names { bytes, moved }
    }
}

/// The name offset of the property token at an offset, which is known to be whole.
fn name_offset(blob: &[u8], property: usize) -> u32 {
    word_at(blob, property + 8).unwrap_or(0)
}

fn put_word(bytes: &mut [u8], at: usize, word: usize) {
    bytes[at..at + 4].copy_from_slice(&(word as u32).to_be_bytes());
}

/// The pieces one behind the other, with the new offsets of property names.
fn structure(blob: &[u8], survey: &Survey, names: &Names) -> Vec<u8> {
    let mut bytes = Vec::with_capacity(survey.length);
    let mut properties = survey.properties.iter().peekable();
    for piece in &survey.pieces {
        let from = bytes.len();
        bytes.extend_from_slice(&blob[piece.clone()]);
        while let Some(&property) = properties.next_if(|&&at| at < piece.end) {
            let at = from + (property - piece.start) + 8;
            let offset = names.moved[&name_offset(blob, property)];
            put_word(&mut bytes, at, offset as usize);
        }
    }
    bytes
}

/// The header of the long blob with the places and sizes of the new blocks, then the blocks.
fn assemble(blob: &[u8], structure: &[u8], strings: &[u8]) -> Vec<u8> {
    let strings_at = STRUCTURE_AT + structure.len();
    let mut bytes = blob[..HEADER_BYTES].to_vec();
    put_word(&mut bytes, TOTAL_SIZE, strings_at + strings.len());
    put_word(&mut bytes, STRUCTURE_OFFSET, STRUCTURE_AT);
    put_word(&mut bytes, STRINGS_OFFSET, strings_at);
    put_word(&mut bytes, RESERVATION_OFFSET, HEADER_BYTES);
    put_word(&mut bytes, STRINGS_SIZE, strings.len());
    put_word(&mut bytes, STRUCTURE_SIZE, structure.len());
    bytes.resize(STRUCTURE_AT, 0);
    bytes.extend_from_slice(structure);
    bytes.extend_from_slice(strings);
    bytes
}

/// Nothing, or 31 where a blob is too long with this many bytes of its blocks.
fn check_length(blob: &[u8], blocks: usize) -> Result<(), Fault> {
    let left = STRUCTURE_AT + blocks;
    if left <= MAX_BLOB {
        return Ok(());
    }
    let length = blob.len();
    let reason =
        format!("blob of {length} bytes, limit {MAX_BLOB}; {left} or more with only /cpus");
    Err(Fault::of_blob(Rule::BlobHeader, reason))
}

/// Cuts a blob down to /cpus. Tells 31 to 33 of the whole blob, and 31 where too much is left.
pub fn cut(blob: &[u8]) -> Result<Cut, Fault> {
    let blocks = blocks(blob)?;
    let survey = survey(blob, &blocks)?;
    check_length(blob, survey.length)?;
    let wanted = survey.properties.iter().map(|&at| name_offset(blob, at));
    let names = Names::of(&blob[blocks.strings], wanted.collect());
    check_length(blob, survey.length + names.bytes.len())?;
    let structure = structure(blob, &survey, &names);
    Ok(Cut {
        blob: assemble(blob, &structure, &names.bytes),
        pieces: survey.pieces,
    })
}
