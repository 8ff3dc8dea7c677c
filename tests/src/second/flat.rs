// SPDX-License-Identifier: BSD-2-Clause OR GPL-2.0-or-later
//! The second reader of blobs, written from the request and the Devicetree
//! Specification alone. The structure block becomes a list of tokens; whether
//! it is a stream, and which records it has, is said of that list.

use super::flat_records::Tree;
use super::flat_stream::first_fault;
use super::flat_tokens::tokens;
use super::flat_why::Why;
use crate::answer::FlatAnswer;
use std::ops::Range;

const HEADER_BYTES: u64 = 40;
const MOST_BYTES: u64 = 65_536;
const MAGIC: u64 = 0xD00D_FEED;
const VERSION: u64 = 17;

/// The words of both tables.
#[derive(Clone, Debug, Default, PartialEq, Eq)]
pub struct FlatTables {
    pub nodes: Vec<u32>,
    pub props: Vec<u32>,
}

/// Why a blob is refused, and the place told.
pub type Refusal = (Why, usize);

/// What a reader makes of a blob.
pub type Reading = Result<FlatTables, Refusal>;

/// A header's words, wide enough for their sums.
struct Header {
    magic: u64,
    total: u64,
    structure: u64,
    strings: u64,
    version: u64,
    compatible: u64,
    strings_size: u64,
    structure_size: u64,
}

fn header(blob: &[u8]) -> Header {
    let word = |at| u64::from(word_at(blob, at).expect("the header is there"));
    Header {
        magic: word(0),
        total: word(4),
        structure: word(8),
        strings: word(12),
        version: word(20),
        compatible: word(24),
        strings_size: word(32),
        structure_size: word(36),
    }
}

/// The big-endian word at an offset, if all its bytes are there.
pub fn word_at(bytes: &[u8], at: usize) -> Option<u32> {
    let word = bytes.get(at..)?.get(..4)?;
    Some(u32::from_be_bytes(word.try_into().ok()?))
}

/// Number 31: the first of its reasons that holds.
fn header_fault(blob: &[u8]) -> Option<Why> {
    let bytes = blob.len() as u64;
    if bytes < HEADER_BYTES {
        return Some(Why::BlobShort);
    }
    let h = header(blob);
    let faults = [
        (bytes > MOST_BYTES, Why::BlobLong),
        (h.magic != MAGIC, Why::Magic),
        (h.total < HEADER_BYTES, Why::TotalShort),
        (h.total > bytes, Why::TotalBeyond),
        (h.version < VERSION, Why::Version),
        (h.compatible > VERSION, Why::Compatible),
    ];
    faults.iter().find(|(holds, _)| *holds).map(|(_, why)| *why)
}

/// Number 32, of a blob without 31.
fn block_fault(h: &Header) -> Option<Why> {
    let structure_out = h.structure + h.structure_size > h.total;
    let strings_out = h.strings + h.strings_size > h.total;
    let faults = [
        (structure_out, Why::StructureOutside),
        (strings_out, Why::StringsOutside),
        (h.structure % 4 != 0, Why::OffsetUneven),
        (h.structure_size % 4 != 0, Why::SizeUneven),
    ];
    faults.iter().find(|(holds, _)| *holds).map(|(_, why)| *why)
}

fn block(offset: u64, size: u64) -> Range<usize> {
    offset as usize..(offset + size) as usize
}

/// The tables of the `/cpus` subtree, for tables of so many words.
pub fn read_flat(blob: &[u8], node_words: usize, prop_words: usize) -> Reading {
    let tables = flat_tables(blob)?;
    if tables.nodes.len() > node_words {
        return Err((Why::NodeSpace, 0));
    }
    if tables.props.len() > prop_words {
        return Err((Why::PropertySpace, 0));
    }
    Ok(tables)
}

/// The tables, whatever room there is for them.
pub fn flat_tables(blob: &[u8]) -> Reading {
    if let Some(why) = header_fault(blob) {
        return Err((why, 0));
    }
    let h = header(blob);
    if let Some(why) = block_fault(&h) {
        return Err((why, 0));
    }
    let structure = block(h.structure, h.structure_size);
    let list = tokens(blob, structure.clone(), block(h.strings, h.strings_size));
    if let Some(fault) = first_fault(&list, structure.end) {
        return Err(fault);
    }
    let tree = Tree::of(&list);
    match tree.children_of_root(blob, b"cpus").as_slice() {
        [] => Err((Why::NoCpus, 0)),
        [cpus] => Ok(tree.tables(*cpus)),
        _ => Err((Why::SeveralCpus, 0)),
    }
}

/// The four words that the library has to answer with.
pub fn flat_answer(read: &Reading) -> FlatAnswer {
    match read {
        Ok(tables) => FlatAnswer {
            nodes: (tables.nodes.len() / 3) as u32,
            props: (tables.props.len() / 5) as u32,
            ..FlatAnswer::default()
        },
        Err((why, place)) => FlatAnswer {
            number: why.number(),
            place: *place as u32,
            ..FlatAnswer::default()
        },
    }
}
