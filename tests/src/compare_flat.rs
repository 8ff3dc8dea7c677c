// SPDX-License-Identifier: BSD-2-Clause OR GPL-2.0-or-later
//! Compares the library with the second reader on one blob, with every word
//! that is lent and the words around them.

use crate::answer::FLAT_ANSWER_WORDS;
use crate::build::flat_case::{shrink, write_text, FlatCase};
use crate::ffi;
use crate::second::{flat_answer, read_flat, FlatTables, Reading, Why};
use std::collections::BTreeMap;

/// Marks words that have to stay as they are.
const PATTERN: u32 = 0x5AFE_C0DE;

/// Words around each lent part.
const GUARD: usize = 16;

/// How often there was each reason; `None` is acceptance.
pub type Counts = BTreeMap<Option<Why>, usize>;

/// All words of the three lent parts, with the words around them.
#[derive(PartialEq, Eq)]
struct Lent {
    nodes: Vec<u32>,
    props: Vec<u32>,
    answer: Vec<u32>,
}

/// A part of so many words that starts with some, between its guards.
fn guarded(words: &[u32], length: usize) -> Vec<u32> {
    let mut part = vec![PATTERN; length + 2 * GUARD];
    part[GUARD..GUARD + words.len()].copy_from_slice(words);
    part
}

fn inner(part: &mut [u32]) -> &mut [u32] {
    let end = part.len() - GUARD;
    &mut part[GUARD..end]
}

impl Lent {
    fn new(case: &FlatCase, tables: &FlatTables, answer: &[u32], answer_words: usize) -> Lent {
        Lent {
            nodes: guarded(&tables.nodes, case.nodes),
            props: guarded(&tables.props, case.props),
            answer: guarded(answer, answer_words),
        }
    }
}

/// Calls the library, and gives the number back with what it wrote. The blob
/// starts at any byte, and what stands behind it depends on the answer's length.
fn library(case: &FlatCase, answer_words: usize) -> (u32, Lent) {
    let mut lent = Lent::new(case, &FlatTables::default(), &[], answer_words);
    let behind = if answer_words == FLAT_ANSWER_WORDS {
        0
    } else {
        b'x'
    };
    let start = case.blob.len() % 9;
    let mut bytes = vec![behind; start];
    bytes.extend(&case.blob);
    bytes.resize(bytes.len() + 4 * GUARD, behind);
    let number = ffi::read_flat_into(
        &bytes[start..start + case.blob.len()],
        inner(&mut lent.nodes),
        inner(&mut lent.props),
        inner(&mut lent.answer),
    );
    (number, lent)
}

fn first_difference(name: &str, told: &[u32], wanted: &[u32]) -> Option<String> {
    let at = (0..wanted.len()).find(|&at| told[at] != wanted[at])?;
    let place = at as isize - GUARD as isize;
    let (told, wanted) = (told[at], wanted[at]);
    Some(format!(
        "word {place} of the {name}: library {told:#x}, second reader {wanted:#x}"
    ))
}

/// What differs for a blob and the answer's length, against a reading of it.
fn difference(case: &FlatCase, read: &Reading, answer_words: usize) -> Option<String> {
    let answer = flat_answer(read);
    let none = FlatTables::default();
    let (number, words, tables) = match read {
        _ if answer_words < FLAT_ANSWER_WORDS => (49, Vec::new(), &none),
        Ok(tables) => (0, answer.words().to_vec(), tables),
        Err(_) => (answer.number, answer.words().to_vec(), &none),
    };
    let wanted = Lent::new(case, tables, &words, answer_words);
    let (told, lent) = library(case, answer_words);
    if told == number && lent == wanted {
        return None;
    }
    let parts = first_difference("answer", &lent.answer, &wanted.answer)
        .or_else(|| first_difference("nodes", &lent.nodes, &wanted.nodes))
        .or_else(|| first_difference("properties", &lent.props, &wanted.props));
    let parts = parts.unwrap_or_default();
    let why = read.as_ref().err();
    Some(format!(
        "library {told}, second reader {number} {why:?}, answer of {answer_words} words\n{parts}"
    ))
}

/// The same for an answer of the right length and a longer one.
fn differs(case: &FlatCase, read: &Reading) -> Option<String> {
    let longer = FLAT_ANSWER_WORDS + 1 + case.blob.len() % 7;
    let mut lengths = [FLAT_ANSWER_WORDS, longer].into_iter();
    lengths.find_map(|words| difference(case, read, words))
}

/// The reading of a case that both agree on, or the report of a disagreement
/// with a smaller blob that can be replayed.
pub fn compare_flat(case: &FlatCase) -> Result<Reading, String> {
    let second = |case: &FlatCase| read_flat(&case.blob, case.nodes, case.props);
    let read = second(case);
    if differs(case, &read).is_none() {
        return Ok(read);
    }
    let small = shrink(case, &|c| differs(c, &second(c)).is_some());
    let what = differs(&small, &second(&small)).unwrap_or_default();
    let what = what.replace('\n', "\n# ");
    Err(format!("# {what}\n{}", write_text(&small)))
}

/// The reading that both agree on, for tables of so many words.
pub fn agreed(blob: &[u8], nodes: usize, props: usize) -> Reading {
    let blob = blob.to_vec();
    let case = FlatCase { blob, nodes, props };
    compare_flat(&case).unwrap_or_else(|report| panic!("\n{report}"))
}

/// The same for tables that are long enough: a node takes eight bytes of the
/// blob at least, a property twelve.
pub fn agreed_with_room(blob: &[u8]) -> Reading {
    agreed(blob, 3 * (blob.len() / 8), 5 * (blob.len() / 12))
}

/// Whether an answer that is too short stays, with all other parts.
pub fn short_answer_stays(case: &FlatCase, answer_words: usize) -> bool {
    let read = read_flat(&case.blob, case.nodes, case.props);
    difference(case, &read, answer_words).is_none()
}

/// The tables' content, with the bytes in place of offsets and lengths: parent
/// and name of each node; node, name and value of each property.
pub type Content = Vec<(u32, Vec<u8>, Vec<u8>)>;

pub fn content(pool: &[u8], nodes: &[u32], props: &[u32]) -> Content {
    let bytes = |at: u32, length: u32| pool[at as usize..(at + length) as usize].to_vec();
    let node = |n: &[u32]| (n[0], bytes(n[1], n[2]), Vec::new());
    let prop = |p: &[u32]| (p[0], bytes(p[1], p[2]), bytes(p[3], p[4]));
    let nodes = nodes.chunks(3).map(node);
    nodes.chain(props.chunks(5).map(prop)).collect()
}

/// The content of a blob that is accepted.
pub fn agreed_content(blob: &[u8]) -> Content {
    let tables = agreed_with_room(blob).expect("the blob is accepted");
    content(blob, &tables.nodes, &tables.props)
}
