// SPDX-License-Identifier: BSD-2-Clause OR GPL-2.0-or-later
//! The structure block as a list of tokens, up to the first that is none.

use super::flat::word_at;
use super::flat_why::Why;
use std::ops::Range;

/// Bytes of the blob: offset and length.
pub type Bytes = (usize, usize);

#[derive(Clone, Copy, Debug, PartialEq, Eq)]
pub enum Token {
    Begin { name: Bytes },
    EndNode,
    Property { name: Bytes, value: Bytes },
    Nop,
    End,
    Bad(Why),
}

/// A token and its offset from the blob's start.
pub type Placed = (usize, Token);

struct Blocks<'a> {
    /// The blob up to the structure block's end.
    blob: &'a [u8],
    strings: Range<usize>,
    /// For each byte of the strings block, the length of the name from there.
    name_lengths: Vec<Option<usize>>,
}

/// The tokens in order; a bad one is the last.
pub fn tokens(blob: &[u8], structure: Range<usize>, strings: Range<usize>) -> Vec<Placed> {
    let blocks = Blocks {
        blob: &blob[..structure.end],
        name_lengths: name_lengths(&blob[strings.clone()]),
        strings,
    };
    let mut list = Vec::new();
    let mut at = structure.start;
    while at < structure.end {
        let (token, data) = blocks.token(at);
        list.push((at, token));
        if let Token::Bad(_) = token {
            break;
        }
        at += 4 + (data + 3) / 4 * 4;
    }
    list
}

/// How far the next zero byte is, from each byte.
fn name_lengths(strings: &[u8]) -> Vec<Option<usize>> {
    let mut lengths = vec![None; strings.len()];
    let mut next = None;
    for at in (0..strings.len()).rev() {
        next = match strings[at] {
            0 => Some(0),
            _ => next.map(|length| length + 1),
        };
        lengths[at] = next;
    }
    lengths
}

impl Blocks<'_> {
    /// The token at an offset, and how many bytes of data it has.
    fn token(&self, at: usize) -> (Token, usize) {
        match word_at(self.blob, at) {
            Some(1) => self.begin(at),
            Some(2) => (Token::EndNode, 0),
            Some(3) => self.property(at),
            Some(4) => (Token::Nop, 0),
            Some(9) => (Token::End, 0),
            _ => (Token::Bad(Why::NoToken), 0),
        }
    }

    fn begin(&self, at: usize) -> (Token, usize) {
        let rest = &self.blob[at + 4..];
        match rest.iter().position(|&byte| byte == 0) {
            Some(length) => {
                let name = (at + 4, length);
                (Token::Begin { name }, length + 1)
            }
            None => (Token::Bad(Why::NodeNameLeaves), 0),
        }
    }

    fn property(&self, at: usize) -> (Token, usize) {
        let words = [at + 4, at + 8].map(|at| word_at(self.blob, at));
        let (length, offset) = match words {
            [Some(length), Some(offset)] => (length as usize, offset as usize),
            _ => return (Token::Bad(Why::PropertyLeaves), 0),
        };
        let value = (at + 12, length);
        if length > self.blob.len() - value.0 {
            return (Token::Bad(Why::PropertyLeaves), 0);
        }
        match self.name_lengths.get(offset) {
            None => (Token::Bad(Why::NameOutside), 0),
            Some(None) => (Token::Bad(Why::NameOpen), 0),
            Some(Some(name_length)) => {
                let name = (self.strings.start + offset, *name_length);
                (Token::Property { name, value }, 8 + length)
            }
        }
    }
}
