// SPDX-License-Identifier: BSD-2-Clause OR GPL-2.0-or-later
//! What a blob's structure block holds: a list of items, which need not make a
//! stream. `flat_form` lays it out.

use super::blob::padded;
use super::Node;

pub const BEGIN_NODE: u32 = 1;
pub const END_NODE: u32 = 2;
pub const PROP: u32 = 3;
pub const NOP: u32 = 4;
pub const END: u32 = 9;

/// Offsets of the header's words.
pub const MAGIC_AT: usize = 0;
pub const TOTAL_AT: usize = 4;
pub const STRUCTURE_AT: usize = 8;
pub const STRINGS_AT: usize = 12;
pub const VERSION_AT: usize = 20;
pub const COMPATIBLE_AT: usize = 24;
pub const STRINGS_SIZE_AT: usize = 32;
pub const STRUCTURE_SIZE_AT: usize = 36;
pub const HEADER_BYTES: usize = 40;

#[derive(Clone, Debug, PartialEq, Eq)]
pub enum Item {
    Begin(Vec<u8>),
    EndNode,
    Prop(Vec<u8>, Vec<u8>),
    Nop,
    End,
    /// Any word.
    Word(u32),
}

impl Item {
    pub fn begin(name: &str) -> Item {
        Item::Begin(name.as_bytes().to_vec())
    }

    pub fn prop(name: &str, value: &[u8]) -> Item {
        Item::Prop(name.as_bytes().to_vec(), value.to_vec())
    }

    /// Bytes in the structure block.
    pub fn size(&self) -> usize {
        match self {
            Item::Begin(name) => 4 + padded(name.len() + 1),
            Item::Prop(_, value) => 12 + padded(value.len()),
            _ => 4,
        }
    }
}

/// The items of a tree, and the end token.
pub fn items(root: &Node) -> Vec<Item> {
    let mut list = Vec::new();
    add_node(&mut list, root);
    list.push(Item::End);
    list
}

fn add_node(list: &mut Vec<Item>, node: &Node) {
    list.push(Item::Begin(node.name.clone()));
    let prop = |(name, value): &(Vec<u8>, Vec<u8>)| Item::Prop(name.clone(), value.clone());
    list.extend(node.props.iter().map(prop));
    for child in &node.children {
        add_node(list, child);
    }
    list.push(Item::EndNode);
}

/// The offset of an item, counted from the structure block's start.
pub fn offset_of(list: &[Item], at: usize) -> usize {
    list[..at].iter().map(Item::size).sum()
}

pub fn set_word(blob: &mut [u8], at: usize, word: u32) {
    blob[at..at + 4].copy_from_slice(&word.to_be_bytes());
}

pub fn word(blob: &[u8], at: usize) -> u32 {
    let bytes = blob[at..at + 4].try_into();
    u32::from_be_bytes(bytes.expect("four bytes"))
}

/// The items of a sound blob, NOPs left out.
pub fn read_items(blob: &[u8]) -> Vec<Item> {
    let (mut at, strings) = (word(blob, STRUCTURE_AT) as usize, word(blob, STRINGS_AT));
    let text = |at: usize| {
        blob[at..]
            .split(|&b| b == 0)
            .next()
            .expect("a name")
            .to_vec()
    };
    let mut list = Vec::new();
    while list.last() != Some(&Item::End) {
        let item = match word(blob, at) {
            BEGIN_NODE => Item::Begin(text(at + 4)),
            END_NODE => Item::EndNode,
            PROP => {
                let length = word(blob, at + 4) as usize;
                let name = text((strings + word(blob, at + 8)) as usize);
                Item::Prop(name, blob[at + 12..at + 12 + length].to_vec())
            }
            NOP => Item::Nop,
            _ => Item::End,
        };
        at += item.size();
        list.push(item);
    }
    list.retain(|item| *item != Item::Nop);
    list
}
