// SPDX-License-Identifier: BSD-2-Clause OR GPL-2.0-or-later
//! Streams with one fault each, and the item that is told.

use super::flat::{Item, BEGIN_NODE, PROP};
use crate::second::Why;

pub struct StreamFault {
    pub why: Why,
    pub list: Vec<Item>,
    /// The item at fault; behind the last one is the block's end.
    pub at: usize,
}

fn begin(name: &str) -> Item {
    Item::begin(name)
}

fn prop() -> Item {
    Item::prop("reg", &[1, 2, 3, 4, 5])
}

/// `/` with `/cpus`, both with a property; no end token.
fn root() -> Vec<Item> {
    vec![
        begin(""),
        prop(),
        begin("cpus"),
        prop(),
        Item::EndNode,
        Item::EndNode,
    ]
}

fn fault(why: Why, parts: &[&[Item]], at: usize) -> StreamFault {
    StreamFault {
        why,
        list: parts.concat(),
        at,
    }
}

/// What may follow the end token, and is at fault there.
fn behind_the_end() -> Vec<StreamFault> {
    let end = [Item::End];
    let more = [
        begin("x"),
        Item::EndNode,
        prop(),
        Item::Nop,
        Item::End,
        Item::Word(0),
        Item::Word(7),
        Item::Word(BEGIN_NODE),
        Item::Word(PROP),
        Item::Word(u32::MAX),
    ];
    let follow = |item| fault(Why::AfterEnd, &[&root(), &end, &[item]], 7);
    more.map(follow).into()
}

/// Tokens at a wrong place.
fn misplaced() -> Vec<StreamFault> {
    let root = root();
    let (end, nop, close) = ([Item::End], [Item::Nop], [Item::EndNode]);
    let prop = [prop()];
    let tail = &root[4..];
    vec![
        fault(
            Why::PropertyAfterChild,
            &[&root[..5], &prop, &close, &end],
            5,
        ),
        fault(
            Why::PropertyAfterChild,
            &[&root[..5], &nop, &prop, &close, &end],
            6,
        ),
        fault(
            Why::PropertyAfterChild,
            &[&root[..4], &root[2..5], &prop, tail, &end],
            7,
        ),
        fault(Why::PropertyOutside, &[&prop, &root, &end], 0),
        fault(Why::PropertyOutside, &[&nop, &nop, &prop, &root, &end], 2),
        fault(Why::PropertyOutside, &[&root, &prop, &end], 6),
        fault(Why::EndNodeOutside, &[&close, &root, &end], 0),
        fault(Why::EndNodeOutside, &[&nop, &close], 1),
        fault(Why::EndNodeOutside, &[&root, &close, &end], 6),
        fault(Why::EndNodeOutside, &[&root, &nop, &close, &end], 7),
        fault(Why::EndInside, &[&root[..1], &end], 1),
        fault(Why::EndInside, &[&root[..4], &end, tail, &end], 4),
        fault(Why::EndInside, &[&root[..5], &end, &close, &end], 5),
        fault(Why::EndBeforeRoot, &[&end], 0),
        fault(Why::EndBeforeRoot, &[&nop, &end, &root], 1),
        fault(Why::SecondRoot, &[&root, &root, &end], 6),
        fault(Why::SecondRoot, &[&root, &nop, &root, &end], 7),
    ]
}

/// Words that are no token, or whose data leave the block.
fn unreadable() -> Vec<StreamFault> {
    let root = root();
    let end = [Item::End];
    let mut list = Vec::new();
    for word in [0, 5, 6, 7, 8, 10, 0x0100_0000, 0x7FFF_FFFF, u32::MAX] {
        let word = [Item::Word(word)];
        for at in 0..=root.len() {
            let (before, behind) = root.split_at(at);
            list.push(fault(Why::NoToken, &[before, &word, behind, &end], at));
        }
    }
    let name = [Item::Word(BEGIN_NODE)];
    let letters = [Item::Word(0x6162_6364)];
    list.push(fault(Why::NodeNameLeaves, &[&root[..2], &name], 2));
    list.push(fault(
        Why::NodeNameLeaves,
        &[&root[..2], &name, &letters],
        2,
    ));
    let lengths: [&[u32]; 10] = [
        &[],
        &[4],
        &[1, 0],
        &[5, 0, 9],
        &[0xFFFF_FFF0, 0, 9, 9],
        &[0xFFFF_FFF4, 0, 9, 9],
        &[0xFFFF_FFFC, 0, 9, 9],
        &[u32::MAX, 0, 9, 9],
        &[0x7FFF_FFFF, 0, 9, 9],
        &[0x8000_0000, 0, 9, 9],
    ];
    for words in lengths {
        let words: Vec<Item> = words.iter().map(|w| Item::Word(*w)).collect();
        let parts = [&root[..2], &[Item::Word(PROP)], &words];
        list.push(fault(Why::PropertyLeaves, &parts, 2));
    }
    list
}

/// Names of properties: a strings block of `reg` and its zero byte has four.
fn names() -> Vec<StreamFault> {
    let root = root();
    let mut list = Vec::new();
    for offset in [4, 5, 0x7FFF_FFFF, 0xFFFF_FFF0, 0xFFFF_FFFC, u32::MAX] {
        let words = [PROP, 0, offset].map(Item::Word);
        let parts = [&root[..4], &words, &root[4..], &[Item::End]];
        list.push(fault(Why::NameOutside, &parts, 4));
    }
    list
}

/// Streams that stop at the end of a token.
fn cut_short() -> Vec<StreamFault> {
    let root = root();
    let mut list = vec![fault(Why::RunOut, &[&[Item::Nop]], 1)];
    for length in 0..=root.len() {
        let start = &root[..length];
        list.push(fault(Why::RunOut, &[start], length));
        list.push(fault(Why::RunOut, &[start, &[Item::Nop]], length + 1));
    }
    list
}

/// All of these; `NameOpen` needs a change to the strings.
pub fn stream_faults() -> Vec<StreamFault> {
    [
        behind_the_end(),
        misplaced(),
        unreadable(),
        names(),
        cut_short(),
    ]
    .into_iter()
    .flatten()
    .collect()
}
