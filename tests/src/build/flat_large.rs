// SPDX-License-Identifier: BSD-2-Clause OR GPL-2.0-or-later
//! Blobs as large as they may be, and one byte larger.

use super::flat::*;
use super::flat_form::{write, Form, Strings};
use super::flat_trees::{around, sample};
use super::worked::whole_case;

/// The most bytes of a blob.
pub const MOST: usize = 65_536;

/// No bytes between the header and the blocks.
const DENSE: Form = Form {
    padding: 0,
    strings: Strings::Behind,
    share: true,
    reserve: 0,
    map: 0,
    behind: 0,
};

fn dense(list: &[Item]) -> Vec<u8> {
    write(list, &DENSE)
}

/// The root, `/cpus`, and nodes without a name nested below it, as many as fit;
/// each takes eight bytes, and four more for its end.
pub fn nested(closed: bool) -> Vec<u8> {
    let each = if closed { 12 } else { 8 };
    let count = (MOST - HEADER_BYTES - 32) / each;
    let mut list = vec![Item::begin(""), Item::begin("cpus")];
    list.resize(2 + count, Item::begin(""));
    if closed {
        list.resize(list.len() + count + 2, Item::EndNode);
        list.push(Item::End);
    }
    dense(&list)
}

/// As many nodes beside each other below `/cpus` as fit.
pub fn siblings() -> Vec<u8> {
    let count = (MOST - HEADER_BYTES - 32) / 12;
    let mut list = vec![Item::begin(""), Item::begin("cpus")];
    for _ in 0..count {
        list.extend([Item::begin(""), Item::EndNode]);
    }
    list.extend([Item::EndNode, Item::EndNode, Item::End]);
    dense(&list)
}

/// As many properties without a value as fit, all of `/cpus`.
pub fn properties() -> Vec<u8> {
    let count = (MOST - HEADER_BYTES - 36) / 12;
    let mut list = vec![Item::begin(""), Item::begin("cpus")];
    list.resize(2 + count, Item::prop("p", &[]));
    list.extend([Item::EndNode, Item::EndNode, Item::End]);
    dense(&list)
}

/// One name that is all the strings block, and properties named by its ends.
pub fn overlapping_names(count: usize, closed: bool) -> Vec<u8> {
    let structure = 12 * count + 32;
    let letters = MOST - HEADER_BYTES - structure;
    let mut list = vec![Item::begin(""), Item::begin("cpus")];
    for at in 0..count {
        let offset = at * (letters - 1) / count.max(2);
        list.extend([PROP, 0, offset as u32].map(Item::Word));
    }
    list.extend([Item::EndNode, Item::EndNode, Item::End]);
    let mut blob = dense(&list);
    blob.resize(MOST, b'a');
    blob[MOST - 1] = if closed { 0 } else { b'a' };
    set_word(&mut blob, TOTAL_AT, MOST as u32);
    set_word(&mut blob, STRINGS_SIZE_AT, letters as u32);
    blob
}

/// NOPs, as many as fit.
pub fn nops() -> Vec<u8> {
    let mut list = items(&around(whole_case()));
    let room = MOST - dense(&list).len();
    let nops = vec![Item::Nop; room / 4];
    list.splice(1..1, nops);
    dense(&list)
}

/// One node with a name, or one property with a value, that fills the blob:
/// of the root, and of `/cpus`.
pub fn long_data() -> Vec<Vec<u8>> {
    let list = items(&sample());
    let room = MOST - dense(&list).len() - 16;
    let node = [Item::Begin(vec![b'n'; room]), Item::EndNode];
    let prop = [Item::prop("reg", &vec![7; room])];
    let is_begin = |item: &Item| matches!(item, Item::Begin(_));
    let child_of = |at: usize| {
        at + list[at..]
            .iter()
            .position(is_begin)
            .expect("it has children")
    };
    let cpus = list.iter().position(|item| *item == Item::begin("cpus"));
    let in_cpus = cpus.expect("it is there") + 1;
    let insert = |at: usize, more: &[Item]| dense(&[&list[..at], more, &list[at..]].concat());
    vec![
        insert(1, &prop),
        insert(in_cpus, &prop),
        insert(child_of(1), &node),
        insert(child_of(in_cpus), &node),
    ]
}

/// The sample in a blob of a length, with a total size of as many bytes or as
/// it was.
pub fn of_length(bytes: usize, whole: bool) -> Vec<u8> {
    let mut blob = dense(&items(&sample()));
    blob.resize(bytes, 0xEE);
    if whole {
        set_word(&mut blob, TOTAL_AT, bytes as u32);
    }
    blob
}

/// All of them.
pub fn all() -> Vec<Vec<u8>> {
    let mut list = vec![
        nested(true),
        nested(false),
        siblings(),
        properties(),
        nops(),
    ];
    for count in [1, 2, 100, 1365, 2700, 4096, 4097, 5000, 5455] {
        list.push(overlapping_names(count, true));
        list.push(overlapping_names(count, false));
    }
    list.extend(long_data());
    for bytes in [MOST - 1, MOST, MOST + 1, MOST + 2, 2 * MOST] {
        list.push(of_length(bytes, true));
        list.push(of_length(bytes, false));
    }
    list
}
