// SPDX-License-Identifier: BSD-2-Clause OR GPL-2.0-or-later
//! The mixture of blobs that the gate and the long run compare.

use super::flat::*;
use super::flat_case::FlatCase;
use super::flat_damage::WORDS;
use super::flat_form::{write, Form, Strings};
use super::flat_large::{of_length, MOST};
use super::flat_trees::some_root;
use crate::rng::Rng;
use crate::second::flat_tables;

/// A blob of any sort, sound or with damage to items and bytes.
pub fn any_case(rng: &mut Rng) -> FlatCase {
    let mut list = items(&some_root(rng));
    for _ in 0..*rng.pick(&[0, 0, 1, 1, 1, 2, 3]) {
        spoil_items(rng, &mut list);
    }
    if rng.one_in(2) {
        add_nops(rng, &mut list);
    }
    let form = some_form(rng);
    let mut blob = match rng.below(400) {
        0 => of_length(rng.between(MOST - 1, MOST + 1), rng.one_in(2)),
        _ => write(&list, &form),
    };
    for _ in 0..*rng.pick(&[0, 0, 0, 0, 1, 1, 2]) {
        spoil_bytes(rng, &mut blob);
    }
    let (nodes, props) = some_room(rng, &blob);
    FlatCase { blob, nodes, props }
}

pub(super) fn some_form(rng: &mut Rng) -> Form {
    let places = [
        Strings::Behind,
        Strings::Behind,
        Strings::Before,
        Strings::Everywhere,
    ];
    Form {
        padding: *rng.pick(&[0, 1, 2, 9, 0xFF, b'x']),
        strings: *rng.pick(&places),
        share: rng.one_in(2),
        reserve: 4 * rng.below(8),
        map: rng.word(),
        behind: if rng.one_in(3) { rng.below(40) } else { 0 },
    }
}

/// Any item; a few are no token.
fn some_item(rng: &mut Rng) -> Item {
    match rng.below(10) {
        0 => Item::begin("cpus"),
        1 => Item::begin(""),
        2 => Item::prop("reg", &[1, 2, 3]),
        3 => Item::prop("type", &[]),
        4 | 5 => Item::EndNode,
        6 => Item::Nop,
        7 => Item::End,
        8 => Item::Word(*rng.pick(&WORDS)),
        _ => Item::Word(rng.word()),
    }
}

pub(super) fn spoil_items(rng: &mut Rng, list: &mut Vec<Item>) {
    let (at, other) = (rng.below(list.len()), rng.below(list.len()));
    match rng.below(9) {
        0 if list.len() > 1 => drop(list.remove(at)),
        1 => list.insert(at, list[at].clone()),
        2 => list.swap(at, other),
        3 | 4 => list.insert(at, some_item(rng)),
        5 => list[at] = some_item(rng),
        6 => list.truncate(at + 1),
        7 => list.push(some_item(rng)),
        _ => rename(rng, list),
    }
}

/// Makes some node a `cpus`, or one that is not.
fn rename(rng: &mut Rng, list: &mut [Item]) {
    let name = *rng.pick(&["cpus", "cpus", "cpus@0", "cpu"]);
    let at = rng.below(list.len());
    if let Some(Item::Begin(old)) = list[at..].iter_mut().find(|i| matches!(i, Item::Begin(_))) {
        *old = name.as_bytes().to_vec();
    }
}

/// NOPs before the end token, which change nothing.
pub(super) fn add_nops(rng: &mut Rng, list: &mut Vec<Item>) {
    for _ in 0..rng.below(6) {
        let end = list.iter().position(|item| *item == Item::End);
        let at = rng.below(end.unwrap_or(list.len()) + 1);
        list.insert(at, Item::Nop);
    }
}

/// A word that means something at many places of a blob.
fn some_word(rng: &mut Rng, old: u32, length: usize) -> u32 {
    match rng.below(10) {
        0 | 1 => *rng.pick(&WORDS),
        2 => old.wrapping_add(1),
        3 => old.wrapping_sub(1),
        4 => old.wrapping_add(4),
        5 => old.wrapping_sub(4),
        6 => (length + rng.below(9)) as u32 - 4,
        7 => rng.below(length) as u32 & !3,
        8 => u32::MAX - rng.below(48) as u32,
        _ => rng.word(),
    }
}

/// One change to the bytes. Blobs shorter than a header stay.
pub(super) fn spoil_bytes(rng: &mut Rng, blob: &mut Vec<u8>) {
    if blob.len() < HEADER_BYTES {
        return;
    }
    let length = blob.len();
    match rng.below(9) {
        0 | 1 => spoil_word(rng, blob, HEADER_BYTES),
        2 | 3 => spoil_word(rng, blob, length),
        4 => blob[rng.below(length)] ^= 1 << rng.below(8),
        5 => blob.truncate(rng.below(length)),
        6 => cut_total(rng, blob),
        7 => shrink_block(rng, blob),
        _ => open_last_name(blob),
    }
}

fn spoil_word(rng: &mut Rng, blob: &mut [u8], below: usize) {
    let at = 4 * rng.below(below / 4);
    let word = some_word(rng, word(blob, at), blob.len());
    set_word(blob, at, word);
}

/// A smaller total size, and at times no bytes behind it.
fn cut_total(rng: &mut Rng, blob: &mut Vec<u8>) {
    let total = rng.below(blob.len());
    set_word(blob, TOTAL_AT, total as u32);
    if rng.one_in(2) {
        blob.truncate(total);
    }
}

/// A block that ends some bytes or words before its end.
fn shrink_block(rng: &mut Rng, blob: &mut [u8]) {
    let (at, less) = match rng.below(4) {
        0 => (STRUCTURE_SIZE_AT, rng.between(1, 8)),
        1 => (STRUCTURE_SIZE_AT, 4 * rng.between(1, 30)),
        _ => (STRINGS_SIZE_AT, rng.between(1, 8)),
    };
    let size = word(blob, at).saturating_sub(less as u32);
    set_word(blob, at, size);
}

/// No zero byte at the end of the strings block, if that is in the blob.
fn open_last_name(blob: &mut [u8]) {
    let end = u64::from(word(blob, STRINGS_AT)) + u64::from(word(blob, STRINGS_SIZE_AT));
    let last = end.checked_sub(1).and_then(|at| usize::try_from(at).ok());
    if let Some(byte) = last.and_then(|at| blob.get_mut(at)) {
        *byte = b'x';
    }
}

/// Enough words mostly, and at times about as many as are needed.
fn some_room(rng: &mut Rng, blob: &[u8]) -> (usize, usize) {
    let need = match flat_tables(blob) {
        Ok(tables) => (tables.nodes.len(), tables.props.len()),
        Err(_) => (rng.below(9), rng.below(9)),
    };
    let around = |rng: &mut Rng, need: usize| match rng.below(12) {
        0 => 0,
        1 => need.saturating_sub(rng.between(1, 6)),
        2..=5 => need,
        _ => need + rng.below(20),
    };
    (around(rng, need.0), around(rng, need.1))
}
