// SPDX-License-Identifier: BSD-2-Clause OR GPL-2.0-or-later
//! Damage to a blob, each sort at every place.

use super::flat::*;

/// Words that a word is replaced by.
pub const WORDS: [u32; 8] = [0, 1, 2, 3, 4, 9, 0x7FFF_FFFF, u32::MAX];

/// Words close to the largest, so that sums of 32 bits wrap.
const WRAPPING: [u32; 7] = [
    0x8000_0000,
    0xFFFF_0000,
    0xFFFF_FFD8,
    0xFFFF_FFF0,
    0xFFFF_FFF4,
    0xFFFF_FFFC,
    u32::MAX,
];

pub fn with_word(blob: &[u8], at: usize, word: u32) -> Vec<u8> {
    let mut next = blob.to_vec();
    set_word(&mut next, at, word);
    next
}

/// The first bytes, from none to all but one.
pub fn truncated(blob: &[u8]) -> Vec<Vec<u8>> {
    let cut = |length| blob[..length].to_vec();
    (0..blob.len()).map(cut).collect()
}

/// Every total size below the blob's, with and without the bytes behind it.
pub fn smaller_totals(blob: &[u8]) -> Vec<Vec<u8>> {
    let mut list = Vec::new();
    for total in 0..blob.len() {
        let next = with_word(blob, TOTAL_AT, total as u32);
        list.push(next[..total.max(HEADER_BYTES)].to_vec());
        list.push(next);
    }
    list
}

/// Every smaller size of either block, and some that are larger.
pub fn other_sizes(blob: &[u8]) -> Vec<Vec<u8>> {
    let mut list = Vec::new();
    for at in [STRINGS_SIZE_AT, STRUCTURE_SIZE_AT] {
        for size in 0..word(blob, at) + 9 {
            list.push(with_word(blob, at, size));
        }
    }
    list
}

/// Every offset of either block from the blob's start to behind its end.
pub fn other_offsets(blob: &[u8]) -> Vec<Vec<u8>> {
    let mut list = Vec::new();
    for at in [STRINGS_AT, STRUCTURE_AT] {
        for offset in 0..blob.len() as u32 + 9 {
            list.push(with_word(blob, at, offset));
        }
    }
    list
}

/// Offsets and sizes, alone and in pairs, whose sums wrap.
pub fn wrapping_blocks(blob: &[u8]) -> Vec<Vec<u8>> {
    let mut list = Vec::new();
    for (offset_at, size_at) in [
        (STRUCTURE_AT, STRUCTURE_SIZE_AT),
        (STRINGS_AT, STRINGS_SIZE_AT),
    ] {
        for large in WRAPPING {
            list.push(with_word(blob, offset_at, large));
            list.push(with_word(blob, size_at, large));
            // The sum of 32 bits is the end of the block as it was.
            let end = word(blob, offset_at) + word(blob, size_at);
            let rest = end.wrapping_sub(large);
            let pair = with_word(blob, offset_at, large);
            list.push(with_word(&pair, size_at, rest));
            let pair = with_word(blob, size_at, large);
            list.push(with_word(&pair, offset_at, rest));
        }
    }
    list
}

/// Every word replaced by each of a list.
pub fn other_words(blob: &[u8]) -> Vec<Vec<u8>> {
    let mut list = Vec::new();
    for at in (0..blob.len() - 3).step_by(4) {
        for large in WORDS.iter().chain(&WRAPPING) {
            list.push(with_word(blob, at, *large));
        }
    }
    list
}

/// Every bit turned.
pub fn other_bits(blob: &[u8]) -> Vec<Vec<u8>> {
    let turned = |at: usize| {
        let mut next = blob.to_vec();
        next[at / 8] ^= 1 << (at % 8);
        next
    };
    (0..8 * blob.len()).map(turned).collect()
}

/// Every byte made zero, and every zero byte made a letter.
pub fn other_bytes(blob: &[u8]) -> Vec<Vec<u8>> {
    let changed = |at: usize| {
        let mut next = blob.to_vec();
        next[at] = if blob[at] == 0 { b'x' } else { 0 };
        next
    };
    (0..blob.len()).map(changed).collect()
}

/// The versions 16 to 18 in both words, and far ones.
pub fn versions(blob: &[u8]) -> Vec<(u32, u32, Vec<u8>)> {
    let some = [0, 1, 16, 17, 18, 0x7FFF_FFFF, 0x8000_0000, u32::MAX];
    let mut list = Vec::new();
    for version in some {
        for compatible in some {
            let next = with_word(blob, VERSION_AT, version);
            let next = with_word(&next, COMPATIBLE_AT, compatible);
            list.push((version, compatible, next));
        }
    }
    list
}

/// A change of every item: without it, twice, and swapped with the next; and
/// before it each token, a word that is none, and a node or a property.
pub fn other_items(list: &[Item]) -> Vec<Vec<Item>> {
    let mut lists = Vec::new();
    let more = [
        Item::begin("x"),
        Item::begin("cpus"),
        Item::prop("reg", &[1]),
        Item::EndNode,
        Item::Nop,
        Item::End,
        Item::Word(0),
        Item::Word(5),
        Item::Word(BEGIN_NODE),
        Item::Word(PROP),
    ];
    for at in 0..=list.len() {
        let (before, behind) = list.split_at(at);
        for item in &more {
            lists.push([before, std::slice::from_ref(item), behind].concat());
        }
        lists.push(before.to_vec());
        if let [first, rest @ ..] = behind {
            lists.push([before, rest].concat());
            lists.push([before, std::slice::from_ref(first), behind].concat());
        }
        if let [first, second, rest @ ..] = behind {
            let swapped = [second.clone(), first.clone()];
            lists.push([before, &swapped, rest].concat());
        }
    }
    lists
}
