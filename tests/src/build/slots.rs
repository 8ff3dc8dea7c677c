// SPDX-License-Identifier: BSD-2-Clause OR GPL-2.0-or-later
//! Boards whose hash has a given number of bits, and the lengths of tables that
//! are tried for them.

use super::damage::spoil_tree;
use super::mix::any_board;
use super::shapes::valid_tree;
use super::{Board, Node};
use crate::rng::Rng;
use crate::width::ARM_WIDTHS;
use sunderwath::ROW_WORDS;

/// Where the affinity levels begin; each has eight bits.
const BEGINS: [u32; 4] = [0, 8, 16, 32];

/// The bits that all levels have.
pub const ALL_BITS: u32 = 32;

/// A sound ARM board of all shapes with so many bits, and 1 cpu exactly for no
/// bits.
pub fn board_with_bits(rng: &mut Rng, bits: u32, most_cpus: usize) -> (u32, Node) {
    let most = if bits < 8 { 1 << bits } else { 256 };
    loop {
        let width = *rng.pick(&ARM_WIDTHS);
        let mut root = valid_tree(rng, width, most_cpus.min(most));
        let cpus = cpu_children(&root);
        let cells = root.children[cpus[0]].get("reg").map_or(0, <[u8]>::len) / 4;
        let enough_levels = cells == 2 || bits <= 24;
        if enough_levels && (bits == 0) == (cpus.len() == 1) {
            let mpidrs = mpidrs_with_bits(rng, bits, cpus.len(), cells);
            set_mpidrs(&mut root, &cpus, &mpidrs, cells);
            return (width, root);
        }
    }
}

/// The children of record 0 that are cpu nodes.
fn cpu_children(root: &Node) -> Vec<usize> {
    let is_cpu = |name: &[u8]| name == b"cpu" || name.starts_with(b"cpu@");
    let children = root.children.iter().enumerate();
    let cpus = children.filter(|(_, child)| is_cpu(&child.name));
    cpus.map(|(at, _)| at).collect()
}

fn set_mpidrs(root: &mut Node, cpus: &[usize], mpidrs: &[u64], cells: usize) {
    for (&at, mpidr) in cpus.iter().zip(mpidrs) {
        let bytes = mpidr.to_be_bytes();
        root.children[at].set("reg", &bytes[8 - 4 * cells..]);
    }
}

/// So many MPIDRs, all different, whose hash has so many bits. There is one for
/// no bits, and there are at most as many as slots.
pub fn mpidrs_with_bits(rng: &mut Rng, bits: u32, count: usize, cells: usize) -> Vec<u64> {
    let (ends, inner) = spans(rng, bits, cells);
    let sparse = ends.count_ones() + inner.count_ones() / 2;
    let fits = sparse >= usize::BITS - (count - 1).leading_zeros();
    let mut free = ends | inner;
    if fits {
        // Not each bit within a level differs.
        free = ends | some_of(rng, inner, inner.count_ones() / 2);
    }
    let levels = if cells == 2 {
        0xFF_00FF_FFFF
    } else {
        0xFF_FFFF
    };
    let common = rng.wide() & levels;
    let mut mpidrs = vec![common];
    if count > 1 {
        mpidrs.push(common ^ ends);
    }
    while mpidrs.len() < count {
        let next = common ^ (rng.wide() & free);
        if !mpidrs.contains(&next) {
            mpidrs.push(next);
        }
    }
    rng.shuffle(&mut mpidrs);
    mpidrs
}

/// The ends of the span of each level, and the bits between them.
fn spans(rng: &mut Rng, bits: u32, cells: usize) -> (u64, u64) {
    let levels = if cells == 2 { 4 } else { 3 };
    let mut widths = [0; 4];
    while widths.iter().sum::<u32>() < bits {
        let level = rng.below(levels);
        if widths[level] < 8 {
            widths[level] += 1;
        }
    }
    let (mut ends, mut all) = (0, 0);
    for (begin, width) in BEGINS.into_iter().zip(widths) {
        if width > 0 {
            let low = begin + rng.below(9 - width as usize) as u32;
            ends |= 1 << low | 1 << (low + width - 1);
            all |= ((1 << width) - 1) << low;
        }
    }
    (ends, all & !ends)
}

/// So many of the ones.
fn some_of(rng: &mut Rng, ones: u64, count: u32) -> u64 {
    let mut some = ones;
    while some.count_ones() > count {
        some &= !(1 << rng.below(64));
    }
    some
}

/// Table lengths around what so many bits need, and beyond all that is needed.
pub fn table_lengths(bits: u32) -> Vec<usize> {
    let mut lengths = vec![0, 1, 2, 4095, 4096, 4097, 5000, 8192];
    if bits <= 13 {
        let need = 1 << bits;
        lengths.extend([need / 2, need - 1, need, need + 1, need + 7]);
    }
    lengths.sort_unstable();
    lengths.dedup();
    lengths
}

/// Mostly around what the bits need, at times anything up to 5,000.
pub fn some_length(rng: &mut Rng, bits: u32) -> usize {
    if bits > 13 || rng.one_in(8) {
        return rng.below(5001);
    }
    let need = 1 << bits;
    match rng.below(8) {
        0 => need - 1,
        1 => rng.below(need),
        2 | 3 => need,
        4 => need + 1,
        _ => need + rng.below(20),
    }
}

/// The board laid out in either way, with rows for its cpus and some words more.
pub fn lay_out(rng: &mut Rng, width: u32, root: &Node) -> Board {
    let mut board = match rng.one_in(2) {
        true => Board::of(width, root),
        false => Board::shuffled(width, root, rng),
    };
    board.room = ROW_WORDS * cpu_children(root).len() + rng.below(14);
    board
}

/// A board of any sort; in half of the cases one of up to 14 bits, with damage
/// or a short row buffer at times.
pub fn any_slot_board(rng: &mut Rng) -> Board {
    if rng.one_in(2) {
        return any_board(rng);
    }
    let bits = rng.below(15) as u32;
    let (width, mut root) = board_with_bits(rng, bits, 12);
    if rng.one_in(3) {
        spoil_tree(rng, &mut root);
    }
    let mut board = lay_out(rng, width, &root);
    if rng.one_in(6) {
        board.room = rng.below(board.room + 1);
    }
    board
}

#[cfg(test)]
mod tests {
    use super::*;
    use crate::second::list_hash;

    /// The hash of the second reader has the bits that were asked for.
    #[test]
    fn as_many_bits_as_asked_for() {
        let mut rng = Rng::new(0xB175);
        for bits in 0..=ALL_BITS {
            for cells in [1, 2] {
                let most = if bits < 8 { 1 << bits } else { 256 };
                for count in [2, 3, most / 2, most] {
                    let sound = (bits == 0) == (count == 1) && count <= most;
                    if count > 0 && sound && (cells == 2 || bits <= 24) {
                        let mpidrs = mpidrs_with_bits(&mut rng, bits, count, cells);
                        let hash = list_hash(&mpidrs);
                        assert_eq!((hash.number, hash.bits), (0, bits));
                        assert_eq!(mpidrs.len(), count);
                    }
                }
            }
        }
    }
}
