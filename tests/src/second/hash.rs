// SPDX-License-Identifier: BSD-2-Clause OR GPL-2.0-or-later
//! The hash of a list of MPIDRs, bit by bit.

use crate::answer::Answer;

/// Where the affinity levels begin; each has eight bits.
const BEGINS: [u32; 4] = [0, 8, 16, 32];

fn bit(value: u64, at: u32) -> bool {
    (value >> at) & 1 == 1
}

/// The level that bit `at` belongs to.
fn level_of(at: u32) -> Option<usize> {
    (0..4).find(|&level| (BEGINS[level]..BEGINS[level] + 8).contains(&at))
}

fn has_other_bits(mpidr: u64) -> bool {
    (0..64).any(|at| bit(mpidr, at) && level_of(at).is_none())
}

/// Whether some two listed values differ in bit `at`.
fn differ(list: &[u64], at: u32) -> bool {
    list.iter().any(|&x| bit(x, at)) && list.iter().any(|&x| !bit(x, at))
}

pub(super) fn mask(list: &[u64]) -> u64 {
    (0..64)
        .filter(|&at| differ(list, at))
        .fold(0, |mask, at| mask | 1 << at)
}

fn ones_of_level(mask: u64, level: usize) -> impl DoubleEndedIterator<Item = u32> {
    (0..8).filter(move |&at| bit(mask, BEGINS[level] + at))
}

fn low(mask: u64, level: usize) -> u32 {
    ones_of_level(mask, level).next().unwrap_or(0)
}

fn width(mask: u64, level: usize) -> u32 {
    match ones_of_level(mask, level).next_back() {
        Some(highest) => highest + 1 - low(mask, level),
        None => 0,
    }
}

fn shift(mask: u64, level: usize) -> u32 {
    let lower: u32 = (0..level).map(|l| width(mask, l)).sum();
    BEGINS[level] + low(mask, level) - lower
}

/// Number 0 with mask, shifts and bits; the count is for the caller.
pub(super) fn accepted(mask: u64) -> Answer {
    Answer {
        mask,
        shifts: [0, 1, 2, 3].map(|level| shift(mask, level)),
        bits: (0..4).map(|level| width(mask, level)).sum(),
        ..Answer::default()
    }
}

/// Each one of the MPIDR that is in the mask goes to its place in the slot.
pub(super) fn slot(mask: u64, mpidr: u64) -> u32 {
    let shifts = accepted(mask).shifts;
    (0..64)
        .filter(|&at| bit(mask, at) && bit(mpidr, at))
        .filter_map(|at| level_of(at).map(|level| at - shifts[level]))
        .fold(0, |slot, at| slot | 1 << at)
}

/// 28 and 29.
pub(super) fn list_refusal(list: &[u64]) -> Option<Answer> {
    if list.is_empty() || list.len() > 256 {
        return Some(Answer::refusal(28, 0));
    }
    let bad = list.iter().position(|&x| has_other_bits(x))?;
    Some(Answer::refusal(29, bad))
}

pub fn list_hash(list: &[u64]) -> Answer {
    list_refusal(list).unwrap_or_else(|| accepted(mask(list)))
}

/// A slot question is answered by number, place and slot alone.
pub fn list_slot(mpidr: u64, list: &[u64]) -> Answer {
    if let Some(refusal) = list_refusal(list) {
        return refusal;
    }
    if !list.contains(&mpidr) {
        return Answer::refusal(30, 0);
    }
    Answer {
        count: slot(mask(list), mpidr),
        ..Answer::default()
    }
}
