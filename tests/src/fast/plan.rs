// SPDX-License-Identifier: BSD-2-Clause OR GPL-2.0-or-later
//! Plans as masks: by pairs of MPIDRs, and by sorting what a mask leaves.

use super::hash::list_mask;
use crate::plan_answer::{Found, PlanAnswer, CHECK_WORDS, MAKE_WORDS};

const AFFINITY: u64 = 0xFF_00FF_FFFF;

/// Whether a mask tells apart any two different MPIDRs.
pub type TellsApart = fn(&[u64], u64) -> bool;

/// Each pair once.
pub fn by_pairs(list: &[u64], mask: u64) -> bool {
    for (at, a) in list.iter().enumerate() {
        let alike = |b: &u64| (a ^ b) & mask == 0 && a != b;
        if list[..at].iter().any(alike) {
            return false;
        }
    }
    true
}

/// What the mask leaves, with the MPIDR below it, sorted: neighbours that leave
/// the same have to be the same.
pub fn by_sorting(list: &[u64], mask: u64) -> bool {
    let mut pairs = [(0, 0); 256];
    let pairs = &mut pairs[..list.len()];
    for (pair, &mpidr) in pairs.iter_mut().zip(list) {
        *pair = (mpidr & mask, mpidr);
    }
    pairs.sort_unstable();
    let alike = |two: &[(u64, u64)]| two[0].0 == two[1].0 && two[0].1 != two[1].1;
    !pairs.windows(2).any(alike)
}

/// The mask of positions that rise within the affinity bits.
fn mask_of(positions: &[u32]) -> Option<u64> {
    let mut mask = 0;
    for &position in positions {
        let bit = 1_u64.checked_shl(position)?;
        if bit & AFFINITY == 0 || mask >= bit {
            return None;
        }
        mask |= bit;
    }
    Some(mask)
}

/// The mask of a plan for a list, or the refusal.
fn plan_mask<T: Found>(
    list: &[u64],
    positions: &[u32],
    tells_apart: TellsApart,
) -> Result<u64, PlanAnswer<T>> {
    list_mask(list).map_err(|told| PlanAnswer::refusal(told.number, told.place))?;
    match mask_of(positions) {
        Some(mask) if tells_apart(list, mask) => Ok(mask),
        _ => Err(PlanAnswer::refusal(40, 0)),
    }
}

pub fn plan_check(list: &[u64], positions: &[u32], tells_apart: TellsApart) -> PlanAnswer<()> {
    match plan_mask(list, positions, tells_apart) {
        Err(refusal) => refusal,
        Ok(_) => PlanAnswer::accepted(()),
    }
}

pub fn plan_slot(
    mpidr: u64,
    list: &[u64],
    positions: &[u32],
    tells_apart: TellsApart,
) -> PlanAnswer<u32> {
    match plan_mask(list, positions, tells_apart) {
        Err(refusal) => refusal,
        Ok(_) if !list.contains(&mpidr) => PlanAnswer::refusal(30, 0),
        Ok(_) => {
            let bit = |(at, position): (usize, &u32)| ((mpidr >> position & 1) as u32) << at;
            let bits = positions.iter().enumerate().map(bit);
            PlanAnswer::accepted(bits.fold(0, |slot, bit| slot | bit))
        }
    }
}

/// The words of the answer.
pub fn plan_make(list: &[u64], tells_apart: TellsApart) -> [u32; MAKE_WORDS] {
    let mut answer = [0; MAKE_WORDS];
    let mut left = match list_mask(list) {
        Ok(mask) => fewest(list, mask, tells_apart),
        Err(told) => {
            answer[..CHECK_WORDS].copy_from_slice(&[told.number, told.place]);
            return answer;
        }
    };
    answer[2] = left.count_ones();
    for word in &mut answer[3..3 + left.count_ones() as usize] {
        *word = left.trailing_zeros();
        left &= left - 1;
    }
    answer
}

/// Drops each one of a mask that it can, from the lowest up.
fn fewest(list: &[u64], mut mask: u64, tells_apart: TellsApart) -> u64 {
    let mut untried = mask;
    while untried != 0 {
        let lowest = untried & untried.wrapping_neg();
        untried ^= lowest;
        if tells_apart(list, mask ^ lowest) {
            mask ^= lowest;
        }
    }
    mask
}
