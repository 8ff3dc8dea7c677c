// SPDX-License-Identifier: BSD-2-Clause OR GPL-2.0-or-later
//! Lists of MPIDRs to plan for, and positions that are a plan or are none.

use crate::rng::Rng;

/// The affinity bits.
pub const AFFINITY: u64 = 0xFF_00FF_FFFF;

/// The positions of the affinity bits, rising.
pub fn affinity_positions() -> Vec<u32> {
    positions_of(AFFINITY)
}

fn positions_of(ones: u64) -> Vec<u32> {
    (0..64).filter(|at| ones >> at & 1 == 1).collect()
}

/// So many MPIDRs, with repeats. They differ in no bit, in few or in many; at
/// times each in a single bit from the same one, so that most bits are needed.
pub fn list_of(rng: &mut Rng, count: usize) -> Vec<u64> {
    let base = rng.wide() & AFFINITY;
    let all = affinity_positions();
    let single = rng.one_in(5);
    let vary = match rng.below(6) {
        0 => 0,
        1 => AFFINITY,
        2 => rng.wide() & AFFINITY,
        _ => few_ones(rng),
    };
    let mut list = vec![base];
    while list.len() < count {
        let next = match (rng.one_in(6), single) {
            (true, _) => *rng.pick(&list),
            (false, true) => base ^ 1 << *rng.pick(&all),
            (false, false) => base ^ (rng.wide() & vary),
        };
        list.push(next);
    }
    rng.shuffle(&mut list);
    list
}

/// One to seven affinity bits.
fn few_ones(rng: &mut Rng) -> u64 {
    let all = affinity_positions();
    let count = rng.between(1, 7);
    (0..count).fold(0, |ones, _| ones | 1 << *rng.pick(&all))
}

/// Mostly up to eight MPIDRs.
pub fn some_list(rng: &mut Rng) -> Vec<u64> {
    let most = *rng.pick(&[2, 3, 4, 8, 8, 8, 8, 24]);
    let count = rng.between(1, most);
    list_of(rng, count)
}

/// A listed MPIDR, one with another bit, or any.
pub fn some_mpidr(rng: &mut Rng, list: &[u64]) -> u64 {
    let listed = *rng.pick(list);
    match rng.below(4) {
        0 => listed ^ 1 << rng.below(64),
        1 => rng.wide() & AFFINITY,
        _ => listed,
    }
}

/// Zero, each single bit, and pairs of bits: each position is needed.
pub fn needs_every_position(count: usize) -> Vec<u64> {
    let bits: Vec<u64> = affinity_positions().iter().map(|at| 1 << at).collect();
    let pairs = (0..bits.len()).flat_map(|b| (0..b).map(move |a| (a, b)));
    let pairs = pairs.map(|(a, b)| bits[a] | bits[b]);
    let all = std::iter::once(0).chain(bits.iter().copied()).chain(pairs);
    all.take(count).collect()
}

/// How positions are made of a plan that has no position too many.
#[derive(Clone, Copy, Debug, PartialEq, Eq, PartialOrd, Ord)]
pub enum Change {
    Same,
    /// One fewer.
    Dropped,
    /// With others, in their places.
    Extra,
    /// Any affinity bits, rising.
    Any,
    Empty,
    Repeated,
    Swapped,
    Falling,
    /// One of 24 to 31 besides.
    Between,
    /// One of 40 or more besides, or in the place of the last one.
    Beyond,
    /// More than there are affinity bits.
    TooMany,
}

impl Change {
    pub const ALL: [Change; 11] = [
        Change::Same,
        Change::Dropped,
        Change::Extra,
        Change::Any,
        Change::Empty,
        Change::Repeated,
        Change::Swapped,
        Change::Falling,
        Change::Between,
        Change::Beyond,
        Change::TooMany,
    ];

    /// Whether what is made is a plan; None where it may be one or not.
    pub fn makes_a_plan(self) -> Option<bool> {
        match self {
            Change::Same | Change::Extra => Some(true),
            Change::Any | Change::Empty => None,
            _ => Some(false),
        }
    }

    /// None where the plan has too few positions for it.
    pub fn of(self, rng: &mut Rng, plan: &[u32]) -> Option<Vec<u32>> {
        let mut made = plan.to_vec();
        match self {
            Change::Same => {}
            Change::Dropped => {
                made.remove(place_in(rng, plan, 1)?);
            }
            Change::Extra => made = rising(plan, &some_positions(rng)),
            Change::Any => made = some_positions(rng),
            Change::Empty => made.clear(),
            Change::Repeated => {
                let at = place_in(rng, plan, 1)?;
                made.insert(at, plan[at]);
            }
            Change::Swapped => {
                let at = place_in(rng, plan, 2)?;
                made.swap(at, at + 1);
            }
            Change::Falling => {
                place_in(rng, plan, 2)?;
                made.reverse();
            }
            Change::Between => made = rising(plan, &[rng.between(24, 31) as u32]),
            Change::Beyond => return Some(beyond(rng, made)),
            Change::TooMany => made = too_many(rng, plan),
        }
        Some(made)
    }
}

/// The place of some position that has so many from it on, less one.
fn place_in(rng: &mut Rng, plan: &[u32], from_it: usize) -> Option<usize> {
    (plan.len() >= from_it).then(|| rng.below(plan.len() + 1 - from_it))
}

/// All of both, each once, rising.
fn rising(some: &[u32], others: &[u32]) -> Vec<u32> {
    let mut all = [some, others].concat();
    all.sort_unstable();
    all.dedup();
    all
}

/// Any affinity bits, rising: few, half of them or most.
fn some_positions(rng: &mut Rng) -> Vec<u32> {
    let (a, b) = (rng.wide(), rng.wide());
    positions_of(AFFINITY & *rng.pick(&[a, a & b, a | b]))
}

/// Numbers that are no bit of an MPIDR, some of them alike an affinity bit in
/// their lower bits.
fn beyond(rng: &mut Rng, mut plan: Vec<u32>) -> Vec<u32> {
    let near = rng.between(40, 64) as u32;
    let alike = 1 << rng.between(6, 31) | plan.last().copied().unwrap_or(0);
    if rng.one_in(2) {
        plan.pop();
    }
    plan.push(*rng.pick(&[near, alike, u32::MAX, u32::MAX - 24]));
    plan
}

/// All affinity bits with others between and behind them, or some again.
fn too_many(rng: &mut Rng, plan: &[u32]) -> Vec<u32> {
    let mut made = affinity_positions();
    match rng.below(3) {
        0 => made = (0..40).collect(),
        1 => made.extend(40..40 + rng.between(1, 300) as u32),
        _ => made.extend(plan.iter().chain(&[39])),
    }
    made
}
