// SPDX-License-Identifier: BSD-2-Clause OR GPL-2.0-or-later
//! Plans, over sets of bit positions: of any two different MPIDRs there is the
//! set of bits in which they differ, and a plan meets each of these sets.

use super::hash::list_refusal;
use crate::plan_answer::{Found, PlanAnswer};
use std::collections::BTreeSet;

type Bits = BTreeSet<u32>;

/// Number and place.
type Broken = (u32, u32);

/// The bits that positions are taken from.
fn affinity_bits() -> Bits {
    (0..=23).chain(32..=39).collect()
}

fn ones(mpidr: u64) -> Bits {
    (0..64).filter(|at| mpidr >> at & 1 == 1).collect()
}

/// For each two different MPIDRs the bits in which they differ.
fn differences(list: &[u64]) -> BTreeSet<Bits> {
    let different: BTreeSet<Bits> = list.iter().map(|&mpidr| ones(mpidr)).collect();
    let mut sets = BTreeSet::new();
    for a in &different {
        for b in different.iter().take_while(|b| *b != a) {
            sets.insert(a ^ b);
        }
    }
    sets
}

/// Whether each of the sets has a position.
fn meet_all(differences: &BTreeSet<Bits>, positions: &Bits) -> bool {
    let meet = |set: &Bits| !set.is_disjoint(positions);
    differences.iter().all(meet)
}

/// Positions rise strictly if they stand as in their set.
fn is_plan(list: &[u64], positions: &[u32]) -> bool {
    let set: Bits = positions.iter().copied().collect();
    let rising = set.iter().eq(positions);
    rising && set.is_subset(&affinity_bits()) && meet_all(&differences(list), &set)
}

/// From all bits in which MPIDRs differ each is dropped that can be, the lowest
/// first.
fn plan(list: &[u64]) -> Bits {
    let differences = differences(list);
    let all: Bits = differences.iter().flatten().copied().collect();
    let mut left = all.clone();
    for position in all {
        let without = &left - &Bits::from([position]);
        if meet_all(&differences, &without) {
            left = without;
        }
    }
    left
}

/// The n-th position has the n-th bit of the slot.
fn slot(mpidr: u64, positions: &[u32]) -> u32 {
    let ones = ones(mpidr);
    let places = (0..).zip(positions);
    let set = places.filter(|(_, position)| ones.contains(position));
    set.map(|(place, _)| 1 << place).sum()
}

/// 28 and 29.
fn of_list(list: &[u64]) -> Option<Broken> {
    list_refusal(list).map(|refusal| (refusal.number, refusal.place))
}

/// 28, 29 and 40.
fn of_plan(list: &[u64], positions: &[u32]) -> Option<Broken> {
    of_list(list).or_else(|| (!is_plan(list, positions)).then_some((40, 0)))
}

fn answer<T: Found>(broken: Option<Broken>, find: impl FnOnce() -> T) -> PlanAnswer<T> {
    match broken {
        Some((number, place)) => PlanAnswer::refusal(number, place),
        None => PlanAnswer::accepted(find()),
    }
}

pub fn plan_check(list: &[u64], positions: &[u32]) -> PlanAnswer<()> {
    answer(of_plan(list, positions), || ())
}

pub fn plan_slot(mpidr: u64, list: &[u64], positions: &[u32]) -> PlanAnswer<u32> {
    let unknown = || (!list.contains(&mpidr)).then_some((30, 0));
    let broken = of_plan(list, positions).or_else(unknown);
    answer(broken, || slot(mpidr, positions))
}

pub fn plan_make(list: &[u64]) -> PlanAnswer<Vec<u32>> {
    answer(of_list(list), || plan(list).into_iter().collect())
}

#[cfg(test)]
mod tests {
    use super::*;

    fn bits<const N: usize>(positions: [u32; N]) -> Bits {
        positions.into()
    }

    #[test]
    fn sets_of_differing_bits() {
        let sets = |list: &[u64]| differences(list).into_iter().collect::<Vec<Bits>>();
        assert_eq!(sets(&[7, 7, 7]), []);
        assert_eq!(sets(&[0, 5]), [bits([0, 2])]);
        assert_eq!(sets(&[5, 0, 5, 0]), [bits([0, 2])]);
        // 1 and 2 differ in bits 0 and 1, 1 and 6 in all three, 2 and 6 in bit 2.
        let three = [bits([0, 1]), bits([0, 1, 2]), bits([2])];
        assert_eq!(sets(&[1, 2, 6]), three);
        assert_eq!(
            sets(&[0x80_0080_0000, 0x1_0000_0001]),
            [bits([0, 23, 32, 39])]
        );
    }

    #[test]
    fn plans_of_small_lists() {
        let check = |list: &[u64], positions: &[u32]| plan_check(list, positions).words();
        assert_eq!(check(&[0, 5], &[2]), [0, 0]);
        assert_eq!(check(&[0, 5], &[0]), [0, 0]);
        assert_eq!(check(&[0, 5], &[0, 1, 2]), [0, 0]);
        assert_eq!(check(&[0, 5], &[1]), [40, 0]);
        assert_eq!(check(&[0, 5], &[]), [40, 0]);
        assert_eq!(check(&[5, 5], &[]), [0, 0]);
        assert_eq!(check(&[1, 2, 6], &[0, 2]), [0, 0]);
        assert_eq!(check(&[1, 2, 6], &[0, 1]), [40, 0]);
        assert_eq!(check(&[1, 2, 6], &[2]), [40, 0]);
    }

    #[test]
    fn positions_that_are_none() {
        let number = |positions: &[u32]| plan_check(&[0, 5], positions).number;
        for positions in [&[0, 0][..], &[2, 0], &[0, 2, 2], &[0, 24], &[0, 31]] {
            assert_eq!(number(positions), 40);
        }
        for positions in [&[0, 40][..], &[2, 64], &[0, u32::MAX], &[24]] {
            assert_eq!(number(positions), 40);
        }
        assert_eq!(number(&[0, 23, 32, 39]), 0);
    }

    #[test]
    fn slots_by_hand() {
        assert_eq!(slot(0x80_0000_0001, &[]), 0);
        assert_eq!(slot(0x80_0000_0001, &[0, 23, 39]), 0b101);
        assert_eq!(slot(0xFF_00FF_FFFF, &[1, 7, 32, 33]), 0b1111);
        let all: Vec<u32> = affinity_bits().into_iter().collect();
        assert_eq!(slot(0xFF_00FF_FFFF, &all), u32::MAX);
        assert_eq!(slot(0x1_0000_0000, &all), 1 << 24);
        let told = |mpidr, list: &[u64], positions: &[u32]| {
            let answer = plan_slot(mpidr, list, positions);
            answer.words()
        };
        assert_eq!(told(5, &[0, 5], &[2]), [0, 0, 1]);
        assert_eq!(told(0, &[0, 5], &[2]), [0, 0, 0]);
        assert_eq!(told(4, &[0, 5], &[2]), [30, 0, 0]);
        assert_eq!(told(4, &[0, 5], &[1]), [40, 0, 0]);
        assert_eq!(told(4, &[0, 1 << 24], &[1]), [29, 1, 0]);
        assert_eq!(told(4, &[], &[1]), [28, 0, 0]);
    }

    #[test]
    fn our_plans_by_hand() {
        let made = |list: &[u64]| plan_make(list).found;
        assert_eq!(made(&[0, 5]), [2]);
        assert_eq!(made(&[9]), []);
        assert_eq!(made(&[0, 1, 2, 3]), [0, 1]);
        // Of bits 0, 1 and 2 any two are enough, and bit 0 is tried first.
        assert_eq!(made(&[0, 3, 5]), [1, 2]);
        // Bits 0 and 2 would do as well.
        assert_eq!(made(&[1, 2, 6]), [1, 2]);
        assert_eq!(made(&[0, 0xFF_00FF_FFFF]), [39]);
        let mut words = vec![0, 0, 2, 0, 1];
        words.resize(35, 0);
        assert_eq!(plan_make(&[0, 1, 2, 3]).words(), words);
        let mut words = vec![29, 2];
        words.resize(35, 0);
        assert_eq!(plan_make(&[0, 1, 1 << 40, 1 << 41]).words(), words);
        assert_eq!(plan_make(&[0; 257]), PlanAnswer::refusal(28, 0));
    }
}
