// SPDX-License-Identifier: BSD-2-Clause OR GPL-2.0-or-later
//! The calls on plans against the second reader, on lists made at random.

use std::collections::BTreeMap;
use sunderwath_tests::build::plans::{list_of, some_list, some_mpidr, Change, AFFINITY};
use sunderwath_tests::compare_plan::{check, make, short_answers, slot};
use sunderwath_tests::plan_claims;
use sunderwath_tests::rng::Rng;

/// How often each number was told of positions that were made in each way.
#[derive(Default)]
struct Counts(BTreeMap<(Change, u32), usize>);

impl Counts {
    fn of(&self, change: Change, number: u32) -> usize {
        self.0.get(&(change, number)).copied().unwrap_or(0)
    }

    /// Prints all, and demands that all that can be told was.
    fn sum_up(&self) {
        for change in Change::ALL {
            let (accepted, refused) = (self.of(change, 0), self.of(change, 40));
            println!("{change:?}: {accepted} accepted, {refused} refused");
            assert_eq!(accepted > 0, change.makes_a_plan() != Some(false));
            assert_eq!(refused > 0, change.makes_a_plan() != Some(true));
        }
    }
}

/// Positions made of our plan, through both calls that take them.
fn compare_change(rng: &mut Rng, change: Change, list: &[u64], plan: &[u32]) -> Option<u32> {
    let positions = change.of(rng, plan)?;
    let number = check(list, &positions).number;
    let accepted = number == 0;
    let wanted = change.makes_a_plan().unwrap_or(accepted);
    assert_eq!(accepted, wanted, "{change:?} of {plan:?}: {positions:?}");
    if positions.is_empty() {
        let equal = list.iter().all(|&mpidr| mpidr == list[0]);
        assert_eq!(accepted, equal, "no position, {list:#x?}");
    }
    if accepted {
        plan_claims::of_plan(list, &positions);
    }
    let mpidr = some_mpidr(rng, list);
    let told = slot(mpidr, list, &positions).number;
    let unknown = accepted && !list.contains(&mpidr);
    assert_eq!(told, if unknown { 30 } else { number });
    Some(number)
}

fn compare_all(rng: &mut Rng, counts: &mut Counts, list: &[u64]) {
    let plan = plan_claims::of_our_plan(list);
    assert_eq!(make(list).found, plan);
    for change in Change::ALL {
        if let Some(number) = compare_change(rng, change, list, &plan) {
            *counts.0.entry((change, number)).or_default() += 1;
        }
    }
}

#[test]
fn random_lists() {
    const LISTS: usize = 6_000;
    const SEED: u64 = 0x91A2_0001;
    let mut rng = Rng::new(SEED);
    let mut counts = Counts::default();
    for _ in 0..LISTS {
        let list = some_list(&mut rng);
        compare_all(&mut rng, &mut counts, &list);
    }
    println!("{LISTS} lists, seed {SEED:#x}");
    counts.sum_up();
}

/// Lists of 100 to 256; every one of these lengths is as likely.
#[test]
fn long_lists() {
    const LISTS: usize = 30;
    const SEED: u64 = 0x91A2_0002;
    let mut rng = Rng::new(SEED);
    let mut counts = Counts::default();
    let mut longest = 0;
    for _ in 0..LISTS {
        let length = *rng.pick(&[100, 200, 255, 256]);
        let list = list_of(&mut rng, length);
        longest = longest.max(plan_claims::of_our_plan(&list).len());
        compare_all(&mut rng, &mut counts, &list);
    }
    println!("{LISTS} lists of up to 256, seed {SEED:#x}, plans of up to {longest} positions");
    counts.sum_up();
    assert!(longest > 8);
}

/// Lists that are too long, empty or have bad bits, short answers besides.
#[test]
fn refused_lists() {
    const LISTS: usize = 20_000;
    const SEED: u64 = 0x91A2_0003;
    let mut rng = Rng::new(SEED);
    let mut counts: BTreeMap<u32, usize> = BTreeMap::new();
    for _ in 0..LISTS {
        let mut list = match rng.below(40) {
            0 => Vec::new(),
            1 => vec![rng.wide() & AFFINITY; 257],
            _ => some_list(&mut rng),
        };
        for _ in 0..list.len().min(rng.below(3)) {
            let at = rng.below(list.len());
            list[at] ^= 1 << rng.below(64);
        }
        let change = *rng.pick(&Change::ALL);
        let positions = change.of(&mut rng, &[0, 7, 32]).expect("three positions");
        let told = check(&list, &positions);
        let made = make(&list);
        let asked = list.first().copied().unwrap_or(0);
        assert_eq!(slot(asked, &list, &positions).number, told.number);
        let same = [28, 29].contains(&told.number) || made.number == 0;
        assert!(same, "{told:?}, {made:?}");
        if rng.one_in(100) {
            short_answers(asked, &list, &positions);
        }
        *counts.entry(told.number).or_default() += 1;
    }
    println!("{LISTS} lists, seed {SEED:#x}: {counts:?}");
    let numbers: Vec<u32> = counts.into_keys().collect();
    assert_eq!(numbers, [0, 28, 29, 40]);
}
