// SPDX-License-Identifier: BSD-2-Clause OR GPL-2.0-or-later
//! Plans: plan_check, plan_slot and plan_make.

use crate::lists::some_list;
use crate::vector::{some_answer, Call, Ground, Part, Vector};
use sunderwath_tests::build::plans::{self, needs_every_position, some_mpidr, Change, AFFINITY};
use sunderwath_tests::plan_answer::unless_short;
use sunderwath_tests::rng::Rng;
use sunderwath_tests::second::{plan_check, plan_make, plan_slot};

/// Lists made at random.
const ANY: usize = 500;

pub fn vectors(rng: &mut Rng) -> Vec<Vector> {
    let mut vectors = Vec::new();
    for list in fixed(rng) {
        all_calls(rng, &mut vectors, &list);
    }
    for _ in 0..ANY {
        let list = match rng.one_in(2) {
            true => plans::some_list(rng),
            false => some_list(rng),
        };
        all_calls(rng, &mut vectors, &list);
    }
    vectors
}

/// H7, the longest lists and their plans, and lists that are refused.
fn fixed(rng: &mut Rng) -> Vec<Vec<u64>> {
    let mut mpidr = |_| rng.wide() & AFFINITY;
    vec![
        vec![0x0, 0x5],
        vec![0x7, 0x7],
        vec![0x0, AFFINITY],
        (0..256).collect(),
        (0..256).map(&mut mpidr).collect(),
        needs_every_position(256),
        Vec::new(),
        (0..257).map(&mut mpidr).collect(),
    ]
}

/// A plan for the list, and positions of each sort that are made of it.
fn all_calls(rng: &mut Rng, vectors: &mut Vec<Vector>, list: &[u64]) {
    let made = plan_make(list);
    vectors.push(vector(rng, Call::PlanMake, (0, list, None), &made.words()));
    for change in [Change::Same, *rng.pick(&Change::ALL)] {
        let positions = change.of(rng, &made.found).unwrap_or_default();
        let mpidr = match list.is_empty() {
            true => 0,
            false => some_mpidr(rng, list),
        };
        let lent = Some(&positions[..]);
        let words = plan_check(list, &positions).words();
        vectors.push(vector(rng, Call::PlanCheck, (0, list, lent), &words));
        let words = plan_slot(mpidr, list, &positions).words();
        vectors.push(vector(rng, Call::PlanSlot, (mpidr, list, lent), &words));
    }
}

/// What a call takes: an MPIDR or 0, a list, and positions where it does.
type Taken<'a> = (u64, &'a [u64], Option<&'a [u32]>);

/// A call, whose answer is of these words where they are lent.
fn vector(rng: &mut Rng, call: Call, taken: Taken, words: &[u32]) -> Vector {
    let (asked, list, positions) = taken;
    let (ground, lent) = (Ground::some(rng), some_answer(rng, words.len()));
    let (number, written) = unless_short(words, lent);
    let mut parts = vec![Part::Mpidrs(list.to_vec())];
    parts.extend(positions.map(|positions| Part::Words(positions.to_vec())));
    parts.push(ground.words(lent, written));
    Vector {
        call,
        asked,
        ground,
        parts,
        number,
    }
}
