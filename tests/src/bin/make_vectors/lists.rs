// SPDX-License-Identifier: BSD-2-Clause OR GPL-2.0-or-later
//! Lists of MPIDRs: list_hash, list_slot, and slot on bytes.

use crate::vector::{number, some_answer, unless_short, Call, Ground, Part, Vector};
use sunderwath_tests::answer::ANSWER_WORDS;
use sunderwath_tests::build::cases::lists;
use sunderwath_tests::build::plans::{some_mpidr, AFFINITY};
use sunderwath_tests::build::slots::{mpidrs_with_bits, ALL_BITS};
use sunderwath_tests::rng::Rng;
use sunderwath_tests::second::{self, list_bytes, BYTES_ANSWER};

/// Lists made at random.
const ANY: usize = 1_500;

pub fn vectors(rng: &mut Rng) -> Vec<Vector> {
    let mut vectors = Vec::new();
    for list in lists() {
        for &mpidr in &list.asked {
            vectors.extend(all_calls(rng, &list.mpidrs, mpidr));
        }
    }
    for length in [255, 256, 257, 300] {
        let list: Vec<u64> = (0..length).map(|_| rng.wide() & AFFINITY).collect();
        let mpidr = list[length - 1];
        vectors.extend(all_calls(rng, &list, mpidr));
    }
    for _ in 0..ANY {
        let list = some_list(rng);
        let mpidr = some_mpidr(rng, &list);
        vectors.extend(all_calls(rng, &list, mpidr));
    }
    vectors
}

/// A list whose hash has some bits; MPIDRs repeated and bad ones at times.
pub fn some_list(rng: &mut Rng) -> Vec<u64> {
    let bits = rng.below(ALL_BITS as usize + 1) as u32;
    let most = if bits < 5 { 1 << bits } else { 24 };
    let count = if bits == 0 { 1 } else { rng.between(2, most) };
    let mut list = mpidrs_with_bits(rng, bits, count, if bits > 24 { 2 } else { 1 });
    for _ in 0..rng.below(4) {
        let again = *rng.pick(&list);
        list.push(again);
    }
    if rng.one_in(6) {
        let at = rng.below(list.len());
        list[at] |= 1 << rng.below(64);
    }
    list
}

fn all_calls(rng: &mut Rng, list: &[u64], mpidr: u64) -> [Vector; 3] {
    let mut bytes = list_bytes(list);
    if rng.one_in(20) {
        bytes.truncate(bytes.len().saturating_sub(rng.between(1, 7)));
    }
    [
        list_hash(rng, list),
        list_slot(rng, list, mpidr),
        slot(rng, bytes, mpidr),
    ]
}

fn list_hash(rng: &mut Rng, list: &[u64]) -> Vector {
    let (ground, lent) = (Ground::some(rng), some_answer(rng, ANSWER_WORDS));
    let answer = unless_short(lent, || second::list_hash(list));
    Vector {
        call: Call::ListHash,
        asked: 0,
        ground,
        parts: vec![
            Part::Mpidrs(list.to_vec()),
            ground.answer(lent, answer.as_ref()),
        ],
        number: number(answer.as_ref()),
    }
}

fn list_slot(rng: &mut Rng, list: &[u64], mpidr: u64) -> Vector {
    let (ground, lent) = (Ground::some(rng), some_answer(rng, ANSWER_WORDS));
    let answer = unless_short(lent, || second::list_slot(mpidr, list));
    Vector {
        call: Call::ListSlot,
        asked: mpidr,
        ground,
        parts: vec![
            Part::Mpidrs(list.to_vec()),
            ground.answer(lent, answer.as_ref()),
        ],
        number: number(answer.as_ref()),
    }
}

fn slot(rng: &mut Rng, list: Vec<u8>, mpidr: u64) -> Vector {
    let (ground, lent) = (Ground::some(rng), some_answer(rng, BYTES_ANSWER));
    let told = second::slot(mpidr, &list, lent);
    Vector {
        call: Call::Slot,
        asked: mpidr,
        ground,
        parts: vec![Part::Bytes(list), ground.bytes(lent, &told.answer_bytes())],
        number: told.number(),
    }
}
