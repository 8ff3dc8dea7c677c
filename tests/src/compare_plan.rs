// SPDX-License-Identifier: BSD-2-Clause OR GPL-2.0-or-later
//! Compares the calls on plans with the second reader, with all that is lent
//! and what stands around it; the fast versions, too. Each gives back the answer
//! that all agree on.

use crate::fast::{self, TellsApart};
use crate::ffi;
use crate::lent::Part;
use crate::plan_answer::{unless_short, PlanAnswer, CHECK_WORDS, MAKE_WORDS, SLOT_WORDS};
use crate::second;

/// Words that are lent beyond those that an answer has.
const MORE: [usize; 3] = [0, 1, 40];

/// The fast versions.
const FAST: [TellsApart; 2] = [fast::by_pairs, fast::by_sorting];

/// What is only read.
#[derive(Debug)]
struct Lent<'a> {
    list: &'a [u64],
    positions: &'a [u32],
}

/// Makes a call with an answer of so many words, of which these are wanted.
fn compare(
    lent: &Lent,
    words: &[u32],
    answer_n: usize,
    call: impl Fn(&[u64], &[u32], &mut [u32]) -> u32,
) {
    let start = (lent.list.len() + answer_n) % 2;
    let list = Part::of(lent.list, 0);
    let positions = Part::of(lent.positions, start);
    let mut answer = Part::new(answer_n, start);
    let mut wanted = answer.clone();
    let (number, written) = unless_short(words, answer_n);
    wanted.write(written);
    let told = call(list.lent(), positions.lent(), answer.lent_mut());
    let different = [
        answer.difference("answer", &wanted),
        list.difference("list", &Part::of(lent.list, 0)),
        positions.difference("positions", &Part::of(lent.positions, start)),
    ];
    assert_eq!(told, number, "number given back: {lent:#x?}");
    assert_eq!(different, [None, None, None], "{lent:#x?}");
}

/// With answers of the stated words and of more.
fn agree(lent: &Lent, words: &[u32], call: impl Fn(&[u64], &[u32], &mut [u32]) -> u32) {
    for more in MORE {
        compare(lent, words, words.len() + more, &call);
    }
}

/// With each answer that is too short: 49, and nothing is written.
fn short(lent: &Lent, words: usize, call: impl Fn(&[u64], &[u32], &mut [u32]) -> u32) {
    for answer_n in 0..words {
        compare(lent, &vec![0; words], answer_n, &call);
    }
}

pub fn check(list: &[u64], positions: &[u32]) -> PlanAnswer<()> {
    let told = second::plan_check(list, positions);
    let lent = Lent { list, positions };
    agree(&lent, &told.words(), ffi::plan_check_into);
    for way in FAST {
        assert_eq!(fast::plan_check(list, positions, way), told, "{lent:#x?}");
    }
    told
}

/// Whether positions are a plan for a sound list; if not, 40 is told.
pub fn is_plan(list: &[u64], positions: &[u32]) -> bool {
    let told = check(list, positions);
    let accepted = told == PlanAnswer::accepted(());
    assert!(accepted || told == PlanAnswer::refusal(40, 0), "{told:?}");
    accepted
}

pub fn slot(mpidr: u64, list: &[u64], positions: &[u32]) -> PlanAnswer<u32> {
    let told = second::plan_slot(mpidr, list, positions);
    let lent = Lent { list, positions };
    agree(&lent, &told.words(), |list, positions, answer| {
        ffi::plan_slot_into(mpidr, list, positions, answer)
    });
    for way in FAST {
        let fast = fast::plan_slot(mpidr, list, positions, way);
        assert_eq!(fast, told, "{mpidr:#x} in {lent:#x?}");
    }
    told
}

pub fn make(list: &[u64]) -> PlanAnswer<Vec<u32>> {
    let told = second::plan_make(list);
    let positions = &[];
    let lent = Lent { list, positions };
    agree(&lent, &told.words(), |list, _, answer| {
        ffi::plan_make_into(list, answer)
    });
    for way in FAST {
        assert_eq!(fast::plan_make(list, way)[..], told.words(), "{lent:#x?}");
    }
    told
}

/// All three calls, with each answer that is too short.
pub fn short_answers(mpidr: u64, list: &[u64], positions: &[u32]) {
    let lent = Lent { list, positions };
    short(&lent, CHECK_WORDS, ffi::plan_check_into);
    short(&lent, SLOT_WORDS, |list, positions, answer| {
        ffi::plan_slot_into(mpidr, list, positions, answer)
    });
    short(&lent, MAKE_WORDS, |list, _, answer| {
        ffi::plan_make_into(list, answer)
    });
}
