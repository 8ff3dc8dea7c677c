// SPDX-License-Identifier: BSD-2-Clause OR GPL-2.0-or-later
//! Plans for lists of MPIDRs, each function beside the others.

use sunderwath::{
    calls, layout, list_hash, plan_check, plan_make, plan_slot, Refusal, Rule, MAX_CPUS, MAX_PLAN,
};

/// The affinity bits.
const AFFINITY: u64 = 0xFF_00FF_FFFF;

/// A refusal that speaks of no property.
fn refusal(rule: Rule, place: u32) -> Refusal {
    Refusal {
        rule,
        place,
        property: None,
    }
}

/// One MPIDR with each affinity bit, and 0: all positions are needed.
fn one_bit_each() -> Vec<u64> {
    let bits = (0..24).chain(32..40).map(|bit| 1 << bit);
    bits.chain([0]).collect()
}

/// The bits of an MPIDR at the positions, the lowest position in bit 0.
fn gathered(mpidr: u64, positions: &[u32]) -> u32 {
    let bit = |(at, &position): (usize, &u32)| ((mpidr >> position & 1) as u32) << at;
    positions.iter().enumerate().map(bit).sum()
}

/// The plan is accepted, no position can be dropped, and each slot is that of the bits.
#[test]
fn plans_and_slots() {
    let wide: Vec<u64> = (0..MAX_CPUS as u64).map(|k| k << 4).collect();
    let lists: [(&[u64], &[u32]); 7] = [
        (&[0x0, 0x5], &[2]),
        (&[0x5, 0x0, 0x5], &[2]),
        (&[0x0, 0x1, 0x2], &[0, 1]),
        (&[0x0, 0x3, 0x5, 0x6], &[1, 2]),
        (&[0x0, AFFINITY], &[39]),
        (&[0x1_0000_0000, 0x80_0000], &[32]),
        (&wide, &[4, 5, 6, 7, 8, 9, 10, 11]),
    ];
    for (list, positions) in lists {
        let plan = plan_make(list).unwrap();
        assert_eq!(plan.positions(), positions, "{list:x?}");
        assert_eq!(plan.slots(), 1 << positions.len());
        assert!(plan.slots() <= list_hash(list).unwrap().slots());
        assert_eq!(plan_check(list, positions), Ok(()));
        for at in 0..positions.len() {
            let mut fewer = positions.to_vec();
            fewer.remove(at);
            let refused = Err(refusal(Rule::PlanPositions, 0));
            assert_eq!(plan_check(list, &fewer), refused, "{fewer:?}");
        }
        for &mpidr in list {
            let slot = plan_slot(mpidr, list, positions);
            assert_eq!(slot, Ok(gathered(mpidr, positions)), "{mpidr:#x}");
        }
    }
}

#[test]
fn shortest_and_longest() {
    let one = plan_make(&[0x123, 0x123]).unwrap();
    assert_eq!((one.positions(), one.slots()), (&[][..], 1));
    assert_eq!(format!("{one:?}"), "Plan([])");
    assert_eq!(plan_slot(0x123, &[0x123], &[]), Ok(0));
    let list = one_bit_each();
    let all = plan_make(&list).unwrap();
    assert_eq!((all.positions().len(), all.slots()), (MAX_PLAN, 1 << 32));
    assert!(all.positions().iter().copied().eq((0..24).chain(32..40)));
    assert_eq!(list_hash(&list).unwrap().slots(), 1 << 32);
    let highest = [0, AFFINITY];
    assert_eq!(plan_slot(AFFINITY, &highest, all.positions()), Ok(u32::MAX));
}

#[test]
fn positions_that_are_no_plan() {
    let list = [0x0, 0x5, 0x1_0000_0000];
    assert_eq!(plan_check(&list, &[2, 32]), Ok(()));
    let wrong: [&[u32]; 7] = [
        &[],
        &[32, 2],
        &[2, 2, 32],
        &[2, 24, 32],
        &[2, 32, 40],
        &[2, 32, u32::MAX],
        &[1, 32],
    ];
    for positions in wrong {
        let refused = refusal(Rule::PlanPositions, 0);
        assert_eq!(plan_check(&list, positions), Err(refused), "{positions:?}");
        // It comes before 30, whatever is asked.
        for mpidr in [0x0, 0x7] {
            assert_eq!(plan_slot(mpidr, &list, positions), Err(refused));
        }
    }
    assert_eq!(Rule::PlanPositions.check_name(), "plan_positions");
}

/// 28 and 29 come before 40, and 30 behind it.
#[test]
fn lists_that_are_refused() {
    let long = vec![0; MAX_CPUS + 1];
    let lists: [(&[u64], Refusal); 3] = [
        (&[], refusal(Rule::ListLength, 0)),
        (&long, refusal(Rule::ListLength, 0)),
        (&[0, 5, 1 << 24, 1 << 63], refusal(Rule::ListMpidr, 2)),
    ];
    for (list, refused) in lists {
        assert_eq!(plan_make(list), Err(refused));
        for positions in [&[2][..], &[2, 1]] {
            assert_eq!(plan_check(list, positions), Err(refused));
            assert_eq!(plan_slot(0, list, positions), Err(refused));
        }
    }
    for mpidr in [0x4, 0x1_0000_0005, 0x8000_0000] {
        let unknown = Err(refusal(Rule::ListUnknown, 0));
        assert_eq!(plan_slot(mpidr, &[0, 5], &[2]), unknown);
    }
}

/// With a shorter answer nothing is written; behind the stated words everything stays.
#[test]
fn lengths_of_answers() {
    let list = [0x0, 0x5];
    let calls: [(usize, &dyn Fn(&mut [u32]) -> u32); 3] = [
        (layout::PLAN_CHECK_ANSWER_WORDS, &|answer| {
            calls::plan_check(&list, &[2], answer)
        }),
        (layout::PLAN_SLOT_ANSWER_WORDS, &|answer| {
            calls::plan_slot(0x5, &list, &[2], answer)
        }),
        (layout::PLAN_MAKE_ANSWER_WORDS, &|answer| {
            calls::plan_make(&list, answer)
        }),
    ];
    for (words, call) in calls {
        let mut answer = [7; 40];
        let short = call(&mut answer[..words - 1]);
        assert_eq!((short, answer), (Rule::AnswerSpace.number(), [7; 40]));
        assert_eq!(call(&mut answer), 0);
        assert_eq!(answer[..2], [0, 0]);
        assert!(answer[2..words].iter().all(|&word| word != 7));
        assert!(answer[words..].iter().all(|&word| word == 7));
    }
}
