// SPDX-License-Identifier: BSD-2-Clause OR GPL-2.0-or-later
//! The calls on plans against the second reader: worked cases, the order of the
//! numbers, short answers and limits.

use sunderwath_tests::build::plans::{affinity_positions, needs_every_position, AFFINITY};
use sunderwath_tests::compare_plan::{check, is_plan, make, short_answers, slot};
use sunderwath_tests::plan_answer::PlanAnswer;
use sunderwath_tests::{ffi, plan_claims};

/// A bit that no MPIDR has.
const OUTSIDE: u64 = 1 << 24;

/// Number and place that all calls tell of a list; 30 cannot come up.
fn refused_list(list: &[u64], positions: &[u32], told: (u32, u32)) {
    let (number, place) = told;
    assert_eq!(check(list, positions), PlanAnswer::refusal(number, place));
    let mpidr = list.last().copied().unwrap_or(0);
    for mpidr in [mpidr, 77, u64::MAX] {
        let told = slot(mpidr, list, positions);
        assert_eq!(told, PlanAnswer::refusal(number, place));
    }
    assert_eq!(make(list), PlanAnswer::refusal(number, place));
}

/// List, our plan, the slots under it, and the bits of the hash.
type Case<'a> = (&'a [u64], &'a [u32], &'a [u32], u32);

#[test]
fn worked_cases() {
    let cases: [Case; 9] = [
        (&[0x0, 0x5], &[2], &[0, 1], 3),
        (&[0x0], &[], &[0], 0),
        (&[0x7, 0x7], &[], &[0, 0], 0),
        (&[0x0, 0x1, 0x2, 0x3], &[0, 1], &[0, 1, 2, 3], 2),
        (&[0x0, 0xFF_00FF_FFFF], &[39], &[0, 1], 32),
        (&[0x2, 0x80], &[7], &[0, 1], 7),
        (&[0xF00, 0xF01, 0xF02, 0xF03], &[0, 1], &[0, 1, 2, 3], 2),
        // Any two of bits 0, 8 and 16 are a plan, and bit 0 is tried first.
        (&[0x0, 0x101, 0x1_0001], &[8, 16], &[0, 1, 2], 3),
        // The highest one alone can be dropped.
        (&[0, 1, 2, 0x80_0000_0003], &[0, 1], &[0, 1, 2, 3], 3),
    ];
    for (list, plan, slots, bits) in cases {
        assert_eq!(make(list), PlanAnswer::accepted(plan.to_vec()));
        assert_eq!(plan_claims::of_our_plan(list), plan);
        assert_eq!(ffi::list_hash(list).bits, bits);
        for (&mpidr, &wanted) in list.iter().zip(slots) {
            assert_eq!(slot(mpidr, list, plan), PlanAnswer::accepted(wanted));
        }
        println!("{list:x?}: positions {plan:?}, {bits} bits before");
    }
}

/// Any plan is taken, not ours alone; any other positions are not.
#[test]
fn plans_of_others() {
    let plans: [&[u32]; 4] = [&[0], &[0, 2], &[0, 1, 2], &[1, 2, 39]];
    for plan in plans {
        assert!(is_plan(&[0, 5], plan), "{plan:?}");
        plan_claims::of_plan(&[0, 5], plan);
    }
    assert_eq!(slot(5, &[0, 5], &[0, 1, 2]), PlanAnswer::accepted(5));
    assert_eq!(slot(5, &[0, 5], &[1, 2, 39]), PlanAnswer::accepted(2));
    let others: [&[u32]; 12] = [
        &[],
        &[1],
        &[2, 2],
        &[2, 0],
        &[0, 2, 1],
        &[2, 24],
        &[2, 31],
        &[2, 40],
        &[2, u32::MAX],
        // Bit 2 in their lower bits
        &[66],
        &[258],
        &[0x8000_0002],
    ];
    for positions in others {
        assert!(!is_plan(&[0, 5], positions), "{positions:?}");
        let told = slot(5, &[0, 5], positions);
        assert_eq!(told, PlanAnswer::refusal(40, 0));
    }
    // No position parts equal MPIDRs, and none has to.
    assert!(is_plan(&[5, 5, 5], &[]));
    assert!(is_plan(&[5, 5, 5], &[1]));
    assert!(!is_plan(&[5, 5, 5], &[24]));
}

/// Each number before those that come after it, in one input.
#[test]
fn order_of_numbers() {
    let long = vec![OUTSIDE; 257];
    let broken = [[2, 1], [0, 0], [24, 25], [39, 40]];
    for positions in &broken {
        // 28, with 29, 40 and 30 behind it
        refused_list(&[], positions, (28, 0));
        refused_list(&long, positions, (28, 0));
        refused_list(&vec![3; 257], positions, (28, 0));
        // 29, with 40 and 30 behind it
        refused_list(&[0, 1, OUTSIDE, 1 << 63], positions, (29, 2));
        // 40, with 30 behind it
        for mpidr in [0, 9, OUTSIDE] {
            let told = slot(mpidr, &[0, 5], positions);
            assert_eq!(told, PlanAnswer::refusal(40, 0));
        }
    }
    assert_eq!(slot(9, &[0, 5], &[1]), PlanAnswer::refusal(40, 0));
    // 28 and 29 where the positions would be a plan
    refused_list(&[], &[], (28, 0));
    refused_list(&[OUTSIDE], &[], (29, 0));
    refused_list(&long, &affinity_positions(), (28, 0));
    // 30 alone; bit 0 would put 4 on the slot of 0, and no sound list has OUTSIDE
    for mpidr in [4, 1, OUTSIDE, OUTSIDE | 5, u64::MAX] {
        let told = slot(mpidr, &[0, 5], &[0]);
        assert_eq!(told, PlanAnswer::refusal(30, 0));
        assert_eq!(slot(mpidr, &[7, 7], &[]), PlanAnswer::refusal(30, 0));
    }
}

/// Each bit in an MPIDR at each place, and as a position.
#[test]
fn every_bit() {
    for bit in 0..64 {
        let inside = AFFINITY >> bit & 1 == 1;
        for at in 0..3 {
            let mut list = [0; 3];
            list[at] = 1 << bit;
            if inside {
                assert_eq!(make(&list), PlanAnswer::accepted(vec![bit]));
                assert_eq!(slot(1 << bit, &list, &[bit]), PlanAnswer::accepted(1));
            } else {
                // A later one that is bad too is not told.
                list[2] |= 1 << 63;
                refused_list(&list, &[bit], (29, at as u32));
            }
        }
        assert_eq!(is_plan(&[0, AFFINITY], &[bit]), inside);
        assert_eq!(is_plan(&[6, 6], &[bit]), inside);
        assert_eq!(is_plan(&[0, 1], &[0, bit]), inside && bit > 0);
    }
}

/// Whatever else is wrong, and where nothing is.
#[test]
fn answers_that_are_too_short() {
    let lists: [&[u64]; 6] = [
        &[],
        &[0; 257],
        &[OUTSIDE],
        &[0, 5],
        &[5, 5],
        &[0, 1 << 63, 9],
    ];
    let positions: [&[u32]; 5] = [&[], &[2], &[1], &[3, 2], &[0, u32::MAX]];
    for list in lists {
        for positions in positions {
            for mpidr in [0, 5, 6, u64::MAX] {
                short_answers(mpidr, list, positions);
            }
        }
    }
    println!("answers of 0 and 1, 0 to 2, and 0 to 34 words");
}

#[test]
fn lists_at_the_limit() {
    let dense: Vec<u64> = (0..257).map(|at| at % 256).collect();
    let eight: Vec<u32> = (0..8).collect();
    assert_eq!(make(&dense[..256]), PlanAnswer::accepted(eight.clone()));
    for mpidr in [0, 1, 128, 255] {
        let told = slot(mpidr, &dense[..256], &eight);
        assert_eq!(told, PlanAnswer::accepted(mpidr as u32));
    }
    refused_list(&dense, &eight, (28, 0));
    let mut bad = dense[..256].to_vec();
    bad[255] |= OUTSIDE;
    refused_list(&bad, &eight, (29, 255));
    assert!(is_plan(&[7; 256], &[]));
    assert_eq!(make(&[7; 256]), PlanAnswer::accepted(vec![]));
    refused_list(&[7; 257], &[], (28, 0));
}

/// 256 MPIDRs of which each position parts some two.
#[test]
fn plans_of_all_positions() {
    let all = affinity_positions();
    let list = needs_every_position(256);
    assert_eq!(list.len(), 256);
    assert_eq!(make(&list), PlanAnswer::accepted(all.clone()));
    assert_eq!(plan_claims::of_our_plan(&list), all);
    for at in 0..all.len() {
        let mut fewer = all.clone();
        fewer.remove(at);
        assert!(!is_plan(&list, &fewer), "without {}", all[at]);
    }
    let told = slot(AFFINITY, &[0, AFFINITY], &all);
    assert_eq!(told, PlanAnswer::accepted(u32::MAX));
    // The first and the last two alone are not told apart.
    for (a, b) in [(0, 1), (0, 255), (254, 255)] {
        let mut list: Vec<u64> = (0..256).collect();
        list[a] = 1 << 39;
        list[b] = 1 << 38;
        let mut plan: Vec<u32> = (0..8).chain([38, 39]).collect();
        assert!(is_plan(&list, &plan));
        plan.truncate(8);
        assert!(!is_plan(&list, &plan));
    }
}
