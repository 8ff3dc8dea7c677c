// SPDX-License-Identifier: BSD-2-Clause OR GPL-2.0-or-later
//! The calls on plans against the second reader, on whole small worlds.

use sunderwath_tests::compare_plan::{is_plan, make, slot};
use sunderwath_tests::plan_claims;

/// All lists of up to three MPIDRs over four bits, with each set of these bits as
/// positions. Asked are the slots of those listed, and of one of all 16 in turn.
#[test]
fn small_world() {
    let bits = [0, 1, 23, 32];
    let mpidr = |code: usize| (0..4).fold(0, |sum, at| sum | (code as u64 >> at & 1) << bits[at]);
    let subset = |code: usize| {
        let chosen = (0..4).filter(|at| code >> at & 1 == 1);
        chosen.map(|at| bits[at]).collect::<Vec<u32>>()
    };
    let mut lists: Vec<Vec<u64>> = (0..16).map(|a| vec![mpidr(a)]).collect();
    lists.extend((0..256).map(|ab| vec![mpidr(ab % 16), mpidr(ab / 16)]));
    let three = |code: usize| [code % 16, code / 16 % 16, code / 256].map(mpidr);
    lists.extend((0..4096).map(|abc| three(abc).to_vec()));
    let mut counts = [0; 3];
    for (at, list) in lists.iter().enumerate() {
        plan_claims::of_our_plan(list);
        make(list);
        for code in 0..16 {
            let positions = subset(code);
            let plan = is_plan(list, &positions);
            let told = slot(mpidr((at + code) % 16), list, &positions);
            counts[usize::from(plan) + usize::from(told.number == 0)] += 1;
            if plan {
                plan_claims::of_plan(list, &positions);
            }
        }
    }
    println!(
        "{} lists with 16 sets of positions each: {} no plan, {} unknown, {} slots",
        lists.len(),
        counts[0],
        counts[1],
        counts[2]
    );
    assert!(counts.iter().all(|&count| count > 0));
}

/// All sequences of up to four of six positions, two of them none.
#[test]
fn small_world_of_positions() {
    let numbers = [0, 2, 23, 24, 32, 40];
    let lists: [&[u64]; 3] = [&[0, 5], &[3, 3], &[0, 1 << 23, 1 << 32 | 4]];
    let mut counts = [0; 2];
    for length in 0..=4 {
        for code in 0..6_usize.pow(length) {
            let digit = |at| numbers[code / 6_usize.pow(at) % 6];
            let positions: Vec<u32> = (0..length).map(digit).collect();
            for list in lists {
                counts[usize::from(is_plan(list, &positions))] += 1;
                slot(list[1], list, &positions);
            }
        }
    }
    let [refused, accepted] = counts;
    println!("sequences of up to four positions: {accepted} plans, {refused} not");
    assert!(accepted > 0 && refused > accepted);
}
