// SPDX-License-Identifier: BSD-2-Clause OR GPL-2.0-or-later
//! The plans that `--plan` prints, beside those of a second planner.

use crate::boards::ACCEPTED;
use crate::builder::with_mpidrs;
use crate::generator::Generator;
use crate::plans::printed;
use crate::run::{board, run, text};

const SEED: u64 = 0x5EED_0028;

/// Numbers behind a name in a comment.
fn numbers(text: &str, name: &str) -> Vec<u64> {
    let (_, rest) = text.split_once(&format!("{name}=")).expect(name);
    let numbers = rest.split([' ', '\n']).next().unwrap_or("").split(',');
    let numbers = numbers.filter(|number| !number.is_empty());
    numbers
        .map(|number| number.parse().expect("a number"))
        .collect()
}

/// The bits of an MPIDR at the positions, the lowest position in bit 0.
fn gathered(mpidr: u64, positions: &[u64]) -> u64 {
    let bits = positions.iter().enumerate();
    bits.map(|(at, position)| (mpidr >> position & 1) << at)
        .sum()
}

/// Whether the positions tell all MPIDRs, which are different, apart.
fn apart(mpidrs: &[u64], positions: &[u64]) -> bool {
    let mut slots: Vec<u64> = mpidrs.iter().map(|m| gathered(*m, positions)).collect();
    slots.sort_unstable();
    slots.dedup();
    slots.len() == mpidrs.len()
}

/// All positions at which MPIDRs differ, without each that can go, from the lowest up.
fn second_plan(mpidrs: &[u64]) -> Vec<u64> {
    let differ = |position: &u64| mpidrs.iter().any(|m| (m ^ mpidrs[0]) >> position & 1 == 1);
    let all: Vec<u64> = (0..64).filter(differ).collect();
    all.iter().fold(all.clone(), |kept, position| {
        let fewer: Vec<u64> = kept.iter().copied().filter(|p| p != position).collect();
        if apart(mpidrs, &fewer) {
            fewer
        } else {
            kept
        }
    })
}

/// What `-p` prints of the plan is that of the second planner. Gives the number of slots that it saves.
fn check_plan(values: &str) -> u64 {
    let rows = values.lines().filter(|line| !line.starts_with('#'));
    let rows: Vec<Vec<&str>> = rows.map(|row| row.split(',').collect()).collect();
    let mpidr = |row: &Vec<&str>| u64::from_str_radix(row[2].trim_start_matches("0x"), 16);
    let mpidrs: Vec<u64> = rows.iter().map(|row| mpidr(row).expect("it")).collect();
    let positions = second_plan(&mpidrs);
    assert_eq!(numbers(values, "positions"), positions, "{mpidrs:x?}");
    let (before, after) = (1 << numbers(values, "bits")[0], 1 << positions.len());
    assert_eq!(numbers(values, "slots_before"), [before]);
    assert_eq!(numbers(values, "slots_after"), [after]);
    assert_eq!(numbers(values, "saved"), [before - after]);
    for (row, mpidr) in rows.iter().zip(mpidrs) {
        assert_eq!(row[8], gathered(mpidr, &positions).to_string());
    }
    before - after
}

#[test]
fn plans_of_the_boards() {
    for (name, count, _) in ACCEPTED {
        let output = run(&["-q", "-p", "--plan", &board(name)]);
        let values = text(&output.stdout);
        assert_eq!(values.lines().count(), count + 3, "{name}");
        check_plan(values);
    }
}

/// Up to 40 different MPIDRs with some of the affinity bits.
fn mpidrs(generator: &mut Generator) -> Vec<u64> {
    let any = generator.below(1 << 40);
    let mask = 0xFF_00FF_FFFF & any & generator.below(1 << 40);
    let count = 1 + generator.below(40);
    let mut found = Vec::new();
    for _ in 0..count {
        let mpidr = generator.below(1 << 40) & mask;
        if !found.contains(&mpidr) {
            found.push(mpidr);
        }
    }
    found
}

#[test]
fn generated_boards() {
    println!("seed {SEED:#x}");
    let mut generator = Generator(SEED);
    let checked = |list: &[u64]| check_plan(&printed(&["-p", "--plan"], &with_mpidrs(list)));
    let mut saving = 0;
    for _ in 0..200 {
        saving += usize::from(checked(&mpidrs(&mut generator)) > 0);
    }
    println!("200 boards, slots saved on {saving}");
    assert!((1..200).contains(&saving));
    let every: Vec<u64> = (0..256).map(|k| k << 12).collect();
    assert_eq!(checked(&every), 0);
}
