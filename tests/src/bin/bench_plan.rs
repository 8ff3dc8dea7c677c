// SPDX-License-Identifier: BSD-2-Clause OR GPL-2.0-or-later
//! Time of the calls on plans: the library, the fast version, which compares
//! pairs as well, and one that sorts.

use sunderwath_tests::build::plans::AFFINITY;
use sunderwath_tests::fast::{self, by_pairs, by_sorting, TellsApart};
use sunderwath_tests::ffi;
use sunderwath_tests::rng::Rng;
use sunderwath_tests::timing::{best_in_turns, black_box};

const ROUNDS: usize = 15;
const SEED: u64 = 0xBE7C;

/// A list, and the library's plan for it.
struct Case {
    name: &'static str,
    list: Vec<u64>,
    plan: Vec<u32>,
}

/// Nanoseconds of a call: the library, by pairs, by sorting. All answer alike.
fn times<const WORDS: usize>(
    calls: usize,
    library: impl Fn(&mut [u32]) -> u32,
    fast: impl Fn(TellsApart) -> [u32; WORDS],
) -> Vec<f64> {
    let mut answers = [[0; WORDS]; 3];
    let [ours, pairs, sorting] = &mut answers;
    let mut library = || {
        library(black_box(ours));
    };
    let mut by_pairs = || *pairs = fast(by_pairs);
    let mut by_sorting = || *sorting = fast(by_sorting);
    let jobs: [&mut dyn FnMut(); 3] = [&mut library, &mut by_pairs, &mut by_sorting];
    let times = best_in_turns(ROUNDS, calls, &mut { jobs });
    assert_eq!(answers, [answers[0]; 3]);
    times
}

impl Case {
    fn new(name: &'static str, list: Vec<u64>) -> Case {
        let plan = ffi::plan_make(&list).expect("a sound list");
        Case { name, list, plan }
    }

    /// So that a round takes about the same time for each list.
    fn calls(&self) -> usize {
        2_000_000 / self.list.len().pow(2)
    }

    fn check(&self) -> Vec<f64> {
        let (list, plan) = (|| black_box(&self.list[..]), &self.plan[..]);
        times(
            self.calls(),
            |answer| ffi::plan_check_into(list(), plan, answer),
            |way| {
                let told = fast::plan_check(list(), plan, way);
                [told.number, told.place]
            },
        )
    }

    /// Of the last MPIDR.
    fn slot(&self) -> Vec<f64> {
        let (list, plan) = (|| black_box(&self.list[..]), &self.plan[..]);
        let mpidr = self.list[self.list.len() - 1];
        times(
            self.calls(),
            |answer| ffi::plan_slot_into(mpidr, list(), plan, answer),
            |way| {
                let told = fast::plan_slot(mpidr, list(), plan, way);
                [told.number, told.place, told.found]
            },
        )
    }

    fn make(&self) -> Vec<f64> {
        let list = || black_box(&self.list[..]);
        times(
            self.calls() / 8,
            |answer| ffi::plan_make_into(list(), answer),
            |way| fast::plan_make(list(), way),
        )
    }

    fn print(&self, call: &str, times: &[f64]) {
        let [ours, pairs, sorting] = [0, 1, 2].map(|at| times[at] / 1000.0);
        let (to_pairs, to_sorting) = (ours / pairs, ours / sorting);
        print!("{:<20}{:>9}  {call:<8}", self.name, self.plan.len());
        println!("{ours:>9.2}{pairs:>9.2}{to_pairs:>7.2}{sorting:>9.2}{to_sorting:>7.2}");
    }
}

/// 16 as boards have them, and 256: dense, over all bits, and 255 equal ones
/// with one of all bits, so that our planner compares all pairs 31 times.
fn cases() -> [Case; 4] {
    let mut rng = Rng::new(SEED);
    let clusters = (0..16).map(|at| at / 4 << 8 | at % 4);
    let all_bits = (0..256).map(|_| rng.wide() & AFFINITY);
    let one_unlike = (0..256).map(|at| if at < 255 { 0 } else { AFFINITY });
    [
        Case::new("16, four clusters", clusters.collect()),
        Case::new("256, dense", (0..256).collect()),
        Case::new("256, all bits", all_bits.collect()),
        Case::new("256, one unlike", one_unlike.collect()),
    ]
}

fn main() {
    println!("plans, microseconds, best of {ROUNDS} in turns, seed {SEED:#x}");
    println!("each ratio is library / peer");
    let (a, b, c) = ("list", "positions", "call");
    print!("{a:<20}{b:>9}  {c:<8}");
    let (a, b, c, d) = ("library", "pairs", "ratio", "sorting");
    println!("{a:>9}{b:>9}{c:>7}{d:>9}{c:>7}");
    for case in cases() {
        case.print("check", &case.check());
        case.print("slot", &case.slot());
        case.print("make", &case.make());
    }
}
