// SPDX-License-Identifier: BSD-2-Clause OR GPL-2.0-or-later
//! Time of a whole board without and with the table from slots to rows, and of
//! the question that the table answers: the row of a slot.

use sunderwath::layout::{ROW_SLOT, ROW_WORDS};
use sunderwath_tests::answer::ANSWER_WORDS;
use sunderwath_tests::build::shapes::regular_board;
use sunderwath_tests::build::slots::mpidrs_with_bits;
use sunderwath_tests::build::worked::cores;
use sunderwath_tests::build::{Board, FULL_ROOM};
use sunderwath_tests::ffi;
use sunderwath_tests::rng::Rng;
use sunderwath_tests::timing::{best_in_turns, black_box};

const ROUNDS: usize = 25;

/// Entries that are enough for every accepted board.
const FULL_TABLE: usize = 4096;

/// The MPIDRs that are spread over a given number of bits.
const SEED: u64 = 0xBE7C;

/// A board with its name and how often it is read in a round.
struct Case {
    name: String,
    board: Board,
    calls: usize,
}

/// Rows of an accepted board, and the table up to its last slot.
struct Filled {
    rows: Vec<u32>,
    table: Vec<u32>,
}

/// Nanoseconds of reading a board without and with the table.
fn reading(case: &Case) -> (Vec<f64>, Filled) {
    let Board {
        width,
        nodes,
        props,
        pool,
        ..
    } = black_box(&case.board);
    let [mut rows, mut plain_rows] = [(); 2].map(|()| vec![0; FULL_ROOM]);
    let mut table = vec![0; FULL_TABLE];
    let [mut answer, mut plain_answer] = [[0; ANSWER_WORDS]; 2];
    let mut without = || {
        ffi::read_tables_into(
            *width,
            nodes,
            props,
            pool,
            &mut plain_rows,
            &mut plain_answer,
        );
    };
    let mut with = || {
        ffi::read_tables_slots_into(
            *width,
            nodes,
            props,
            pool,
            &mut rows,
            &mut table,
            &mut answer,
        );
    };
    let times = best_in_turns(ROUNDS, case.calls, &mut [&mut without, &mut with]);
    assert_eq!(answer[0], 0, "the board is accepted");
    assert_eq!((answer, &rows), (plain_answer, &plain_rows), "both calls");
    rows.truncate(ROW_WORDS * answer[2] as usize);
    table.truncate(1 << answer[9]);
    (times, Filled { rows, table })
}

fn by_table(filled: &Filled, slot: u32) -> Option<u32> {
    filled.table.get(slot as usize).copied()
}

fn by_search(filled: &Filled, slot: u32) -> Option<u32> {
    let mut rows = filled.rows.chunks_exact(ROW_WORDS);
    rows.position(|row| row[ROW_SLOT] == slot)
        .map(|row| row as u32)
}

/// Nanoseconds of the row of a slot, by the table and by a search over the rows;
/// the mean over the slots of all rows.
fn questions(filled: &Filled) -> [f64; 2] {
    let slots: Vec<u32> = filled
        .rows
        .chunks_exact(ROW_WORDS)
        .map(|row| row[ROW_SLOT])
        .collect();
    let ask = |find: fn(&Filled, u32) -> Option<u32>| {
        for (row, &slot) in black_box(&slots).iter().enumerate() {
            let found = black_box(find(black_box(filled), black_box(slot)));
            assert_eq!(found, Some(row as u32));
        }
    };
    let mut table = || ask(by_table);
    let mut search = || ask(by_search);
    let calls = 20_000 / slots.len();
    let times = best_in_turns(ROUNDS, calls, &mut [&mut table, &mut search]);
    [times[0], times[1]].map(|time| time / slots.len() as f64)
}

fn print(name: &str, [first, second]: [f64; 2]) {
    let ratio = second / first;
    println!("{name:<34} {first:>12.2} {second:>12.2} {ratio:>8.3}");
}

fn head(what: &str, first: &str, second: &str) {
    let ratio = "ratio";
    println!("{what:<34} {first:>12} {second:>12} {ratio:>8}");
}

/// Boards in clusters of four cores, and 256 cpus over as many bits as a table
/// may have.
fn cases() -> Vec<Case> {
    let regular = |(cpus, calls)| Case {
        name: format!("{cpus} cpus"),
        board: Board::of(64, &regular_board(cpus)),
        calls,
    };
    let sizes = [(4, 2000), (16, 500), (64, 50), (256, 5)];
    let mut cases: Vec<Case> = sizes.into_iter().map(regular).collect();
    let mpidrs = mpidrs_with_bits(&mut Rng::new(SEED), 12, 256, 2);
    cases.push(Case {
        name: "256 cpus, 12 bits".to_string(),
        board: Board::of(64, &cores(&mpidrs)),
        calls: 5,
    });
    cases
}

fn main() {
    println!("best of {ROUNDS} in turns; ratio: the second time to the first");
    head("board, microseconds", "read_tables", "with slots");
    let mut all = Vec::new();
    for case in cases() {
        let (times, filled) = reading(&case);
        print(&case.name, [times[0], times[1]].map(|time| time / 1000.0));
        all.push((case.name, filled));
    }
    head("row of a slot, nanoseconds", "table", "search");
    for (name, filled) in &all {
        let entries = filled.table.len();
        print(&format!("{name}, {entries} entries"), questions(filled));
    }
}
