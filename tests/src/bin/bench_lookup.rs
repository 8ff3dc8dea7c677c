// SPDX-License-Identifier: BSD-2-Clause OR GPL-2.0-or-later
//! Time of a lookup among 4,000 properties, and of boards that have as many: the
//! library and the fast version.

use sunderwath_tests::answer::ANSWER_WORDS;
use sunderwath_tests::build::shapes::{fill_up, regular_board};
use sunderwath_tests::build::{Board, Node, FULL_ROOM};
use sunderwath_tests::timing::{best_in_turns, black_box};
use sunderwath_tests::{fast, ffi};

const ROUNDS: usize = 25;
const PROPS: usize = 4000;
const LAST: u32 = PROPS as u32 - 1;
const NONE: u32 = u32::MAX;

/// A node, a name and the record that is found.
type Lookup<'a> = (u32, &'a str, u32);

/// All properties on one node. The names are of one length and begin alike.
fn crowded() -> Board {
    let mut root = Node::new("cpus");
    let property = |at| (format!("p{at:04}").into_bytes(), Vec::new());
    root.props = (0..PROPS).map(property).collect();
    Board::of(64, &root)
}

/// 1,000 nodes with four properties each.
fn spread() -> Board {
    let mut root = Node::new("cpus");
    fill_up(&mut root, PROPS / 4, 0);
    for record in 0..PROPS / 4 {
        for name in ["reg", "phandle", "device_type", "compatible"] {
            root.at(record).set(name, [0; 4]);
        }
    }
    Board::of(64, &root)
}

/// Nanoseconds of a lookup: library, fast.
fn lookup(board: &Board, (node, name, record): Lookup, calls: usize) -> Vec<f64> {
    type Find = fn(&[u32], &[u8], u32, &[u8]) -> u32;
    let find = |find: Find| {
        let (props, pool) = (black_box(&board.props), black_box(&board.pool));
        find(props, pool, black_box(node), black_box(name.as_bytes()))
    };
    let (mut ours, mut other) = (0, 0);
    let mut library = || ours = find(ffi::find_property);
    let mut peer = || other = find(fast::find_property);
    let times = best_in_turns(ROUNDS, calls, &mut [&mut library, &mut peer]);
    assert_eq!([ours, other], [record; 2], "the record that is found");
    times
}

fn print(what: &str, unit: f64, times: &[f64]) {
    let [ours, peer] = [times[0] / unit, times[1] / unit];
    println!("{what:<34} {ours:>12.2} {peer:>12.2} {:>8.2}", ours / peer);
}

/// Lookups of the first record, of the last one and of a name that is missing.
fn lookups(what: &str, board: &Board, [first, last, missing]: [Lookup; 3]) {
    assert_eq!(board.prop_count(), PROPS);
    println!("{what}");
    let near = lookup(board, first, 100_000);
    let far = lookup(board, last, 100);
    print("  match in record 0", 1.0, &near);
    print("  match in record 3,999", 1.0, &far);
    print("  no match", 1.0, &lookup(board, missing, 100));
    let [ours, peer] = [far[0] / near[0], far[1] / near[1]];
    println!("  record 3,999 to record 0, aim: at least 10; here {ours:.0} (fast {peer:.0})");
}

/// Nanoseconds of a whole board: library, fast.
fn whole(board: &Board, calls: usize) -> Vec<f64> {
    let Board {
        width,
        nodes,
        props,
        pool,
        ..
    } = black_box(board);
    let [mut rows, mut other_rows] = [(); 2].map(|()| vec![0; FULL_ROOM]);
    let [mut answer, mut other] = [[0; ANSWER_WORDS]; 2];
    let mut library = || {
        ffi::read_tables_into(*width, nodes, props, pool, &mut rows, &mut answer);
    };
    let mut peer = || {
        other = fast::read_tables(*width, nodes, props, pool, &mut other_rows).words();
    };
    let times = best_in_turns(ROUNDS, calls, &mut [&mut library, &mut peer]);
    assert_eq!(answer[0], 0, "the board is accepted");
    assert_eq!((answer, rows), (other, other_rows), "the fast version");
    times
}

/// An ordinary board filled up to 4,000 properties: on record 0 alone, or on
/// other nodes of which there are so many that the board has 1,000.
fn boards(cpus: usize, calls: usize) {
    for (what, nodes) in [("record 0", 0), ("many nodes", 1000)] {
        let mut root = regular_board(cpus);
        fill_up(&mut root, nodes, PROPS);
        let board = Board::of(64, &root);
        assert_eq!(board.prop_count(), PROPS);
        let what = format!("{cpus} cpus, filled up on {what}");
        print(&what, 1000.0, &whole(&board, calls));
    }
}

/// The lookups that reading a board comes to, if each were a search.
fn searches(cpus: usize) {
    let board = Board::of(64, &regular_board(cpus));
    let has = |&(record, name): &(usize, &str)| board.property(record, name).is_some();
    let keys = ["device_type", "reg", "phandle", "cpu"];
    let all = (0..board.node_count()).flat_map(|record| keys.map(|name| (record, name)));
    let asked: Vec<(usize, &str)> = all.filter(has).collect();
    let mut search = || {
        for &(record, name) in black_box(&asked) {
            let found =
                ffi::find_property(&board.props, &board.pool, record as u32, name.as_bytes());
            black_box(found);
        }
    };
    let ours = best_in_turns(ROUNDS, 10, &mut [&mut search])[0] / 1000.0;
    let reading = whole(&board, 10)[0] / 1000.0;
    let ratio = ours / reading;
    let what = format!("{cpus} cpus, {} lookups", asked.len());
    println!("{what:<34} {ours:>12.2} {reading:>12.2} {ratio:>8.2}");
}

fn head(what: &str) {
    let [a, b, c] = ["library", "fast", "ratio"];
    println!("{what:<34} {a:>12} {b:>12} {c:>8}");
}

fn main() {
    println!("best of {ROUNDS} in turns; ratio: the first time to the second");
    head("lookup, nanoseconds");
    let one = [(0, "p0000", 0), (0, "p3999", LAST), (0, "p4000", NONE)];
    lookups("4,000 properties on one node", &crowded(), one);
    let many = [(0, "reg", 0), (999, "compatible", LAST), (999, "cpu", NONE)];
    lookups("1,000 nodes, four properties each", &spread(), many);
    head("board of 4,000, microseconds");
    boards(16, 10);
    boards(256, 3);
    let [a, b, c] = ["each searched", "whole board", "ratio"];
    println!("{:<34} {a:>12} {b:>12} {c:>8}", "microseconds");
    for cpus in [16, 64, 256] {
        searches(cpus);
    }
}
