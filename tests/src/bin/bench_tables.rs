// SPDX-License-Identifier: BSD-2-Clause OR GPL-2.0-or-later
//! Time of rules 1 to 8: the library and the fast version.

use sunderwath_tests::answer::ANSWER_WORDS;
use sunderwath_tests::build::shapes::{fill_up, regular_board};
use sunderwath_tests::build::{Board, Node};
use sunderwath_tests::timing::{best_ns, black_box};
use sunderwath_tests::{fast, ffi};

/// 1,024 nodes with four properties each.
fn spread() -> Board {
    let mut root = Node::new("cpus");
    fill_up(&mut root, 1024, 0);
    for node in std::iter::once(0).chain(1..1024) {
        for name in ["reg", "phandle", "device_type", "compatible"] {
            root.at(node).set(name, [0; 4]);
        }
    }
    Board::of(64, &root)
}

/// 1,024 nodes, with all 4,096 properties on one of them.
fn crowded() -> Board {
    let mut root = Node::new("cpus");
    fill_up(&mut root, 1024, 0);
    root.props = (0..4096)
        .map(|at| (format!("p{at}").into_bytes(), Vec::new()))
        .collect();
    Board::of(64, &root)
}

fn measure(name: &str, board: &Board, calls: usize) {
    let mut answer = [0; ANSWER_WORDS];
    let (nodes, props, pool) = (&board.nodes[..], &board.props[..], &board.pool[..]);
    let ours = best_ns(7, calls, || {
        ffi::check_tables_into(
            board.width,
            black_box(nodes),
            black_box(props),
            black_box(pool),
            black_box(&mut answer),
        );
    });
    assert_eq!(answer[0], 0, "the board is sound");
    let peer = best_ns(7, calls, || {
        let checked = fast::check_tables(
            board.width,
            black_box(nodes),
            black_box(props),
            black_box(pool),
        );
        black_box(&mut answer).copy_from_slice(&checked.words());
    });
    println!(
        "{name:<34} {:>12.2} {:>12.2} {:>8.2}",
        ours / 1000.0,
        peer / 1000.0,
        ours / peer
    );
}

fn main() {
    println!("rules 1 to 8, microseconds, best of 7");
    println!(
        "{:<34} {:>12} {:>12} {:>8}",
        "board", "library", "fast", "ratio"
    );
    measure("16 cpus", &Board::of(64, &regular_board(16)), 2000);
    measure("1,024 nodes, four properties each", &spread(), 20);
    measure("1,024 nodes, 4,096 properties on one", &crowded(), 5);
}
