// SPDX-License-Identifier: BSD-2-Clause OR GPL-2.0-or-later
//! Time of a whole board: the library, the fast version and, with the feature
//! `fdt`, a reader over libfdt that starts from a blob and knows ARM boards only.
//! Then the blob call, beside peers that start from a blob as well.

use sunderwath_tests::answer::ANSWER_WORDS;
use sunderwath_tests::build::order::reverse_siblings;
use sunderwath_tests::build::shapes::{fill_up, regular_board, regular_board_of};
use sunderwath_tests::build::{Board, Node, FULL_ROOM};
use sunderwath_tests::timing::{best_ns, black_box};
use sunderwath_tests::width::{ARM64, RISCV};
use sunderwath_tests::{fast, ffi};

mod blob_call;

#[cfg(feature = "fdt")]
mod fdt {
    use super::*;
    use sunderwath_tests::build::blob;
    use sunderwath_tests::fdt::read;

    /// Time of the reader over libfdt, checked against the expected rows.
    pub fn measure(root: &Node, calls: usize, by_libfdt: bool, expected: &[u32]) -> Option<f64> {
        let blob = blob::write(root);
        let mut rows = vec![0; FULL_ROOM];
        let mut answer = [0; ANSWER_WORDS];
        let mut read_all = true;
        let time = best_ns(7, calls, || {
            read_all &= read(black_box(&blob), by_libfdt, &mut rows, &mut answer);
        });
        assert!(read_all, "the reader over libfdt reads the board");
        assert_eq!(rows, expected, "rows of the reader over libfdt");
        Some(time)
    }
}

#[cfg(not(feature = "fdt"))]
mod fdt {
    use super::Node;

    pub fn measure(_: &Node, _: usize, _: bool, _: &[u32]) -> Option<f64> {
        None
    }
}

/// Time of the library, with the rows that it writes.
fn measure_library(board: &Board, calls: usize) -> (f64, Vec<u32>) {
    let mut rows = vec![0; FULL_ROOM];
    let mut answer = [0; ANSWER_WORDS];
    let time = best_ns(7, calls, || {
        ffi::read_tables_into(
            board.width,
            black_box(&board.nodes),
            black_box(&board.props),
            black_box(&board.pool),
            &mut rows,
            black_box(&mut answer),
        );
    });
    assert_eq!(answer[0], 0, "the board is accepted");
    (time, rows)
}

fn measure_fast(board: &Board, calls: usize, expected: &[u32]) -> f64 {
    let mut rows = vec![0; FULL_ROOM];
    let time = best_ns(7, calls, || {
        black_box(fast::read_tables(
            board.width,
            black_box(&board.nodes),
            black_box(&board.props),
            black_box(&board.pool),
            &mut rows,
        ));
    });
    assert_eq!(rows, expected, "rows of the fast version");
    time
}

/// Microseconds, and how many times as long the library takes.
fn column(ours: f64, peer: Option<f64>) -> String {
    match peer {
        Some(peer) => format!("{:>12.2} {:>8.2}", peer / 1000.0, ours / peer),
        None => format!("{:>12} {:>8}", "-", "-"),
    }
}

fn measure(name: &str, width: u32, root: &Node, calls: usize) {
    let board = Board::of(width, root);
    let (ours, rows) = measure_library(&board, calls);
    let peer = measure_fast(&board, calls, &rows);
    let libfdt = |by_search| match width {
        RISCV => None,
        _ => fdt::measure(root, calls, by_search, &rows),
    };
    let (table, by_phandle) = (libfdt(false), libfdt(true));
    println!(
        "{name:<22} {:>12.2} {} {} {}",
        ours / 1000.0,
        column(ours, Some(peer)),
        column(ours, table),
        column(ours, by_phandle)
    );
}

fn main() {
    println!("whole board, microseconds, best of 7; each ratio is library / peer");
    println!("libfdt: from a blob, few checks, own table of phandles or libfdt's search");
    println!(
        "{:<22} {:>12} {:>12} {:>8} {:>12} {:>8} {:>12} {:>8}",
        "board", "library", "fast", "ratio", "libfdt", "ratio", "by search", "ratio"
    );
    for (cpus, calls) in [(4, 2000), (16, 500), (64, 50), (256, 5)] {
        measure(&format!("{cpus} cpus"), ARM64, &regular_board(cpus), calls);
    }
    for (harts, calls) in [(16, 500), (256, 5)] {
        let root = regular_board_of(RISCV, harts);
        measure(&format!("{harts} harts, RISC-V"), RISCV, &root, calls);
    }
    let mut falling = regular_board(256);
    reverse_siblings(&mut falling.children[0]);
    measure("256 cpus, falling", ARM64, &falling, 5);
    let mut worst = regular_board(256);
    fill_up(&mut worst, 1024, 4096);
    measure("256 cpus, full tables", ARM64, &worst, 2);
    blob_call::run();
}
