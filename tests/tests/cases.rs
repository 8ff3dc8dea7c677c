// SPDX-License-Identifier: BSD-2-Clause OR GPL-2.0-or-later
//! The files of the program `cases` hold what is built here.

use std::fs;
use sunderwath_tests::build::cases::boards;
use sunderwath_tests::build::Board;
use sunderwath_tests::cases;

fn file(name: &str) -> Vec<u8> {
    let path = format!("{}/../crates/cases/{name}", env!("CARGO_MANIFEST_DIR"));
    fs::read(&path).unwrap_or_else(|error| panic!("{path}: {error}"))
}

#[test]
fn input_is_current() {
    assert!(
        file("stdin") == cases::files().input,
        "run make_cases again"
    );
}

#[test]
fn output_is_that_of_the_second_reader() {
    assert!(file("stdout") == cases::files().output.as_bytes());
}

/// Words and bytes of the boards at a limit and beyond it, and what is told.
#[test]
fn limits() {
    let output = cases::files().output;
    let expect = |label: &str, size: fn(&Board) -> usize, count, told: &str| {
        let found = boards().into_iter().find(|(other, _)| other == label);
        assert_eq!(size(&found.expect(label).1), count, "{label}");
        assert!(output.contains(&format!("\n{label}: {told}, ")), "{label}");
    };
    let accepted = "number 0, place 0";
    expect("1,024 records", Board::node_count, 1024, accepted);
    expect(
        "1,025 records",
        Board::node_count,
        1025,
        "number 2, place 0",
    );
    expect("4,096 properties", Board::prop_count, 4096, accepted);
    expect(
        "4,097 properties",
        Board::prop_count,
        4097,
        "number 3, place 0",
    );
    expect("65,536 bytes", |board| board.pool.len(), 65536, accepted);
    expect(
        "65,537 bytes",
        |board| board.pool.len(),
        65537,
        "number 4, place 0",
    );
}
