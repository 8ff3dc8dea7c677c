// SPDX-License-Identifier: BSD-2-Clause OR GPL-2.0-or-later
//! Files made to be expensive: they are read or refused quickly, and what is kept of them stays below the limit.

use crate::builder::{Builder, BEGIN, CLOSE, END, PROP};
use crate::run::{refusal, run_on_input, text};
use std::time::{Duration, Instant};
use sunderwath::MAX_BLOB;
use sunderwath_cli::{cut, flat};

/// A cpus node with properties whose names begin one byte behind each other in one long string.
fn overlapping(properties: u32, string: usize, padding: usize) -> Vec<u8> {
    let mut board = Builder::rooted().padding(padding);
    let names = board.strings.len() as u32;
    board.strings.extend(vec![b'a'; string]);
    board.strings.push(0);
    board = board.begin("cpus");
    for number in 0..properties {
        board = board.words(&[PROP, 0, names + number]);
    }
    board.close().finish()
}

fn quick<T>(work: impl FnOnce() -> T) -> T {
    let start = Instant::now();
    let done = work();
    assert!(start.elapsed() < Duration::from_secs(5));
    done
}

/// 300 KB; copied one by one, the names would take 600 MB.
#[test]
fn overlapping_names_that_are_too_many() {
    let blob = overlapping(20_000, 60_000, 0);
    assert!((300_000..310_000).contains(&blob.len()));
    let message = quick(|| refusal(&blob));
    // Header and map, the root and cpus begun, the properties, three closing tokens.
    let left = 56 + 8 + 12 + 12 * 20_000 + 12;
    let expected = format!(
        "-: ERROR 31 (blob_header): not a devicetree blob that can be read \
         (blob of {} bytes, limit 65536; {left} or more with only /cpus)\n",
        blob.len()
    );
    assert_eq!(message, expected);
}

/// Names that share bytes still do behind the cut, so that they are not too long for it.
#[test]
fn overlapping_names_that_fit() {
    let blob = overlapping(4000, 4000, 70_000);
    let kept = quick(|| cut::cut(&blob).expect("it fits")).blob.len();
    assert!((52_000..53_000).contains(&kept));
    let output = quick(|| run_on_input(&["-"], &blob));
    assert_eq!(output.status.code(), Some(1));
    let message = text(&output.stderr);
    assert!(message.contains("ERROR 7 (property_range): /cpus: aaaa"));
}

/// One long name is copied once, however often it is used.
#[test]
fn limit_of_what_is_kept() {
    let board = |name: usize| {
        let mut board = Builder::rooted().padding(70_000);
        let at = board.strings.len() as u32;
        board.strings.extend(vec![b'b'; name]);
        board.strings.push(0);
        let cpus = board.begin("cpus");
        let used = cpus.words(&[PROP, 0, at, PROP, 0, at, PROP, 0, at]);
        used.close().finish()
    };
    let rest = MAX_BLOB - cut::cut(&board(0)).expect("it fits").blob.len();
    let most = cut::cut(&board(rest)).expect("it fits").blob;
    assert_eq!(most.len(), MAX_BLOB);
    assert_eq!(flat::read(board(rest)).unwrap().tables.pool, most);
    let fault = flat::read(board(rest + 1)).expect_err("it does not fit");
    assert_eq!(fault.rule.number(), 31);
    let end = "limit 65536; 65537 or more with only /cpus";
    assert!(fault.reason.ends_with(end), "{}", fault.reason);
}

/// As many nodes as a blob can hold: 2, and never 35.
#[test]
fn most_records() {
    let nodes = (MAX_BLOB - 56 - 8 - 12 - 12) / 12;
    let mut flat_board = Builder::rooted().begin("cpus");
    for _ in 0..nodes {
        flat_board = flat_board.begin("").close();
    }
    let blob = flat_board.close().finish();
    assert!((MAX_BLOB - 12..=MAX_BLOB).contains(&blob.len()));
    let message = refusal(&blob);
    let start = "-: ERROR 2 (node_table_size): /cpus: ";
    assert!(message.starts_with(start), "{message}");
    let reading = flat::read(overlapping(5400, 1, 0));
    assert_eq!(reading.expect_err("names run out").rule.number(), 33);
    let properties = [PROP, 0, 0].repeat(5400);
    let board = Builder::rooted().cell("x", 0).begin("cpus");
    let message = refusal(&board.words(&properties).close().finish());
    let start = "-: ERROR 3 (property_table_size): /cpus: ";
    assert!(message.starts_with(start), "{message}");
}

/// Nodes nested a million deep, inside /cpus and outside.
#[test]
fn deep_nesting() {
    let nested = |board: Builder, depth: usize| {
        let opened = board.words(&[BEGIN, 0].repeat(depth));
        opened.words(&[CLOSE].repeat(depth))
    };
    let outside = nested(Builder::rooted(), 1_000_000).cpus().finish();
    let output = quick(|| run_on_input(&["-"], &outside));
    assert_eq!(output.status.code(), Some(0));
    let inside = nested(Builder::rooted().begin("cpus"), 1_000_000).close();
    assert!(quick(|| refusal(&inside.finish())).contains("ERROR 31 "));
    let open = Builder::rooted().words(&[BEGIN, 0].repeat(1_000_000));
    let place = open.offset();
    let message = quick(|| refusal(&open.clone().words(&[END]).blob()));
    assert!(message.contains(&format!(
        "ERROR 33 (blob_structure): at offset {place:#x}: "
    )));
}
