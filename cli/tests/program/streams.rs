// SPDX-License-Identifier: BSD-2-Clause OR GPL-2.0-or-later
//! Every reason of 33, with its place. The same streams are refused at the same place in a short blob and in a long one.

use crate::builder::{Builder, BEGIN, CLOSE, END, NOP, PROP};
use crate::run::refusal;
use sunderwath_cli::flat;

/// Streams that break, as what comes behind a whole or a begun board, with the offset of the breaking token from there.
type Case = (fn(Builder) -> Builder, usize, &'static str);

/// Inside the open root.
const IN_ROOT: [Case; 13] = [
    (
        |b| b.begin("x").close().cell("a", 0),
        12,
        "FDT_PROP after a child node",
    ),
    (|b| b.words(&[NOP, END]), 4, "FDT_END inside an open node"),
    (|b| b.words(&[5]), 0, "unknown token 0x00000005"),
    (|b| b.words(&[0xD00D_FEED]), 0, "unknown token 0xd00dfeed"),
    (
        |b| b.words(&[BEGIN, 0x6162_6364]),
        0,
        "name of FDT_BEGIN_NODE without a zero byte in the block",
    ),
    (
        |b| b.words(&[BEGIN]),
        0,
        "name of FDT_BEGIN_NODE without a zero byte in the block",
    ),
    (|b| b.words(&[PROP, 0]), 0, "FDT_PROP leaves the block"),
    (
        |b| b.words(&[PROP, 5, 0, 0]),
        0,
        "FDT_PROP with 5 bytes leaves the block",
    ),
    (
        |b| b.words(&[PROP, u32::MAX, 0]),
        0,
        "FDT_PROP with 4294967295 bytes leaves the block",
    ),
    (|b| b, 0, "the block ends without FDT_END"),
    (|b| b.words(&[NOP]), 4, "the block ends without FDT_END"),
    (
        |b| b.begin("x").cell("a", 0),
        24,
        "the block ends without FDT_END",
    ),
    (
        |b| b.words(&[PROP, 0, 4_000_000]).words(&[CLOSE, END]),
        0,
        "FDT_PROP with a name at 0x3d0900, outside the strings block",
    ),
];

/// Behind the root.
const BEHIND_ROOT: [Case; 8] = [
    (
        |b| b.begin("").close().words(&[END]),
        0,
        "FDT_BEGIN_NODE of a second root",
    ),
    (
        |b| b.words(&[CLOSE, END]),
        0,
        "FDT_END_NODE outside any node",
    ),
    (
        |b| b.cell("a", 0).words(&[END]),
        0,
        "FDT_PROP outside any node",
    ),
    (|b| b.words(&[END, NOP]), 4, "data behind FDT_END"),
    (|b| b.words(&[END, END]), 4, "data behind FDT_END"),
    (|b| b.words(&[NOP, END, 0]), 8, "data behind FDT_END"),
    (|b| b, 0, "the block ends without FDT_END"),
    (|b| b.words(&[0]), 0, "unknown token 0x00000000"),
];

/// Before any root.
const BEFORE_ROOT: [Case; 4] = [
    (|b| b, 0, "the block ends without FDT_END"),
    (|b| b.words(&[NOP, END]), 4, "FDT_END before the root"),
    (|b| b.words(&[CLOSE]), 0, "FDT_END_NODE outside any node"),
    (|b| b.cell("a", 0), 0, "FDT_PROP outside any node"),
];

fn check(before: &Builder, cases: &[Case]) {
    for (break_it, from, reason) in cases {
        let place = before.offset() + from;
        let fault = flat::read(break_it(before.clone()).blob()).expect_err(reason);
        let told = (
            fault.rule.number(),
            fault.place as usize,
            fault.reason.as_str(),
        );
        assert_eq!(told, (33, place, *reason));
    }
}

#[test]
fn short_blobs() {
    check(&Builder::default(), &BEFORE_ROOT);
    check(&Builder::rooted().cpus(), &IN_ROOT);
    check(&Builder::rooted().cell("x", 1).begin("cpus"), &IN_ROOT);
    check(&Builder::rooted().cpus().close(), &BEHIND_ROOT);
}

/// Places count from the start of the file, not of what is kept of it.
#[test]
fn long_blobs() {
    let padded = Builder::rooted().padding(70_000);
    check(&padded, &IN_ROOT);
    check(&padded.clone().begin("soc").begin("uart"), &IN_ROOT);
    check(&padded.clone().cpus(), &IN_ROOT);
    check(&padded.clone().begin("cpus"), &IN_ROOT);
    check(&padded.clone().begin("cpus").begin("cpu@0"), &IN_ROOT);
    check(&padded.cpus().close(), &BEHIND_ROOT);
}

/// Behind the last zero byte of the strings block no name can begin.
#[test]
fn names_without_a_zero_byte() {
    let reasons = [
        (1, "without a zero byte in the strings block"),
        (3, "without a zero byte in the strings block"),
        (4, "outside the strings block"),
    ];
    for (padding, (behind, reason)) in [0, 70_000]
        .into_iter()
        .flat_map(|p| reasons.map(|r| (p, r)))
    {
        let mut board = Builder::rooted().padding(padding).cpus();
        let place = board.offset();
        let name = board.strings.len() as u32 + behind;
        board.strings.extend(b"\0abc");
        let blob = board.words(&[PROP, 0, name, CLOSE, END]).blob();
        let fault = flat::read(blob).expect_err("the name has no end");
        assert_eq!((fault.rule.number(), fault.place as usize), (33, place));
        assert!(fault.reason.ends_with(reason), "{}", fault.reason);
    }
}

#[test]
fn message() {
    let board = Builder::rooted().cpus();
    let place = board.offset();
    let message = refusal(&board.cell("late", 0).finish());
    let expected = format!(
        "-: ERROR 33 (blob_structure): at offset {place:#x}: \
         the token stream breaks the specification's structure (FDT_PROP after a child node)\n"
    );
    assert_eq!(message, expected);
}
