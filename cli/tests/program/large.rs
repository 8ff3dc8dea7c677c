// SPDX-License-Identifier: BSD-2-Clause OR GPL-2.0-or-later
//! Blobs over 65,536 bytes, of which only /cpus is read.

use crate::builder::{patched, small, Builder, CLOSE, END, NOP};
use crate::run::{compiled, decompiled, refusal, run, run_on_input, text};
use std::fs;
use std::path::Path;
use sunderwath::MAX_BLOB;
use sunderwath_cli::cut;

const MUCH: usize = 100_000;

fn note(file: &str, length: usize) -> String {
    format!("{file}: note: blob of {length} bytes: only /cpus was read\n")
}

/// Long boards with /cpus at the front, in the middle and at the end.
fn long_boards() -> [Vec<u8>; 4] {
    let property = Builder::rooted().prop("filler", &[1; MUCH]).cell("a", 2);
    let many = |mut board: Builder| {
        for number in 0..4000 {
            let name = format!("uart@{number}");
            board = board.begin(&name).cell("reg", number).words(&[NOP]).close();
        }
        board
    };
    [
        Builder::rooted().cpus().padding(MUCH).finish(),
        property.cpus().finish(),
        Builder::rooted().padding(MUCH).cpus().padding(9).finish(),
        many(many(Builder::rooted()).cpus()).finish(),
    ]
}

#[test]
fn same_rows() {
    let plain = run_on_input(&["-t", "-"], &small());
    assert_eq!(plain.status.code(), Some(0));
    for blob in long_boards() {
        let output = run_on_input(&["-t", "-"], &blob);
        assert_eq!(text(&output.stderr), note("-", blob.len()));
        assert_eq!(text(&output.stdout), text(&plain.stdout));
        assert_eq!(output.status.code(), Some(0));
        let quiet = run_on_input(&["-q", "-t", "-"], &blob);
        assert_eq!(text(&quiet.stderr), "");
        assert_eq!(quiet.stdout, plain.stdout);
    }
}

/// The note names the file, and bytes behind the total size do not count.
#[test]
fn files() {
    let blob = Builder::rooted().padding(MUCH).cpus().finish();
    let file = Path::new(env!("CARGO_TARGET_TMPDIR")).join("large.dtb");
    fs::write(&file, [&blob[..], &[7; 1000]].concat()).expect("the file can be written");
    let name = file.to_str().expect("the path is text");
    let output = run(&[name]);
    assert_eq!(text(&output.stderr), note(name, blob.len()));
    assert_eq!(output.stdout, run_on_input(&["-"], &small()).stdout);
}

/// A total size that is itself padded, as that of QEMU's blobs of 1 MiB.
#[test]
fn padded_total_size() {
    let plain = compiled("two-sockets");
    let mut blob = patched(&plain, 4, 1 << 20);
    blob.resize(1 << 20, 0);
    let output = run_on_input(&["-"], &blob);
    assert_eq!(text(&output.stderr), note("-", 1 << 20));
    assert_eq!(output.stdout, run_on_input(&["-"], &plain).stdout);
}

/// A board that is refused by a rule of the topology still has its note.
#[test]
fn note_and_refusal() {
    let board = Builder::rooted().padding(MUCH).begin("cpus").close();
    let blob = board.finish();
    let message = refusal(&blob);
    let expected = note("-", blob.len()) + "-: ERROR 36 (cpus_address_cells): /cpus: ";
    assert!(message.starts_with(&expected), "{message}");
    assert_eq!(message.lines().count(), 2);
}

/// A blob of 65,536 bytes is read as it is, and one byte more makes it a long one.
#[test]
fn limit_of_a_short_blob() {
    let board = |padding| Builder::rooted().padding(padding).cpus().finish();
    let rest = MAX_BLOB - board(0).len();
    let mut blob = board(rest / 4 * 4);
    blob.resize(MAX_BLOB, 0);
    let blob = patched(&blob, 4, MAX_BLOB as u32);
    let output = run_on_input(&["-"], &blob);
    assert_eq!(output.status.code(), Some(0));
    assert_eq!(text(&output.stderr), "");
    let longer = [&patched(&blob, 4, MAX_BLOB as u32 + 1)[..], &[0]].concat();
    let long = run_on_input(&["-"], &longer);
    assert_eq!(text(&long.stderr), note("-", longer.len()));
    assert_eq!(long.stdout, output.stdout);
}

/// Whatever is wrong with a long blob is told by the number that a short one would have.
#[test]
fn refusals() {
    let begins = |blob: &[u8], start: &str| {
        let message = refusal(blob);
        assert!(message.starts_with(start), "{message}");
        assert_eq!(message.lines().count(), 1);
    };
    let padded = Builder::rooted().padding(MUCH);
    let two = padded.clone().cpus().begin("x").close().cpus().finish();
    begins(&two, "-: ERROR 34 (blob_cpus): /: ");
    assert!(refusal(&two).ends_with(" (it has 2)\n"));
    let none = padded.clone().begin("cpu").close().finish();
    begins(&none, "-: ERROR 34 (blob_cpus): /: ");
    assert!(refusal(&none).ends_with(" (it has 0)\n"));
    let sound = padded.cpus().finish();
    let version = patched(&sound, 20, 16);
    begins(&version, "-: ERROR 31 (blob_header): ");
    assert!(refusal(&version).ends_with(" (version 16, needs 17)\n"));
    begins(&patched(&sound, 24, 18), "-: ERROR 31 (blob_header): ");
    begins(&sound[..MUCH], "-: ERROR 31 (blob_header): ");
    begins(&patched(&sound, 32, 0x20000), "-: ERROR 32 (blob_blocks): ");
    begins(&patched(&sound, 36, 6), "-: ERROR 32 (blob_blocks): ");
}

/// Nothing is lost or changed on the way: dtc reads the cut blob, and each of its words comes from the long one.
#[test]
fn cut_blobs() {
    for blob in long_boards() {
        let cut = cut::cut(&blob).expect("the board is sound");
        assert!(cut.blob.len() <= small().len());
        let source = decompiled(&cut.blob);
        assert!(source.status.success());
        assert_eq!(source.stdout, decompiled(&small()).stdout);
        let end = 56 + u32::from_be_bytes(cut.blob[36..40].try_into().unwrap()) as usize;
        let word = |bytes: &[u8], at: usize| bytes[at..at + 4].to_vec();
        for at in (56..end).step_by(4) {
            let name = at >= 8 && word(&cut.blob, at - 8) == 3_u32.to_be_bytes();
            let same = word(&cut.blob, at) == word(&blob, cut.original(at));
            assert!(name || same, "offset {at:#x}");
        }
        let structure = 56 + u32::from_be_bytes(blob[36..40].try_into().unwrap()) as usize;
        assert_eq!(cut.original(end), structure);
    }
}

/// NOPs below /cpus stay, and so does the root's name.
#[test]
fn kept_as_it_is() {
    let board = Builder::default().words(&[NOP]).begin("the root");
    let board = board.padding(MUCH).begin("cpus").words(&[NOP, NOP]);
    let board = board.begin("cpus").close().close().words(&[NOP, CLOSE]);
    let cut = cut::cut(&board.words(&[NOP, END]).blob()).expect("it is sound");
    let expected = Builder::default().begin("the root").begin("cpus");
    let expected = expected.words(&[NOP, NOP]).begin("cpus").close().close();
    assert_eq!(cut.blob, expected.finish());
}
