// SPDX-License-Identifier: BSD-2-Clause OR GPL-2.0-or-later
//! Blobs of at most 65,536 bytes: padding, NOPs, and every reason of 31, 32 and 34.

use crate::builder::{patched, small, Builder, NOP};
use crate::run::{board, compiled, refusal, run, run_on_input, text};
use std::fs;
use std::path::Path;

#[test]
fn files_and_standard_input() {
    let mut bytes = compiled("whole-case");
    let plain = run_on_input(&["-"], &bytes);
    assert_eq!(plain.status.code(), Some(0));
    assert_eq!(run(&[&board("whole-case")]).stdout, plain.stdout);
    // The header's total size decides, however long the file is.
    for padding in [1, 4096, 70_000] {
        bytes.extend(vec![0x55; padding]);
        let padded = run_on_input(&["-"], &bytes);
        assert_eq!(padded.stdout, plain.stdout);
        assert_eq!(text(&padded.stderr), "");
    }
    let file = Path::new(env!("CARGO_TARGET_TMPDIR")).join("whole-case.dtb");
    fs::write(&file, &bytes).expect("the file can be written");
    let named = run(&[file.to_str().expect("the path is text")]);
    assert_eq!(named.stdout, plain.stdout);
}

fn header_message(reason: &str) -> String {
    format!("-: ERROR 31 (blob_header): not a devicetree blob that can be read ({reason})\n")
}

#[test]
fn reasons_of_31() {
    let blob = small();
    let length = blob.len();
    let told = |blob: &[u8], reason: &str| assert_eq!(refusal(blob), header_message(reason));
    told(b"", "blob of 0 bytes, a header has 40");
    told(&blob[..39], "blob of 39 bytes, a header has 40");
    told(
        &patched(&blob, 0, 0x7468_6973),
        "magic 0x74686973, not 0xd00dfeed",
    );
    told(&patched(&blob, 4, 39), "total size 39, a header has 40");
    told(
        &patched(&blob, 4, length as u32 + 1),
        &format!(
            "total size {} is beyond the file's {length} bytes",
            length + 1
        ),
    );
    told(
        &blob[..64],
        &format!("total size {length} is beyond the file's 64 bytes"),
    );
    told(&patched(&blob, 20, 16), "version 16, needs 17");
    told(
        &patched(&blob, 24, 18),
        "last compatible version 18, knows 17",
    );
    let text = b"this is no blob, though it is long enough";
    told(text, "magic 0x74686973, not 0xd00dfeed");
    let long = text.repeat(2000);
    told(&long, "magic 0x74686973, not 0xd00dfeed");
}

/// A newer version that version 17 can read is read.
#[test]
fn newer_versions() {
    let plain = run_on_input(&["-"], &small());
    assert_eq!(plain.status.code(), Some(0));
    let newer = patched(&patched(&small(), 20, 18), 24, 17);
    assert_eq!(run_on_input(&["-"], &newer).stdout, plain.stdout);
}

#[test]
fn reasons_of_32() {
    let blob = small();
    let total = blob.len() as u32;
    let told = |blob: &[u8], reason: &str| {
        let sentence = "the structure or strings block does not lie as it must";
        let expected = format!("-: ERROR 32 (blob_blocks): {sentence} ({reason})\n");
        assert_eq!(refusal(blob), expected);
    };
    let outside = |name: &str, offset: u32, size: u32| {
        format!(
            "{name} block at offset {offset:#x} with {size} bytes leaves the total size {total}"
        )
    };
    told(
        &patched(&blob, 36, total - 55),
        &outside("structure", 56, total - 55),
    );
    told(
        &patched(&blob, 36, u32::MAX),
        &outside("structure", 56, u32::MAX),
    );
    let strings = total - 10;
    let short = patched(&patched(&blob, 12, strings), 32, 11);
    told(&short, &outside("strings", strings, 11));
    told(
        &patched(&patched(&blob, 8, 58), 36, 8),
        "structure offset 0x3a is not a multiple of 4",
    );
    told(
        &patched(&blob, 36, 9),
        "structure size 9 is not a multiple of 4",
    );
}

fn cpus_message(count: usize) -> String {
    let sentence = "the root must have exactly one child named cpus";
    format!("-: ERROR 34 (blob_cpus): /: {sentence} (it has {count})\n")
}

#[test]
fn reasons_of_34() {
    let none = Builder::rooted().begin("soc").cpus().close();
    assert_eq!(refusal(&none.clone().finish()), cpus_message(0));
    let other = none.begin("cpus@0").close().begin("cpu").close();
    assert_eq!(refusal(&other.finish()), cpus_message(0));
    let three = Builder::rooted().cpus().begin("cpus").close().cpus();
    assert_eq!(refusal(&three.finish()), cpus_message(3));
}

/// NOPs may stand anywhere before the end token.
#[test]
fn nops() {
    let nop = [NOP];
    let board = Builder::default().words(&nop).begin("").words(&nop);
    let board = board.cell("a", 0).words(&[NOP, NOP]).cell("b", 0);
    let blob = board.words(&nop).cpus().words(&nop).finish();
    let output = run_on_input(&["-"], &blob);
    assert_eq!(output.stdout, run_on_input(&["-"], &small()).stdout);
    assert_eq!(output.status.code(), Some(0));
}

/// For 8 the message names the node and the property.
#[test]
fn repeated_property() {
    let board = Builder::rooted().begin("cpus").begin("cpu@0");
    let board = board.cell("reg", 0).cell("reg", 1).close().close();
    let message = refusal(&board.finish());
    let start = "-: ERROR 8 (duplicate_property): /cpus/cpu@0: reg: ";
    assert!(message.starts_with(start), "{message}");
}
