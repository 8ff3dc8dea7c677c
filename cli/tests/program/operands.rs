// SPDX-License-Identifier: BSD-2-Clause OR GPL-2.0-or-later
//! Operands and options whatever bytes they have, and devices.

use crate::builder::small;
use crate::run::{board, compiled, directory, program, run_in, run_on_input, text, written};
use std::fs;

#[test]
fn names_that_are_not_utf8() {
    let place = directory("operands-names");
    let source = fs::read(board("whole-case")).expect("the board is there");
    written(&place, b"\xff.dtb", &small());
    written(&place, b"\xff.dts", &source);
    for name in [b"\xff.dtb", b"\xff.dts"] {
        assert_eq!(run_in(&place, &[name]).status.code(), Some(0));
    }
    let missing = run_in(&place, &[b"no\xe9"]);
    assert_eq!(missing.status.code(), Some(2));
    let start = "Couldn't open blob from 'no\u{e9}': ";
    assert!(text(&missing.stderr).starts_with(start));
    let both = run_in(&place, &[b"\xff.dtb", b"\xff.dts"]);
    assert!(text(&both.stdout).starts_with("\u{ff}.dtb:\nLEAF "));
}

/// The line stays one line; the object has the name's own characters.
#[test]
fn names_with_characters_to_escape() {
    let place = directory("operands-escapes");
    let name = b"\xe9\n\x1b.dtb";
    written(&place, name, &compiled("refused-24-cpu0"));
    let output = run_in(&place, &[b"--json", name]);
    let line = text(&output.stderr);
    assert!(
        line.starts_with("\u{e9}\\n\\u{1b}.dtb: ERROR 24 "),
        "{line}"
    );
    let field = "\n  \"file\": \"\u{e9}\\u000a\\u001b.dtb\",\n";
    assert!(text(&output.stdout).contains(field));
    let missing = run_in(&place, &[b"no\nfile"]);
    let start = "Couldn't open blob from 'no\\nfile': ";
    assert!(text(&missing.stderr).starts_with(start));
}

#[test]
fn options_that_are_not_utf8() {
    let place = directory("operands-options");
    let wrong: [&[&[u8]]; 5] = [
        &[b"--\xff", b"a"],
        &[b"-w", b"\xff", b"a"],
        &[b"-w\xff", b"a"],
        &[b"-q\xff\xfe", b"a"],
        &[b"-\x1b", b"a"],
    ];
    for arguments in wrong {
        let output = run_in(&place, arguments);
        assert_eq!(output.status.code(), Some(2));
        let message = text(&output.stderr);
        assert!(message.starts_with("sunderwath: ") && !message.contains('\x1b'));
        assert_eq!(message.lines().count(), 2);
    }
}

/// What is no header, or stands behind a blob, is not kept: a device may have no end.
#[test]
fn devices() {
    let output = program().arg("/dev/zero").output();
    let output = output.expect("the program starts");
    assert_eq!(output.status.code(), Some(1));
    let end = "(magic 0x00000000, not 0xd00dfeed)\n";
    assert!(text(&output.stderr).ends_with(end));
    let padded = [small(), vec![0x55; 1_000_000]].concat();
    let output = run_on_input(&["-"], &padded);
    assert_eq!(output.status.code(), Some(0));
    assert!(output.stderr.is_empty());
}
