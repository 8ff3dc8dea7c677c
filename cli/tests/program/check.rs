// SPDX-License-Identifier: BSD-2-Clause OR GPL-2.0-or-later
//! `--check`: nothing of boards that are accepted, one line for each that is refused.

use crate::boards::names;
use crate::builder::Builder;
use crate::run::{board, run, run_on_input, text};

#[test]
fn one_line_for_each_refusal() {
    let files: Vec<String> = names().iter().map(|name| board(name)).collect();
    let files: Vec<&str> = files.iter().map(String::as_str).collect();
    let mut lines = String::new();
    for file in &files {
        let plain = run(&["-b", "arm64", file]);
        let checked = run(&["-cb", "arm64", file]);
        assert_eq!(text(&checked.stdout), "");
        assert_eq!(
            (&checked.stderr, checked.status),
            (&plain.stderr, plain.status)
        );
        lines.push_str(text(&checked.stderr));
    }
    let all = run(&[&["--check", "--board=arm64"], &files[..]].concat());
    assert_eq!(text(&all.stdout), "");
    assert_eq!(text(&all.stderr), lines);
    assert_eq!(all.status.code(), Some(1));
    assert!(lines.lines().all(|line| line.contains(": ERROR ")));
}

/// No format but JSON has anything to print.
#[test]
fn formats() {
    for option in ["-p", "-t", "-s", "--tree=utf8"] {
        let output = run(&["-c", option, &board("whole-case"), &board("mixed-smt")]);
        assert_eq!((text(&output.stdout), text(&output.stderr)), ("", ""));
        assert_eq!(output.status.code(), Some(0));
    }
}

/// A board without a table of slots is refused where one is asked for.
#[test]
fn slots() {
    let file = board("wide-hash");
    assert_eq!(run(&["-c", &file]).status.code(), Some(0));
    let output = run(&["-cs", &file]);
    assert_eq!(output.status.code(), Some(1));
    assert!(text(&output.stderr).contains(": ERROR 38 (slot_table_bits): "));
}

/// Always an array, of refusals alone.
#[test]
fn json() {
    let [good, bad] = ["whole-case", "refused-24-cpu0"].map(board);
    for files in [&[&good[..]][..], &[&good, &good]] {
        let output = run(&[&["-cj"], files].concat());
        assert_eq!(
            (text(&output.stdout), output.status.code()),
            ("[]\n", Some(0))
        );
    }
    let object = run(&["-qj", &bad]);
    let lines: Vec<&str> = text(&object.stdout).lines().collect();
    let expected = format!("[\n  {}\n]\n", lines.join("\n  "));
    for files in [&[&bad[..]][..], &[&good, &bad], &[&bad, &good]] {
        let output = run(&[&["-qcj"], files].concat());
        assert_eq!(text(&output.stdout), expected);
        assert_eq!((text(&output.stderr), output.status.code()), ("", Some(1)));
    }
}

/// That a board may be of another kind is said all the same; that a blob is long is not.
#[test]
fn notes() {
    let long = Builder::rooted().padding(70_000).cpus().finish();
    assert!(!run_on_input(&["-"], &long).stderr.is_empty());
    let output = run_on_input(&["-c", "-"], &long);
    assert_eq!((text(&output.stderr), output.status.code()), ("", Some(0)));
    let file = board("example2");
    let output = run(&["-c", &file]);
    assert!(text(&output.stderr).starts_with(&format!("{file}: note: ")));
    assert_eq!(text(&run(&["-qc", &file]).stderr), "");
}
