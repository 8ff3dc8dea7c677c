// SPDX-License-Identifier: BSD-2-Clause OR GPL-2.0-or-later
//! Several files: the text of each under its name, one JSON array, and a status that speaks of all.

use crate::run::{board, boards, compiled, run, run_in, run_on_input, text, with_input};
use crate::run::{directory, program, written};

const NO_FILE: &str = "Couldn't open blob from 'none.dtb': No such file or directory\n";

/// Runs the program on sample boards, which it finds by these names.
fn run_on(arguments: &[&str]) -> (String, String, Option<i32>) {
    let arguments: Vec<&[u8]> = arguments.iter().map(|text| text.as_bytes()).collect();
    let output = run_in(&boards(), &arguments);
    let [out, err] = [&output.stdout, &output.stderr].map(|bytes| text(bytes).to_string());
    (out, err, output.status.code())
}

/// What one file alone gives.
fn alone(option: &str, name: &str) -> String {
    let output = run(&[option, &board(name)]);
    text(&output.stdout).to_string()
}

#[test]
fn headings() {
    for option in ["-q", "--tree", "--slots"] {
        let files = [
            option,
            "whole-case.dts",
            "refused-15-no-map.dts",
            "mixed-smt.dts",
        ];
        let (out, _, status) = run_on(&files);
        let [first, second] = ["whole-case", "mixed-smt"].map(|name| alone(option, name));
        let expected = format!("whole-case.dts:\n{first}\nmixed-smt.dts:\n{second}");
        assert_eq!((out, status), (expected, Some(1)), "{option}");
    }
}

/// Each line is a comment or a row, and rows belong to the file above them.
#[test]
fn comments() {
    let (out, _, status) = run_on(&["-p", "whole-case.dts", "mixed-smt.dts"]);
    let [first, second] = ["whole-case", "mixed-smt"].map(|name| alone("-p", name));
    let expected = format!("# file=whole-case.dts\n{first}# file=mixed-smt.dts\n{second}");
    assert_eq!((out, status), (expected, Some(0)));
    let boards = directory("several-comments");
    written(&boards, b"a\nb,c.dtb", &compiled("whole-case"));
    let output = run_in(&boards, &[b"-p", b"a\nb,c.dtb", b"a\nb,c.dtb"]);
    let lines: Vec<&str> = text(&output.stdout).lines().collect();
    assert_eq!((lines.len(), lines[0]), (10, "# file=a\\nb,c.dtb"));
}

/// The array has the objects that the files alone have, in the order of the files.
#[test]
fn arrays() {
    let files = ["whole-case.dts", "refused-24-cpu0.dts", "mixed-smt.dts"];
    let (out, err, status) = run_on(&[&["-j"], &files[..]].concat());
    let object = |file: &&str| {
        let (out, ..) = run_on(&["-qj", file]);
        let lines: Vec<String> = out.lines().map(|line| format!("  {line}")).collect();
        lines.join("\n")
    };
    let objects: Vec<String> = files.iter().map(object).collect();
    assert_eq!(out, format!("[\n{}\n]\n", objects.join(",\n")));
    assert!(err.starts_with("refused-24-cpu0.dts: ERROR 24 "), "{err}");
    assert_eq!((err.lines().count(), status), (1, Some(1)));
}

/// The other files are printed as they would be without it, whatever comes first.
#[test]
fn files_that_cannot_be_read() {
    for option in ["-q", "-p", "-j", "-t", "-s", "-c"] {
        let pair = ["whole-case.dts", "refused-15-no-map.dts"];
        let (out, err, status) = run_on(&[&[option], &pair[..]].concat());
        assert_eq!(status, Some(1));
        for at in 0..=2 {
            let mut files = pair.to_vec();
            files.insert(at, "none.dtb");
            let (out_with, err_with, status) = run_on(&[&[option], &files[..]].concat());
            assert_eq!((&out_with, status), (&out, Some(2)), "{option} {files:?}");
            assert_eq!(err_with.replace(NO_FILE, ""), err);
            assert!(err_with.contains(NO_FILE));
        }
    }
}

#[test]
fn statuses() {
    let [good, bad, none] = ["whole-case.dts", "refused-15-no-map.dts", "none.dtb"];
    for (files, status) in [
        (&[good, good][..], 0),
        (&[good, bad], 1),
        (&[bad, good], 1),
        (&[none, good], 2),
        (&[good, bad, none], 2),
        (&[none, bad], 2),
        (&[none, none], 2),
    ] {
        for options in ["-q", "-qc", "-qj", "-qcj"] {
            let arguments = [&[options], files].concat();
            assert_eq!(run_on(&arguments).2, Some(status), "{arguments:?}");
        }
    }
    let (out, ..) = run_on(&["-qj", none, none]);
    assert_eq!(out, "[]\n");
}

/// Standard input is one of the files, once.
#[test]
fn standard_input() {
    let blob = compiled("whole-case");
    let mut command = program();
    command.args(["-", "mixed-smt.dts"]).current_dir(boards());
    let output = with_input(&mut command, &blob);
    let [first, second] = ["whole-case", "mixed-smt"].map(|name| alone("-q", name));
    let expected = format!("-:\n{first}\nmixed-smt.dts:\n{second}");
    assert_eq!(text(&output.stdout), expected);
    assert_eq!(output.status.code(), Some(0));
    let twice = run_on_input(&["-", "mixed-smt.dts", "-"], b"");
    assert!(text(&twice.stderr).starts_with("sunderwath: standard input can be read once\n"));
    assert_eq!((text(&twice.stdout), twice.status.code()), ("", Some(2)));
    let one = run_on_input(&["-"], &blob);
    assert_eq!(text(&one.stdout), first);
}
