// SPDX-License-Identifier: BSD-2-Clause OR GPL-2.0-or-later
//! Wrong usage, files that cannot be read, help and version.

use crate::run::{board, run, text};

const NO_PLAN: &str = "option '--plan' goes with the table, --parse and --json only";

/// Two lines, and nothing is read.
#[test]
fn wrong_usage() {
    let file = board("whole-case");
    let wrong: [(&[&str], &str); 12] = [
        (&[], "no file"),
        (&["--slots"], "no file"),
        (
            &["--width", "6", &file],
            "the width must be 32, 64 or 5, not '6'",
        ),
        (&["-w6", &file], "the width must be 32, 64 or 5, not '6'"),
        (
            &["--board", "x\ny", &file],
            "the board must be arm32, arm64 or riscv, not 'x\\ny'",
        ),
        (&["--nonsense", &file], "unknown option '--nonsense'"),
        (&["-jqX", &file], "unknown option '-X'"),
        (&[&file, "--json=1"], "option '--json' takes no value"),
        (&[&file, "-w"], "option '-w' needs a value"),
        (&["--plan=2", &file], "option '--plan' takes no value"),
        (&["--plan", "--tree", &file], NO_PLAN),
        (&["-cs", &file, "--plan"], NO_PLAN),
    ];
    for (arguments, message) in wrong {
        let output = run(arguments);
        let hint = "Try 'sunderwath --help' for more information.";
        let expected = format!("sunderwath: {message}\n{hint}\n");
        assert_eq!(text(&output.stderr), expected, "{arguments:?}");
        assert_eq!((text(&output.stdout), output.status.code()), ("", Some(2)));
    }
}

#[test]
fn bundles() {
    let file = board("example2");
    let expected = run(&["-q", "-j", "--board", "arm32", &file]);
    assert_eq!(expected.status.code(), Some(0));
    for arguments in [
        &["-qjw32", &file][..],
        &["-qjw", "32", &file],
        &["-jqbarm32", &file],
        &["-qj", "--width=32", &file],
        &[&file, "-jqb", "arm32"],
        &["-qjw32", "--", &file],
    ] {
        assert_eq!(run(arguments), expected, "{arguments:?}");
    }
}

#[test]
fn missing_files() {
    for name in ["no-such-file.dtb", "no-such-file.dts"] {
        let output = run(&[name]);
        let expected = format!("Couldn't open blob from '{name}': No such file or directory\n");
        assert_eq!(text(&output.stderr), expected);
        assert_eq!((text(&output.stdout), output.status.code()), ("", Some(2)));
    }
}

#[test]
fn help_and_version() {
    let help = run(&["--help"]);
    assert_eq!(help.status.code(), Some(0));
    assert!(text(&help.stdout).starts_with("Usage: sunderwath [OPTION]... FILE...\n"));
    assert_eq!(run(&["-qh"]), help);
    let version = run(&["--version"]);
    let expected = format!("Version: sunderwath {}\n", env!("CARGO_PKG_VERSION"));
    assert_eq!(text(&version.stdout), expected);
    assert_eq!(run(&["-V", "no-such-file.dtb"]), version);
}
