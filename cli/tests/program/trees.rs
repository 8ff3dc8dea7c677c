// SPDX-License-Identifier: BSD-2-Clause OR GPL-2.0-or-later
//! `--tree` with lines: where it is asked for, and on a terminal whose locale has UTF-8. Needs script (package bsdutils).

use crate::run::{board, run, text};
use std::process::{Command, Stdio};

const LINES: &str = "\
cpu-map
├── socket0
│   └── cluster0
│       ├── core0: cpu@0, mpidr 0x0, slot 0
│       └── core1: cpu@1, mpidr 0x1, slot 1
└── socket1
    └── cluster0
        ├── core0: cpu@100000000, mpidr 0x100000000, slot 2
        └── core1: cpu@100000001, mpidr 0x100000001, slot 3
hash: mask 0x100000001, shifts 0 7 15 31, bits 2
";

const INDENTED: &str = "\
cpu-map
  socket0
    cluster0
      core0: cpu@0, mpidr 0x0, slot 0
      core1: cpu@1, mpidr 0x1, slot 1
  socket1
    cluster0
      core0: cpu@100000000, mpidr 0x100000000, slot 2
      core1: cpu@100000001, mpidr 0x100000001, slot 3
hash: mask 0x100000001, shifts 0 7 15 31, bits 2
";

#[test]
fn asked_for() {
    let file = board("two-sockets");
    for (option, expected) in [
        ("-t", INDENTED),
        ("--tree", INDENTED),
        ("--tree=ascii", INDENTED),
        ("--tree=utf8", LINES),
    ] {
        assert_eq!(text(&run(&[option, &file]).stdout), expected, "{option}");
    }
}

/// What the program prints on a terminal of its own.
fn on_a_terminal(options: &str, variables: &[(&str, &str)]) -> String {
    let program = env!("CARGO_BIN_EXE_sunderwath");
    let command = format!("'{program}' {options} '{}'", board("two-sockets"));
    let mut script = Command::new("script");
    for name in ["LC_ALL", "LC_CTYPE", "LANG"] {
        script.env_remove(name);
    }
    let output = script
        .args(["-qec", &command, "/dev/null"])
        .envs(variables.iter().copied())
        .stdin(Stdio::null())
        .output()
        .expect("script (package bsdutils) is installed");
    text(&output.stdout).replace("\r\n", "\n")
}

#[test]
fn terminals() {
    let utf8 = [("LC_ALL", "C.UTF-8")];
    let c = [("LC_ALL", "C"), ("LANG", "C.UTF-8")];
    assert_eq!(on_a_terminal("-t", &utf8), LINES);
    assert_eq!(on_a_terminal("--tree", &[("LANG", "en_GB.utf8")]), LINES);
    assert_eq!(on_a_terminal("-t", &c), INDENTED);
    assert_eq!(on_a_terminal("-t", &[]), INDENTED);
    assert_eq!(on_a_terminal("--tree=ascii", &utf8), INDENTED);
    assert_eq!(on_a_terminal("--tree=utf8", &c), LINES);
}
