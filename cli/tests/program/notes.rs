// SPDX-License-Identifier: BSD-2-Clause OR GPL-2.0-or-later
//! The note on a board whose cpu nodes say that it is of another kind, where no option says which: it names the option and changes
//! nothing else.

use crate::boards::names;
use crate::builder::Builder;
use crate::run::{board, run, run_on_input, text};
use sunderwath::Kind;
use sunderwath_cli::kind::Wording;

/// The boards with such nodes: the first one, the string that tells the kind, and the kind.
const NOTED: [(&str, &str, &str, &str); 10] = [
    ("example2", "/cpus/cpu@0", "arm,cortex-a15", "arm32"),
    ("example3", "/cpus/cpu@1", "riscv", "riscv"),
    ("example3-corrected", "/cpus/cpu@1", "riscv", "riscv"),
    ("example3-no-phandle", "/cpus/cpu@1", "riscv", "riscv"),
    ("hifive-unleashed", "/cpus/cpu@0", "riscv", "riscv"),
    ("qemu-riscv-numa", "/cpus/cpu@0", "riscv", "riscv"),
    ("qemu-riscv-virt", "/cpus/cpu@0", "riscv", "riscv"),
    ("refused-13-same-hart", "/cpus/cpu@0", "riscv", "riscv"),
    ("riscv-two-cells", "/cpus/cpu@0", "riscv", "riscv"),
    ("sparse-harts", "/cpus/cpu@1", "riscv", "riscv"),
];

fn note(file: &str, node: &str, string: &str, option: &str) -> String {
    format!(
        "{file}: note: {node} is compatible with \"{string}\": read as arm64; give --board {option}\n"
    )
}

/// The line stands before everything else, and the rest is what `--board arm64` gives.
#[test]
fn without_an_option() {
    for name in names() {
        let file = board(&name);
        let noted = NOTED.iter().find(|noted| noted.0 == name);
        let note = noted.map(|(_, node, string, option)| note(&file, node, string, option));
        for format in ["-p", "-j", "-s"] {
            let [plain, asked] = [&[format, &file][..], &[format, "-b", "arm64", &file]].map(run);
            let expected = note.clone().unwrap_or_default() + text(&asked.stderr);
            assert_eq!(text(&plain.stderr), expected);
            assert_eq!(text(&plain.stdout), text(&asked.stdout));
            assert_eq!(plain.status, asked.status, "{name}");
            let quiet = run(&["-q", format, &file]);
            assert_eq!(text(&quiet.stderr), "");
            assert_eq!((quiet.stdout, quiet.status), (asked.stdout, asked.status));
        }
    }
}

#[test]
fn manual_shows_the_note() {
    let manual = include_str!("../../../docs/sunderwath.1");
    let example = note("board.dtb", "/cpus/cpu@1", "riscv", "riscv");
    let example = example.replace("--", "\\-\\-");
    assert!(manual.contains(&example), "{example}");
}

#[test]
fn none_with_an_option() {
    let numbers = Kind::ALL.map(|kind| format!("--width={}", kind.number()));
    let names = Kind::ALL.map(|kind| format!("--board={}", kind.name()));
    for (name, ..) in NOTED {
        for option in numbers.iter().chain(&names) {
            let output = run(&[option, &board(name)]);
            assert!(!text(&output.stderr).contains("note"), "{name} {option}");
        }
    }
}

/// A board of two processors whose second one is compatible with these strings.
fn compatible(name: &str, strings: &[u8], padding: usize) -> Vec<u8> {
    let board = Builder::rooted().padding(padding).open_cpus(1).cpu(0);
    let board = board.open_cpu(name).prop("compatible", strings);
    let board = board.cell("reg", 1).cell("phandle", 2).close();
    let board = board.begin("cpu-map").begin("cluster0");
    let board = board.leaf("core0", 1).leaf("core1", 2).close().close();
    board.close().finish()
}

/// What is told on standard error of such a board, which is accepted.
fn told(blob: &[u8]) -> String {
    let output = run_on_input(&["-"], blob);
    assert_eq!(output.status.code(), Some(0));
    text(&output.stderr).to_string()
}

#[test]
fn strings_of_the_list() {
    let blob = |strings| compatible("cpu@1", strings, 0);
    let krait = told(&blob(b"x\0qcom,krait\0riscv\0"));
    assert_eq!(krait, note("-", "/cpus/cpu@1", "qcom,krait", "arm32"));
    let hart = told(&blob(b"vendor,core\0riscv\0"));
    assert_eq!(hart, note("-", "/cpus/cpu@1", "riscv", "riscv"));
    for strings in [&b"riscv"[..], b"riscv2\0", b"arm,cortex-a76\0", b"\0", b""] {
        assert_eq!(told(&blob(strings)), "");
    }
}

/// Behind the note on a long blob; the path is escaped for a terminal, as in every line.
#[test]
fn long_blobs_and_odd_names() {
    let blob = compatible("cpu@\n", b"riscv\0", 70_000);
    let lines = told(&blob);
    let cut = format!(
        "-: note: blob of {} bytes: only /cpus was read\n",
        blob.len()
    );
    let expected = cut + &note("-", "/cpus/cpu@\\n", "riscv", "riscv");
    assert_eq!(lines, expected);
}

/// A blob that is refused before its nodes are known has no note, nor have nodes that are no cpu nodes.
#[test]
fn no_cpu_nodes() {
    let second = Builder::rooted().open_cpus(1).open_cpu("cpu@0");
    let second = second.prop("compatible", b"riscv\0").close().close();
    let blob = second.open_cpus(1).close().finish();
    let output = run_on_input(&["-"], &blob);
    assert!(text(&output.stderr).starts_with("-: ERROR 34 "));
    let root = Builder::rooted().prop("compatible", b"riscv\0");
    assert_eq!(told(&root.cpus().finish()), "");
}
