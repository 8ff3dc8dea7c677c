// SPDX-License-Identifier: BSD-2-Clause OR GPL-2.0-or-later
//! Sources: known by their content, whatever their name, from a file, standard input or a pipe.

use crate::run::{board, compiled, directory, program, run, run_in, run_on_input, text, written};
use std::fs::{self, File};
use std::path::Path;
use std::process::{Command, Output, Stdio};

fn source(name: &str) -> Vec<u8> {
    fs::read(board(name)).expect("the board is there")
}

/// What is printed of the sample board that all sources here are.
fn expected() -> String {
    text(&run(&[&board("whole-case")]).stdout).to_string()
}

fn check(output: &Output) {
    assert_eq!(text(&output.stderr), "");
    assert_eq!(text(&output.stdout), expected());
    assert_eq!(output.status.code(), Some(0));
}

/// Some of these names are options of dtc.
#[test]
fn any_name() {
    let boards = directory("sources-names");
    let names: [&[u8]; 6] = [
        b"board",
        b"board.dtb",
        b"\xff.txt",
        b" ",
        b"-x.dts",
        b"--help",
    ];
    for name in names {
        written(&boards, name, &source("whole-case"));
        check(&run_in(&boards, &[b"--", name]));
    }
}

/// The first four bytes are those of a blob.
#[test]
fn blobs_that_are_named_as_sources() {
    let boards = directory("sources-blobs");
    written(&boards, b"board.dts", &compiled("whole-case"));
    check(&run_in(&boards, &[b"board.dts"]));
}

#[test]
fn comments_before() {
    let licence = vec![b'x'; 60_000];
    let heads: [&[u8]; 4] = [
        b"\n\t ",
        b"// SPDX-License-Identifier: GPL-2.0\n",
        b"# 1 \"board.dts\"\n",
        &[b"/*\n", &licence[..], b" */"].concat(),
    ];
    for head in heads {
        check(&run_on_input(
            &["-"],
            &[head, &source("whole-case")].concat(),
        ));
    }
}

#[test]
fn standard_input() {
    check(&run_on_input(&["-"], &source("whole-case")));
    let file = File::open(board("whole-case")).expect("the board is there");
    let output = program().arg("/dev/stdin").stdin(file).output();
    check(&output.expect("the program starts"));
    // Much longer than a pipe holds.
    let comment = format!("// {}\n", "x".repeat(997)).repeat(1000);
    let long = [source("whole-case"), comment.into_bytes()].concat();
    check(&run_on_input(&["-"], &long));
}

#[test]
fn pipes_with_names() {
    let boards = directory("sources-pipes");
    let pipe = boards.join("pipe");
    let made = Command::new("mkfifo").arg(&pipe).status();
    assert!(made.expect("coreutils are installed").success());
    let writer = std::thread::spawn({
        let pipe = pipe.clone();
        move || fs::write(pipe, source("whole-case"))
    });
    // Who opens it twice waits for another writer.
    let output = Command::new("timeout")
        .args(["30", env!("CARGO_BIN_EXE_sunderwath")])
        .arg(&pipe)
        .output();
    check(&output.expect("coreutils are installed"));
    let written = writer.join().expect("the writer ends");
    written.expect("the pipe is read to its end");
}

/// What is included stands beside the file, or in the directory for a file without one.
#[test]
fn includes() {
    let boards = directory("sources-includes");
    fs::create_dir(boards.join("sub")).expect("the directory is made");
    written(&boards, b"sub/rest.dtsi", &source("whole-case"));
    let whole = b"/include/ \"rest.dtsi\"\n";
    written(&boards, b"sub/all.dts", whole);
    check(&run_in(&boards, &[b"sub/all.dts"]));
    let mut command = program();
    command.arg("-").current_dir(boards.join("sub"));
    check(&crate::run::with_input(&mut command, whole));
}

#[test]
fn what_dtc_refuses() {
    let boards = directory("sources-wrong");
    written(&boards, b"a\nb.dts", b"/dts-v1/; / { cpus { };\n");
    let output = run_in(&boards, &[b"a\nb.dts"]);
    let message = text(&output.stderr);
    assert!(message.contains("syntax error"), "{message}");
    assert!(message.ends_with("\ndtc could not compile 'a\\nb.dts'\n"));
    assert_eq!((text(&output.stdout), output.status.code()), ("", Some(2)));
    // dtc ends before it has read all.
    let long = [&b"/dts-v1/; ) "[..], &[b'\n'; 1_000_000]].concat();
    let output = run_on_input(&["-"], &long);
    assert!(text(&output.stderr).ends_with("\ndtc could not compile '-'\n"));
    assert_eq!(output.status.code(), Some(2));
}

/// Neither a blob nor a source: 31, whatever the name.
#[test]
fn neither() {
    let boards = directory("sources-neither");
    for (name, bytes, reason) in [
        (&b"a.dts"[..], &b""[..], "blob of 0 bytes, a header has 40"),
        (b"b.dts", b"/ { };", "blob of 6 bytes, a header has 40"),
        (b"c", &[b' '; 100_000], "magic 0x20202020, not 0xd00dfeed"),
        (b"d", &[b'/'; 100], "magic 0x2f2f2f2f, not 0xd00dfeed"),
        (b"e", &[b'#'; 100_000], "magic 0x23232323, not 0xd00dfeed"),
    ] {
        written(&boards, name, bytes);
        let output = run_in(&boards, &[name]);
        let message = text(&output.stderr);
        assert!(message.contains(": ERROR 31 (blob_header): "), "{message}");
        assert!(message.ends_with(&format!(" ({reason})\n")), "{message}");
        assert_eq!(output.status.code(), Some(1));
    }
}

/// Without dtc a blob is read, and one line says what the others need.
#[test]
fn without_dtc() {
    let nothing = directory("sources-no-dtc");
    let blob = written(&nothing, b"blob", &compiled("whole-case"));
    fs::create_dir_all(nothing.join("tree/cpus")).expect("the directory is made");
    let run = |operand: &Path, input: Stdio| {
        let mut program = program();
        program.arg(operand).env("PATH", &nothing).stdin(input);
        program.output().expect("the program starts")
    };
    check(&run(&blob, Stdio::null()));
    let file = board("whole-case");
    let input = || File::open(&file).expect("the board is there").into();
    for operand in [Path::new(&file), &nothing.join("tree"), Path::new("-")] {
        let output = run(operand, input());
        let expected = format!(
            "Couldn't run dtc (package device-tree-compiler), which '{}' needs: \
             No such file or directory\n",
            operand.display()
        );
        assert_eq!(text(&output.stderr), expected);
        assert_eq!((text(&output.stdout), output.status.code()), ("", Some(2)));
    }
}
