// SPDX-License-Identifier: BSD-2-Clause OR GPL-2.0-or-later
//! Streams that are full, closed or broken, and files that cannot be read: a line where there is somebody to read it, a status,
//! and never a panic.

use crate::builder::small;
use crate::run::{board, directory, linked, program, run_in, run_on_input, text, written};
use std::fs::File;
use std::io::Write;
use std::process::{Command, Output, Stdio};

fn full() -> Stdio {
    let full = File::options().write(true).open("/dev/full");
    full.expect("Linux has it").into()
}

/// A pipe that nobody reads.
fn broken() -> Stdio {
    let mut reader = Command::new("true")
        .stdin(Stdio::piped())
        .spawn()
        .expect("it starts");
    let pipe = reader.stdin.take().expect("it is piped");
    reader.wait().expect("it ends");
    pipe.into()
}

/// Runs the program through a shell, which can close its streams.
fn shell(arguments: &str) -> Output {
    let script = format!("exec \"$0\" {arguments}");
    let mut shell = Command::new("sh");
    shell.args([
        "-c",
        &script,
        env!("CARGO_BIN_EXE_sunderwath"),
        &board("whole-case"),
    ]);
    shell.output().expect("the shell starts")
}

fn status(arguments: &[&str], out: Stdio, err: Stdio) -> Option<i32> {
    let mut program = program();
    program
        .args(arguments)
        .stdin(Stdio::null())
        .stdout(out)
        .stderr(err);
    program.status().expect("the program starts").code()
}

#[test]
fn full_standard_output() {
    let [good, bad] = ["whole-case", "refused-24-cpu0"].map(board);
    for arguments in [
        &[&good[..]][..],
        &[&good, &good],
        &["-j", &bad],
        &["-cj", &good],
        &["--help"],
        &["--version"],
    ] {
        let output = program().args(arguments).stdout(full()).output();
        let output = output.expect("the program starts");
        let message = text(&output.stderr);
        let expected = "sunderwath: cannot write: No space left on device\n";
        assert!(message.ends_with(expected), "{message}");
        assert_eq!(message.matches("cannot write").count(), 1);
        assert_eq!(output.status.code(), Some(2), "{arguments:?}");
        assert_eq!(status(arguments, full(), full()), Some(2));
    }
}

/// The status says what the lines would have said.
#[test]
fn full_standard_error() {
    let [good, bad] = ["example2", "refused-24-cpu0"].map(board);
    for (arguments, expected) in [
        (&[&good[..]][..], 0),
        (&[&bad], 1),
        (&["-c", &bad, &good], 1),
        (&["no-such-file.dtb"], 2),
        (&["--nonsense"], 2),
    ] {
        assert_eq!(status(arguments, Stdio::null(), full()), Some(expected));
    }
}

/// A reader that has gone away is no error; the status is that of the files.
#[test]
fn broken_standard_output() {
    let [good, bad] = ["whole-case", "refused-24-cpu0"].map(board);
    assert_eq!(status(&[&good], broken(), broken()), Some(0));
    assert_eq!(status(&["-s", &good, &good], broken(), broken()), Some(0));
    assert_eq!(status(&["-j", &good, &bad], broken(), broken()), Some(1));
    assert_eq!(status(&[&good, "none"], broken(), broken()), Some(2));
    assert_eq!(status(&["--help"], broken(), broken()), Some(0));
    assert_eq!(status(&["-x"], broken(), broken()), Some(2));
    let output = program()
        .args(["-q", &good, &bad])
        .stdout(broken())
        .output();
    assert_eq!(text(&output.expect("the program starts").stderr), "");
}

#[test]
fn closed_streams() {
    for (arguments, status) in [
        ("\"$1\" >&-", 0),
        ("\"$1\" 2>&-", 0),
        ("\"$1\" <&- >&- 2>&-", 0),
        ("none.dtb \"$1\" >&- 2>&-", 2),
        ("-x >&- 2>&-", 2),
        ("- <&-", 1),
        ("- <&- >&- 2>&-", 1),
        ("-j - \"$1\" <&- >&- 2>&-", 1),
    ] {
        assert_eq!(shell(arguments).status.code(), Some(status), "{arguments}");
    }
    let message = shell("- <&-");
    let end = "(blob of 0 bytes, a header has 40)\n";
    assert!(text(&message.stderr).ends_with(end));
}

/// Names that lead nowhere, and a file that can be opened and not read.
#[test]
fn unreadable_files() {
    let place = directory("closed-files");
    let _link = linked(&place, "loop", "loop");
    written(&place, b"empty.dtb", b"");
    for (operand, message) in [
        (
            &b"loop"[..],
            "Couldn't open blob from 'loop': Too many levels of symbolic links\n",
        ),
        (
            b"empty.dtb/x",
            "Couldn't open blob from 'empty.dtb/x': Not a directory\n",
        ),
        (
            b"",
            "Couldn't open blob from '': No such file or directory\n",
        ),
        (
            b"/proc/self/mem",
            "Couldn't open blob from '/proc/self/mem': Input/output error\n",
        ),
    ] {
        let output = run_in(&place, &[b"-q", operand]);
        assert_eq!(text(&output.stderr), message);
        assert_eq!((text(&output.stdout), output.status.code()), ("", Some(2)));
    }
}

/// A path that is too long for Linux with cpus behind it, standard input that is a directory, and a file without a byte.
#[test]
fn odd_directories_and_files() {
    let place = directory("closed-odd");
    let long = "./".repeat(2046);
    let output = run_in(&place, &[long.as_bytes()]);
    assert!(text(&output.stderr).ends_with("File name too long\n"));
    assert_eq!(output.status.code(), Some(2));
    let here = File::open(&place).expect("it can be opened");
    let output = program().arg("-").stdin(here).output().expect("it starts");
    let message = "Couldn't read standard input: Is a directory\n";
    assert_eq!(
        (text(&output.stderr), output.status.code()),
        (message, Some(2))
    );
    written(&place, b"empty.dtb", b"");
    let output = run_in(&place, &[b"empty.dtb"]);
    assert!(text(&output.stderr).ends_with("(blob of 0 bytes, a header has 40)\n"));
    assert_eq!(output.status.code(), Some(1));
}

/// A header may promise more than there is memory; a pipe that keeps it is not read for ever.
#[test]
fn blobs_without_end() {
    let mut blob = small();
    blob[4..8].copy_from_slice(&u32::MAX.to_be_bytes());
    let output = run_on_input(&["-"], &blob);
    let end = format!(
        "(total size 4294967295 is beyond the file's {} bytes)\n",
        blob.len()
    );
    assert!(text(&output.stderr).ends_with(&end));
    let place = directory("closed-endless");
    let mut file = File::create(place.join("blob")).expect("the file is made");
    file.write_all(&blob).expect("the file is written");
    file.set_len(1 << 33).expect("it has a hole");
    let output = run_in(&place, &[b"blob"]);
    let end = "(total size 4294967295, at most 67108864 bytes are read)\n";
    assert!(
        text(&output.stderr).ends_with(end),
        "{}",
        text(&output.stderr)
    );
    assert_eq!(output.status.code(), Some(1));
}

/// Arguments as long as Linux allows one to be.
#[test]
fn long_arguments() {
    let long = "9".repeat(100_000);
    for arguments in [&["-w", &long[..], "a"][..], &[&format!("--{long}"), "a"]] {
        let output = program().args(arguments).output().expect("it starts");
        assert_eq!(output.status.code(), Some(2));
        assert_eq!(text(&output.stderr).lines().count(), 2);
    }
    let output = program().arg(&long).output().expect("it starts");
    assert!(text(&output.stderr).ends_with("File name too long\n"));
}
