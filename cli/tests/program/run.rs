// SPDX-License-Identifier: BSD-2-Clause OR GPL-2.0-or-later
//! Starts the program and dtc.

use std::ffi::OsStr;
use std::fs;
use std::io::Write;
use std::os::unix::ffi::OsStrExt;
use std::os::unix::fs::symlink;
use std::path::{Path, PathBuf};
use std::process::{Command, Output, Stdio};

pub fn boards() -> PathBuf {
    Path::new(env!("CARGO_MANIFEST_DIR")).join("../boards")
}

/// The source of a sample board.
pub fn board(name: &str) -> String {
    let file = boards().join(format!("{name}.dts"));
    file.to_str().expect("the path is text").to_string()
}

pub fn program() -> Command {
    Command::new(env!("CARGO_BIN_EXE_sunderwath"))
}

/// An empty directory of this name, for the files of one test.
pub fn directory(name: &str) -> PathBuf {
    let directory = Path::new(env!("CARGO_TARGET_TMPDIR")).join(name);
    let _ = fs::remove_dir_all(&directory);
    fs::create_dir_all(&directory).expect("the directory is made");
    directory
}

/// Writes a file of this name in a directory.
pub fn written(directory: &Path, name: &[u8], bytes: &[u8]) -> PathBuf {
    let file = directory.join(OsStr::from_bytes(name));
    fs::write(&file, bytes).expect("the file is written");
    file
}

/// A link, which goes with this value: `rt ci` refuses links in a checkout.
pub struct Link(PathBuf);

impl Drop for Link {
    fn drop(&mut self) {
        let _ = fs::remove_file(&self.0);
    }
}

/// Makes a link of this name in a directory.
pub fn linked(directory: &Path, name: &str, target: &str) -> Link {
    let link = directory.join(name);
    symlink(target, &link).expect("the link is made");
    Link(link)
}

/// Runs the program in a directory, on operands of any bytes.
pub fn run_in(directory: &Path, arguments: &[&[u8]]) -> Output {
    program()
        .args(arguments.iter().map(|bytes| OsStr::from_bytes(bytes)))
        .current_dir(directory)
        .output()
        .expect("the program starts")
}

pub fn run(arguments: &[&str]) -> Output {
    program()
        .args(arguments)
        .output()
        .expect("the program starts")
}

pub fn text(bytes: &[u8]) -> &str {
    std::str::from_utf8(bytes).expect("output is text")
}

/// A sample board, compiled by dtc.
pub fn compiled(name: &str) -> Vec<u8> {
    let output = Command::new("dtc")
        .args(["-q", "-I", "dts", "-O", "dtb", "-o", "-", &board(name)])
        .output()
        .expect("dtc (package device-tree-compiler) is installed");
    assert!(output.status.success());
    output.stdout
}

pub fn with_input(command: &mut Command, input: &[u8]) -> Output {
    let mut child = command
        .stdin(Stdio::piped())
        .stdout(Stdio::piped())
        .stderr(Stdio::piped())
        .spawn()
        .expect("the program starts");
    let mut stdin = child.stdin.take().expect("it is piped");
    stdin.write_all(input).expect("the program reads");
    drop(stdin);
    child.wait_with_output().expect("the program ends")
}

pub fn run_on_input(arguments: &[&str], input: &[u8]) -> Output {
    with_input(program().args(arguments), input)
}

/// What dtc makes of a blob.
pub fn decompiled(blob: &[u8]) -> Output {
    let mut dtc = Command::new("dtc");
    with_input(dtc.args(["-q", "-I", "dtb", "-O", "dts", "-"]), blob)
}

/// Runs the program on a blob that is refused, and gives its one message.
pub fn refusal(blob: &[u8]) -> String {
    let output = run_on_input(&["-"], blob);
    let message = text(&output.stderr).to_string();
    assert_eq!(output.status.code(), Some(1), "{message}");
    assert_eq!(text(&output.stdout), "");
    message
}
