// SPDX-License-Identifier: BSD-2-Clause OR GPL-2.0-or-later
//! Runs dtc, which makes a blob of a source or of a directory. Its own messages go to standard error.

use super::{name, unopened};
use crate::streams::reason;
use std::ffi::OsStr;
use std::fs::{self, File};
use std::io::{self, Read};
use std::path::{Path, PathBuf};
use std::process::{Child, Command, Stdio};

/// dtc that writes a blob to its standard output.
fn dtc(from: &str) -> Command {
    let mut dtc = Command::new("dtc");
    dtc.args(["-q", "-I", from, "-O", "dtb", "-o", "-"])
        .stdout(Stdio::piped())
        .stderr(Stdio::inherit());
    dtc
}

fn start(dtc: &mut Command, operand: &str) -> Result<Child, String> {
    let missing = |error| {
        let reason = reason(&error);
        format!(
            "Couldn't run dtc (package device-tree-compiler), which '{operand}' needs: {reason}"
        )
    };
    dtc.spawn().map_err(missing)
}

/// What dtc has written, if all went well.
fn finish(dtc: Child, failed: String) -> Result<Vec<u8>, String> {
    match dtc.wait_with_output() {
        Ok(output) if output.status.success() => Ok(output.stdout),
        _ => Err(failed),
    }
}

/// Compiles a source by its name, so that what it includes is found beside it.
pub fn compile_file(source: &OsStr) -> Result<Vec<u8>, String> {
    let operand = name(source);
    let dtc = start(dtc("dts").arg("--").arg(source), &operand)?;
    finish(dtc, format!("dtc could not compile '{operand}'"))
}

/// All of a source into dtc, or into nothing where dtc has ended before: its status tells why.
fn feed(source: &mut impl Read, dtc: &mut Child) -> io::Result<u64> {
    let stdin = dtc.stdin.take();
    match stdin.map(|mut stdin| io::copy(source, &mut stdin)) {
        Some(Err(error)) if error.kind() == io::ErrorKind::BrokenPipe => {
            io::copy(source, &mut io::sink())
        }
        copied => copied.unwrap_or(Ok(0)),
    }
}

/// Compiles a source that cannot be read twice. dtc writes nothing before it has read all, so neither waits for the other.
pub fn compile_stream(operand: &str, mut source: impl Read) -> Result<Vec<u8>, String> {
    let mut dtc = start(dtc("dts").arg("-").stdin(Stdio::piped()), operand)?;
    let fed = feed(&mut source, &mut dtc);
    let blob = finish(dtc, format!("dtc could not compile '{operand}'"));
    fed.map_err(|error| format!("Couldn't read '{operand}': {}", reason(&error)))?;
    blob
}

/// What stands in a directory: the directories in it, once each file was opened.
fn open_all(directory: &Path) -> Result<Vec<PathBuf>, String> {
    let mut inner = Vec::new();
    let failed = |path: &Path, error| unopened(path.as_os_str(), &error);
    for entry in fs::read_dir(directory).map_err(|error| failed(directory, error))? {
        let entry = entry.map_err(|error| failed(directory, error))?;
        let path = entry.path();
        let kind = entry.file_type().map_err(|error| failed(&path, error))?;
        if kind.is_dir() {
            inner.push(path);
        } else if kind.is_file() {
            File::open(&path).map_err(|error| failed(&path, error))?;
        }
    }
    Ok(inner)
}

/// Whether all of the cpus node can be read: dtc leaves out a file that it cannot open, and it would be told as missing.
fn readable(cpus: PathBuf) -> Result<(), String> {
    let mut left = vec![cpus];
    while let Some(directory) = left.pop() {
        left.extend(open_all(&directory)?);
    }
    Ok(())
}

/// Collects a directory as it is, which dtc may find wrong, in an order that stays the same.
pub fn collect_directory(directory: &OsStr) -> Result<Vec<u8>, String> {
    readable(Path::new(directory).join("cpus"))?;
    let operand = name(directory);
    let mut fs = dtc("fs");
    let dtc = start(fs.args(["-qq", "-f", "-s", "--"]).arg(directory), &operand)?;
    finish(dtc, format!("dtc could not read '{operand}'"))
}
