// SPDX-License-Identifier: BSD-2-Clause OR GPL-2.0-or-later
//! Reads an operand: a blob, a source, a directory that holds a live tree, or one of the first two on standard input. What a
//! file is says its content, not its name.

mod dtc;
mod source;

use crate::escape;
use crate::header::{total_size, MOST_READ};
use crate::streams::reason;
use std::ffi::OsStr;
use std::fs::{self, File};
use std::io::{self, Read};
use std::os::unix::ffi::OsStrExt;
use std::path::Path;

/// As much of a file is looked at to tell a source, which may begin with comments.
const HEAD: u64 = 65_536;

/// The characters of a file's name, which has bytes as other names have.
pub fn name(file: &OsStr) -> String {
    escape::characters(file.as_bytes())
}

fn unopened(operand: &OsStr, error: &io::Error) -> String {
    let reason = reason(error);
    format!("Couldn't open blob from '{}': {reason}", name(operand))
}

/// The bytes of the blob that the operand names or is made into.
pub fn read(operand: &OsStr) -> Result<Vec<u8>, String> {
    if operand == "-" {
        return standard_input();
    }
    let unopened = |error| unopened(operand, &error);
    if fs::metadata(operand).map_err(unopened)?.is_dir() {
        return directory(operand);
    }
    let mut file = File::open(operand).map_err(unopened)?;
    let head = head(&mut file).map_err(unopened)?;
    if !source::is_source(&head) {
        return blob(head, &mut file).map_err(unopened);
    }
    if file.metadata().map_err(unopened)?.is_file() {
        dtc::compile_file(operand)
    } else {
        dtc::compile_stream(&name(operand), head.as_slice().chain(file))
    }
}

fn head(from: &mut impl Read) -> io::Result<Vec<u8>> {
    let mut bytes = Vec::new();
    from.take(HEAD).read_to_end(&mut bytes)?;
    Ok(bytes)
}

/// What begins so, and what its header says belongs to it: a device may have no end.
fn blob(mut head: Vec<u8>, from: &mut impl Read) -> io::Result<Vec<u8>> {
    let total = total_size(&head).unwrap_or(0).min(MOST_READ);
    let rest = total.saturating_sub(head.len());
    from.take(rest as u64).read_to_end(&mut head)?;
    Ok(head)
}

/// Reads to the end, as a program that writes would be ended by a pipe that nobody reads.
fn standard_input() -> Result<Vec<u8>, String> {
    let unread = |error| format!("Couldn't read standard input: {}", reason(&error));
    let mut input = io::stdin().lock();
    let head = head(&mut input).map_err(unread)?;
    if source::is_source(&head) {
        return dtc::compile_stream("-", head.as_slice().chain(input));
    }
    let bytes = blob(head, &mut input).map_err(unread)?;
    io::copy(&mut input, &mut io::sink()).map_err(unread)?;
    Ok(bytes)
}

/// A directory without cpus is not walked, as it may be any: it is a root without children.
fn directory(operand: &OsStr) -> Result<Vec<u8>, String> {
    match fs::symlink_metadata(Path::new(operand).join("cpus")) {
        Ok(cpus) if cpus.is_dir() => dtc::collect_directory(operand),
        Err(error) if error.kind() != io::ErrorKind::NotFound => Err(unopened(operand, &error)),
        _ => Ok(ROOT.iter().flat_map(|word| word.to_be_bytes()).collect()),
    }
}

/// The blob of a root without children: header, no reservations, and four tokens.
const ROOT: [u32; 18] = [
    0xD00D_FEED,
    72,
    56,
    72,
    40,
    17,
    16,
    0,
    0,
    16,
    0,
    0,
    0,
    0,
    1,
    0,
    2,
    9,
];
