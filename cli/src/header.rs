// SPDX-License-Identifier: BSD-2-Clause OR GPL-2.0-or-later
//! The header of a flattened devicetree: what breaks 31 and 32, in words.

use crate::fault::Fault;
use std::ops::Range;
use sunderwath::Rule;

/// No more of a file is read: a pipe may have no end, whatever its header says.
pub const MOST_READ: usize = 64 << 20;
pub const HEADER_BYTES: usize = 40;
pub const MAGIC: u32 = 0xD00D_FEED;
const VERSION: u32 = 17;

/// Offsets of the header's words.
pub const TOTAL_SIZE: usize = 4;
pub const STRUCTURE_OFFSET: usize = 8;
pub const STRINGS_OFFSET: usize = 12;
pub const RESERVATION_OFFSET: usize = 16;
const VERSION_AT: usize = 20;
const LAST_COMPATIBLE: usize = 24;
pub const STRINGS_SIZE: usize = 32;
pub const STRUCTURE_SIZE: usize = 36;

/// The big-endian word at an offset.
pub fn word_at(bytes: &[u8], at: usize) -> Option<u32> {
    let word = bytes.get(at..at.checked_add(4)?)?;
    Some(u32::from_be_bytes(word.try_into().ok()?))
}

/// A word of a header whose bytes are all there.
fn header_word(blob: &[u8], at: usize) -> u32 {
    word_at(blob, at).unwrap_or(0)
}

/// The total size, where a file begins with a header that has one.
pub fn total_size(file: &[u8]) -> Option<usize> {
    let total = header_word(file, TOTAL_SIZE) as usize;
    let sound = file.len() >= HEADER_BYTES && header_word(file, 0) == MAGIC;
    (sound && total >= HEADER_BYTES).then_some(total)
}

/// How many bytes of a file are the blob: its total size, if the file has them.
pub fn blob_length(file: &[u8]) -> usize {
    let length = file.len();
    total_size(file).map_or(length, |total| total.min(length))
}

/// Why the header breaks 31, its length limit left out.
fn header_reason(blob: &[u8]) -> Option<String> {
    let length = blob.len();
    let magic = header_word(blob, 0);
    let total = header_word(blob, TOTAL_SIZE) as usize;
    let version = header_word(blob, VERSION_AT);
    let compatible = header_word(blob, LAST_COMPATIBLE);
    if length < HEADER_BYTES {
        Some(format!(
            "blob of {length} bytes, a header has {HEADER_BYTES}"
        ))
    } else if magic != MAGIC {
        Some(format!("magic {magic:#010x}, not {MAGIC:#010x}"))
    } else if total < HEADER_BYTES {
        Some(format!("total size {total}, a header has {HEADER_BYTES}"))
    } else if total > length && length >= MOST_READ {
        Some(format!(
            "total size {total}, at most {MOST_READ} bytes are read"
        ))
    } else if total > length {
        Some(format!(
            "total size {total} is beyond the file's {length} bytes"
        ))
    } else if version < VERSION {
        Some(format!("version {version}, needs {VERSION}"))
    } else if compatible > VERSION {
        Some(format!(
            "last compatible version {compatible}, knows {VERSION}"
        ))
    } else {
        None
    }
}

/// The bytes of a block, or why it lies outside the total size.
fn block(blob: &[u8], name: &str, offset: usize, size: usize) -> Result<Range<usize>, String> {
    let total = header_word(blob, TOTAL_SIZE);
    let (offset, size) = (header_word(blob, offset), header_word(blob, size));
    if u64::from(offset) + u64::from(size) > u64::from(total) {
        return Err(format!(
            "{name} block at offset {offset:#x} with {size} bytes leaves the total size {total}"
        ));
    }
    let from = offset as usize;
    Ok(from..from + size as usize)
}

/// Where the two blocks lie, counted from the blob's start.
#[derive(Debug, PartialEq, Eq)]
pub struct Blocks {
    pub structure: Range<usize>,
    pub strings: Range<usize>,
}

fn find_blocks(blob: &[u8]) -> Result<Blocks, String> {
    let structure = block(blob, "structure", STRUCTURE_OFFSET, STRUCTURE_SIZE)?;
    let strings = block(blob, "strings", STRINGS_OFFSET, STRINGS_SIZE)?;
    if structure.start % 4 != 0 {
        let offset = structure.start;
        return Err(format!(
            "structure offset {offset:#x} is not a multiple of 4"
        ));
    }
    if structure.len() % 4 != 0 {
        let size = structure.len();
        return Err(format!("structure size {size} is not a multiple of 4"));
    }
    Ok(Blocks { structure, strings })
}

/// The blocks of a blob, or 31 or 32.
pub fn blocks(blob: &[u8]) -> Result<Blocks, Fault> {
    match header_reason(blob) {
        Some(reason) => Err(Fault::of_blob(Rule::BlobHeader, reason)),
        None => find_blocks(blob).map_err(|reason| Fault::of_blob(Rule::BlobBlocks, reason)),
    }
}
