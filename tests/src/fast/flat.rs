// SPDX-License-Identifier: BSD-2-Clause OR GPL-2.0-or-later
//! A flattened devicetree into the tables of its `/cpus` node: one pass over
//! the cells checks and counts, a second one over `/cpus` alone fills.

use super::board::read_tables;
use super::chunks::{chunks, chunks_mut};
use crate::answer::Answer;

const MAGIC: usize = 0xD00D_FEED;
const VERSION: usize = 17;
const HEADER_BYTES: usize = 40;
const BLOB_LIMIT: usize = 65536;

const BEGIN_NODE: u32 = 1;
const END_NODE: u32 = 2;
const PROP: u32 = 3;
const NOP: u32 = 4;
const END: u32 = 9;

const NONE: u32 = u32::MAX;

/// Number, place, node records and property records.
pub type FlatAnswer = [u32; 4];

struct Blob<'a> {
    bytes: &'a [u8],
    /// The structure block, and the offset it has.
    cells: &'a [[u8; 4]],
    start: usize,
    strings: usize,
    /// Names that start before this place have a zero byte in the block.
    named: usize,
}

/// What the first pass finds of `/cpus`.
#[derive(Default)]
struct Found {
    /// Children of the root that have the name, and the cell of the last one.
    cpus: usize,
    first: usize,
    nodes: usize,
    props: usize,
}

/// The high bit of the first zero byte is the lowest one set.
fn zeros(word: u64) -> u64 {
    word.wrapping_sub(0x0101_0101_0101_0101) & !word & 0x8080_8080_8080_8080
}

/// Bytes before the first zero byte.
fn length(bytes: &[u8]) -> usize {
    let (chunks, rest) = chunks::<_, 8>(bytes);
    for (at, &chunk) in chunks.iter().enumerate() {
        let zeros = zeros(u64::from_le_bytes(chunk));
        if zeros != 0 {
            return 8 * at + zeros.trailing_zeros() as usize / 8;
        }
    }
    let tail = rest.iter().take_while(|&&byte| byte != 0).count();
    8 * chunks.len() + tail
}

/// Rules 31 and 32.
fn open(bytes: &[u8]) -> Result<Blob<'_>, u32> {
    let header = chunks(bytes.get(..HEADER_BYTES).ok_or(31u32)?).0;
    let word = |at: usize| u32::from_be_bytes(header[at]) as usize;
    let (magic, total) = (word(0), word(1));
    let sized = (HEADER_BYTES..=bytes.len()).contains(&total);
    if bytes.len() > BLOB_LIMIT || magic != MAGIC || !sized {
        return Err(31);
    }
    if word(5) < VERSION || word(6) > VERSION {
        return Err(31);
    }
    let (start, size) = (word(2), word(9));
    let (strings, length) = (word(3), word(8));
    let aligned = (start | size) % 4 == 0;
    if start + size > total || strings + length > total || !aligned {
        return Err(32);
    }
    let names = &bytes[strings..strings + length];
    Ok(Blob {
        bytes,
        cells: chunks(&bytes[start..start + size]).0,
        start,
        strings,
        named: names.iter().rposition(|&b| b == 0).map_or(0, |at| at + 1),
    })
}

impl Blob<'_> {
    fn offset(&self, cell: usize) -> u32 {
        (self.start + 4 * cell) as u32
    }

    /// Length of a node's name that starts at a cell, and the cell behind it.
    fn node_name(&self, from: usize) -> Option<(usize, usize)> {
        for (at, &cell) in self.cells.get(from..)?.iter().enumerate() {
            let zeros = zeros(u64::from(u32::from_le_bytes(cell)) | !0 << 32);
            if zeros != 0 {
                let length = 4 * at + zeros.trailing_zeros() as usize / 8;
                return Some((length, from + at + 1));
            }
        }
        None
    }

    /// Offset of a property's name, size of its value, and the next cell.
    fn property(&self, at: usize) -> Option<(usize, usize, usize)> {
        let cells = self.cells[at..].get(1..3)?;
        let size = u32::from_be_bytes(cells[0]) as usize;
        let name = u32::from_be_bytes(cells[1]) as usize;
        let next = at + 3 + (size + 3) / 4;
        let sound = next <= self.cells.len() && name < self.named;
        sound.then_some((self.strings + name, size, next))
    }

    fn is_cpus(&self, from: usize) -> bool {
        matches!(self.cells[from..], [[b'c', b'p', b'u', b's'], [0, ..], ..])
    }

    /// Rule 33, or the cell where the stream breaks.
    fn survey(&self) -> Result<Found, usize> {
        let mut found = Found::default();
        let (mut at, mut depth, mut inside) = (0, 0usize, 0);
        // A property may come, or outside every node the root.
        let mut fresh = true;
        while at < self.cells.len() {
            match u32::from_be_bytes(self.cells[at]) {
                BEGIN_NODE if fresh || depth != 0 => {
                    let (_, next) = self.node_name(at + 1).ok_or(at)?;
                    if depth == 1 {
                        inside = usize::from(self.is_cpus(at + 1));
                        found.cpus += inside;
                        found.first = if inside == 1 { at } else { found.first };
                    }
                    found.nodes += inside;
                    (at, depth, fresh) = (next, depth + 1, true);
                }
                END_NODE if depth != 0 => (at, depth, fresh) = (at + 1, depth - 1, false),
                PROP if fresh && depth != 0 => {
                    (_, _, at) = self.property(at).ok_or(at)?;
                    found.props += inside;
                }
                NOP => at += 1,
                END if !fresh && depth == 0 => {
                    let last = at + 1 == self.cells.len();
                    return if last { Ok(found) } else { Err(at + 1) };
                }
                _ => return Err(at),
            }
        }
        Err(at)
    }

    /// Fills both tables from the cell where `/cpus` begins.
    fn fill(&self, first: usize, nodes: &mut [[u32; 3]], props: &mut [[u32; 5]]) -> Option<()> {
        let mut props = props.iter_mut();
        let (mut at, mut count, mut open) = (first, 0, NONE);
        loop {
            match u32::from_be_bytes(self.cells[at]) {
                BEGIN_NODE => {
                    let (length, next) = self.node_name(at + 1)?;
                    nodes[count] = [open, self.offset(at + 1), length as u32];
                    open = count as u32;
                    count += 1;
                    at = next;
                }
                END_NODE => {
                    open = nodes[open as usize][0];
                    if open == NONE {
                        return Some(());
                    }
                    at += 1;
                }
                PROP => {
                    let (name, size, next) = self.property(at)?;
                    let length = length(&self.bytes[name..]) as u32;
                    let value = self.offset(at + 3);
                    *props.next()? = [open, name as u32, length, value, size as u32];
                    at = next;
                }
                _ => at += 1,
            }
        }
    }
}

/// The answer of a blob's board: first its tables, then their rows.
pub fn read_blob(
    width: u32,
    bytes: &[u8],
    nodes: &mut [u32],
    props: &mut [u32],
    rows: &mut [u32],
) -> Answer {
    let [number, place, n, p] = read_flat(bytes, nodes, props);
    if number != 0 {
        return Answer::refusal(number, place as usize);
    }
    let (nodes, props) = (&nodes[..3 * n as usize], &props[..5 * p as usize]);
    read_tables(width, nodes, props, bytes, rows)
}

/// The answer of a blob; the tables are written on acceptance alone.
pub fn read_flat(bytes: &[u8], nodes: &mut [u32], props: &mut [u32]) -> FlatAnswer {
    let blob = match open(bytes) {
        Ok(blob) => blob,
        Err(number) => return [number, 0, 0, 0],
    };
    let found = match blob.survey() {
        Ok(found) => found,
        Err(cell) => return [33, blob.offset(cell), 0, 0],
    };
    if found.cpus != 1 {
        return [34, 0, 0, 0];
    }
    let node_room = chunks_mut(nodes).get_mut(..found.nodes);
    let prop_room = chunks_mut(props).get_mut(..found.props);
    let whole = match (node_room, prop_room) {
        (Some(nodes), Some(props)) => blob.fill(found.first, nodes, props),
        _ => return [35, 0, 0, 0],
    };
    debug_assert!(whole.is_some(), "the first pass found it sound");
    [0, 0, found.nodes as u32, found.props as u32]
}
