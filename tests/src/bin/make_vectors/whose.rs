// SPDX-License-Identifier: BSD-2-Clause OR GPL-2.0-or-later
//! Which call a byte of `expected` belongs to, for where an archive differs.

use crate::file::{files, CANARY};
use crate::vector::{Part, Vector};

/// Bytes of a part in `expected`, and of that its canaries.
fn sizes(part: &Part) -> (usize, usize) {
    match part {
        Part::WordsAfter(words) => (4 * words.len() + 2 * CANARY, CANARY),
        Part::BytesAfter(bytes) => (bytes.len() + 2 * CANARY, CANARY),
        _ => (4, 0),
    }
}

fn describe(part: &Part) -> String {
    match part {
        Part::Words(words) => format!("{} words", words.len()),
        Part::Mpidrs(list) => format!("{} MPIDRs", list.len()),
        Part::Bytes(bytes) => format!("{} bytes", bytes.len()),
        Part::WordsAfter(words) => format!("{} words that are written", words.len()),
        Part::BytesAfter(bytes) => format!("{} bytes that are written", bytes.len()),
    }
}

/// Prints a call with the part that an offset from its start lies in.
fn print(at: usize, vector: &Vector, mut offset: usize) {
    let (name, asked) = (vector.call.name(), vector.asked);
    println!(
        "call {at}: {name}, asked {asked:#x}, gives back {}",
        vector.number
    );
    if offset < 4 {
        println!("  the byte is one of what is given back");
        return;
    }
    offset -= 4;
    for (place, part) in vector.parts.iter().enumerate() {
        let (size, canary) = sizes(part);
        let here = match offset < size {
            true => format!(", the byte is at {}", offset as isize - canary as isize),
            false => String::new(),
        };
        println!("  part {place}: {}{here}", describe(part));
        if offset < size {
            return;
        }
        offset -= size;
    }
}

pub fn tell(list: &[Vector], offset: usize) -> Result<(), String> {
    let mut from = 0;
    for (at, vector) in list.iter().enumerate() {
        let size = files(std::slice::from_ref(vector)).expected.len();
        if offset < from + size {
            print(at, vector, offset - from);
            return Ok(());
        }
        from += size;
    }
    Err(format!("expected has {from} bytes"))
}
