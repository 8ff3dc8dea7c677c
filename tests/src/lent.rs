// SPDX-License-Identifier: BSD-2-Clause OR GPL-2.0-or-later
//! Lent parts of bytes, words or MPIDRs, each between elements that have to
//! stay.

use std::fmt::LowerHex;

/// Elements before and behind a part; more bytes than a row has.
const GUARD: usize = 64;

/// What a part can be of.
pub trait Element: Copy + PartialEq + LowerHex {
    /// The element whose bytes are all the same.
    fn of(byte: u8) -> Self;
}

impl Element for u8 {
    fn of(byte: u8) -> u8 {
        byte
    }
}

impl Element for u32 {
    fn of(byte: u8) -> u32 {
        u32::from_ne_bytes([byte; 4])
    }
}

impl Element for u64 {
    fn of(byte: u8) -> u64 {
        u64::from_ne_bytes([byte; 8])
    }
}

/// A part. It starts so many elements behind a multiple of eight bytes.
#[derive(Clone, PartialEq, Eq)]
pub struct Part<T = u8> {
    all: Vec<T>,
    from: usize,
    length: usize,
}

/// What stands in a part before the call, and around it: any bytes but 0 and 255.
fn filling(at: usize, seed: usize) -> u8 {
    let mixed = (at + 31 * seed + 7).wrapping_mul(0x9E37_79B1) >> 13;
    1 + (mixed % 254) as u8
}

impl<T: Element> Part<T> {
    pub fn new(length: usize, start: usize) -> Part<T> {
        let all = 0..2 * GUARD + length + start;
        Part {
            all: all.map(|at| T::of(filling(at, start))).collect(),
            from: GUARD + start,
            length,
        }
    }

    /// A part that is all of some elements.
    pub fn of(elements: &[T], start: usize) -> Part<T> {
        let mut part = Part::new(elements.len(), start);
        part.write(elements);
        part
    }

    pub fn lent(&self) -> &[T] {
        &self.all[self.from..self.from + self.length]
    }

    pub fn lent_mut(&mut self) -> &mut [T] {
        &mut self.all[self.from..self.from + self.length]
    }

    /// Writes elements from the part's start.
    pub fn write(&mut self, elements: &[T]) {
        self.lent_mut()[..elements.len()].copy_from_slice(elements);
    }

    /// The first element that is not as wanted, counted from the part's start.
    pub fn difference(&self, name: &str, wanted: &Part<T>) -> Option<String> {
        if self == wanted {
            return None;
        }
        let mut all = 0..self.all.len().min(wanted.all.len());
        let at = all.find(|&at| self.all[at] != wanted.all[at])?;
        let place = at as isize - self.from as isize;
        let (told, wanted) = (self.all[at], wanted.all[at]);
        Some(format!(
            "element {place} of the {name}: library {told:#04x}, second reader {wanted:#04x}"
        ))
    }
}

#[cfg(test)]
mod tests {
    use super::*;

    fn every_change_is_seen<T: Element>() {
        for start in 0..8 {
            let part: Part<T> = Part::new(10, start);
            assert_eq!(part.difference("part", &part.clone()), None);
            for at in 0..part.all.len() {
                for byte in [0, 0xFF] {
                    let mut other = part.clone();
                    other.all[at] = T::of(byte);
                    assert!(other.difference("part", &part).is_some());
                }
            }
        }
    }

    #[test]
    fn every_changed_element_is_seen() {
        every_change_is_seen::<u8>();
        every_change_is_seen::<u32>();
        every_change_is_seen::<u64>();
    }
}
