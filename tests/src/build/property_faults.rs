// SPDX-License-Identifier: BSD-2-Clause OR GPL-2.0-or-later
//! Boards with a fault in one property: missing, of a wrong length, of a wrong
//! value. Properties of the same name stand at other nodes too.

use super::worked::whole_case;
use super::{cell, Board, Node};
use crate::answer::NO_PROPERTY;
use crate::width::{ARM32, ARM64, RISCV};

/// A number with the property that it speaks of, and the record where `faults`
/// break it.
pub struct Needed {
    pub number: u32,
    pub record: usize,
    pub name: &'static str,
}

/// The numbers that have a second place.
pub const NEEDED: [Needed; 6] = [
    needed(36, 0, "#address-cells"),
    needed(37, 0, "#size-cells"),
    needed(11, 6, "device_type"),
    needed(12, 6, "reg"),
    needed(17, 6, "phandle"),
    needed(24, 4, "cpu"),
];

const fn needed(number: u32, record: usize, name: &'static str) -> Needed {
    Needed {
        number,
        record,
        name,
    }
}

/// Names that only begin alike.
const CLOSE: [(usize, &str); 7] = [
    (0, "#address-cell"),
    (0, "#size-cells0"),
    (4, "cpu0"),
    (6, "device_typ"),
    (6, "regs"),
    (6, "reg-names"),
    (6, "phandle0"),
];

/// The whole case with a node more, and with all these properties at each node,
/// also where none is asked for.
pub fn base() -> Node {
    let mut root = whole_case().child(Node::new("cache"));
    for record in 0..root.count() {
        for needed in &NEEDED {
            root.at(record).add(needed.name, cell(77));
        }
    }
    for (record, name) in CLOSE {
        root.at(record).set(name, cell(1));
    }
    root
}

/// A property of `base` that is missing, or has a wrong value.
pub struct PropertyFault {
    pub needed: &'static Needed,
    /// The boards on which it is a fault.
    pub widths: &'static [u32],
    pub what: &'static str,
    pub value: Option<&'static [u8]>,
}

impl PropertyFault {
    pub fn tree(&self) -> Node {
        let mut root = base();
        self.apply(&mut root);
        root
    }

    pub fn apply(&self, root: &mut Node) {
        let node = root.at(self.needed.record);
        match self.value {
            Some(value) => node.set(self.needed.name, value),
            None => node.remove(self.needed.name),
        }
    }
}

/// The first three of each number are a missing property, a wrong length and a
/// wrong value.
pub fn faults() -> Vec<PropertyFault> {
    let of = |needed: &'static Needed| {
        let fault = move |&(what, value)| PropertyFault {
            needed,
            widths: widths(what),
            what,
            value,
        };
        values(needed.number).iter().map(fault)
    };
    NEEDED.iter().flat_map(of).collect()
}

const TWO_CELLS: &str = "2 on width 32";
const TWO_CELLS_OF_A_HART: &str = "2 on a RISC-V board";

/// Values of `reg` that a hart may have.
const HIGH_BIT: &str = "with a bit outside the affinity bits";
const HIGHEST_BIT: &str = "with bit 31";
const ONES: &str = "of ones";

fn widths(what: &str) -> &'static [u32] {
    match what {
        TWO_CELLS => &[ARM32],
        TWO_CELLS_OF_A_HART => &[RISCV],
        HIGH_BIT | HIGHEST_BIT | ONES => &[ARM64, ARM32],
        _ => &[ARM64, ARM32, RISCV],
    }
}

type Value = (&'static str, Option<&'static [u8]>);

fn values(number: u32) -> &'static [Value] {
    match number {
        36 => &ADDRESS_CELLS,
        37 => &SIZE_CELLS,
        11 => &DEVICE_TYPES,
        12 => &REGS,
        17 => &PHANDLES,
        _ => &CPUS,
    }
}

const ADDRESS_CELLS: [Value; 11] = [
    ("missing", None),
    ("of three bytes", Some(&[0, 0, 1])),
    (TWO_CELLS, Some(&[0, 0, 0, 2])),
    ("of no bytes", Some(&[])),
    ("of five bytes", Some(&[0, 0, 0, 1, 0])),
    ("of eight bytes", Some(&[0, 0, 0, 0, 0, 0, 0, 1])),
    ("0", Some(&[0, 0, 0, 0])),
    ("3", Some(&[0, 0, 0, 3])),
    ("with a higher byte", Some(&[0, 0, 1, 1])),
    ("little-endian", Some(&[1, 0, 0, 0])),
    (TWO_CELLS_OF_A_HART, Some(&[0, 0, 0, 2])),
];

const SIZE_CELLS: [Value; 7] = [
    ("missing", None),
    ("of eight bytes", Some(&[0; 8])),
    ("1", Some(&[0, 0, 0, 1])),
    ("of no bytes", Some(&[])),
    ("of three bytes", Some(&[0; 3])),
    ("of five bytes", Some(&[0; 5])),
    ("with a higher byte", Some(&[1, 0, 0, 0])),
];

const DEVICE_TYPES: [Value; 7] = [
    ("missing", None),
    ("without a zero byte", Some(b"cpu")),
    ("CPU", Some(b"CPU\0")),
    ("of no bytes", Some(b"")),
    ("with two zero bytes", Some(b"cpu\0\0")),
    ("cpu0", Some(b"cpu0\0")),
    ("with another last byte", Some(b"cpux")),
];

const REGS: [Value; 8] = [
    ("missing", None),
    ("of two cells", Some(&[0, 0, 0, 0, 0, 0, 1, 0])),
    (HIGH_BIT, Some(&[1, 0, 1, 0])),
    ("of no bytes", Some(&[])),
    ("of three bytes", Some(&[0, 1, 0])),
    ("of five bytes", Some(&[0, 0, 1, 0, 0])),
    (HIGHEST_BIT, Some(&[0x80, 0, 1, 0])),
    (ONES, Some(&[0xFF; 4])),
];

const PHANDLES: [Value; 8] = [
    ("missing", None),
    ("of five bytes", Some(&[0, 0, 0, 2, 0])),
    ("of an earlier cpu", Some(&[0, 0, 0, 1])),
    ("of no bytes", Some(&[])),
    ("of three bytes", Some(&[0, 0, 2])),
    ("of eight bytes", Some(&[0, 0, 0, 0, 0, 0, 0, 2])),
    ("0", Some(&[0; 4])),
    ("0xffffffff", Some(&[0xFF; 4])),
];

const CPUS: [Value; 9] = [
    ("missing", None),
    ("of three bytes", Some(&[0, 0, 1])),
    ("that is a phandle of no cpu", Some(&[0, 0, 0, 77])),
    ("of no bytes", Some(&[])),
    ("of five bytes", Some(&[0, 0, 0, 1, 0])),
    ("of two phandles", Some(&[0, 0, 0, 1, 0, 0, 0, 2])),
    ("that is no phandle", Some(&[0, 0, 0, 99])),
    ("0", Some(&[0; 4])),
    ("0xffffffff", Some(&[0xFF; 4])),
];

/// The second place for a number at a record of a board.
pub fn second_place(board: &Board, number: u32, record: usize) -> u32 {
    let needed = NEEDED.iter().find(|needed| needed.number == number);
    needed
        .and_then(|needed| board.property(record, needed.name))
        .map_or(NO_PROPERTY, |property| property as u32)
}
