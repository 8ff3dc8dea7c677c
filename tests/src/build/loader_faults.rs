// SPDX-License-Identifier: BSD-2-Clause OR GPL-2.0-or-later
//! Boards with one fault each, as far as a blob can have it: the number, the
//! place and the property record that are told.

use super::faults::{base, faults, Change};
use super::property_faults::{self, second_place};
use super::shapes::fill_up;
use super::worked::{cpus_node, whole_case};
use super::{Board, Node};
use crate::answer::Answer;
use crate::width::{ARM64, WIDTHS};

/// A cpus node that is refused when read with a width.
pub struct TreeFault {
    pub answer: Answer,
    pub width: u32,
    pub what: String,
    pub cpus: Node,
}

impl TreeFault {
    fn new(number: u32, place: usize, what: &str, cpus: Node) -> TreeFault {
        let second = second_place(&Board::of(ARM64, &cpus), number, place);
        TreeFault {
            answer: Answer::refusal(number, place).of_property(second),
            width: ARM64,
            what: what.to_string(),
            cpus,
        }
    }

    fn on(self, width: u32) -> TreeFault {
        TreeFault { width, ..self }
    }
}

/// Faults of all numbers from 5 to 26, 36 and 37 that a blob can have, on each
/// board.
pub fn tree_faults() -> Vec<TreeFault> {
    let mut list = Vec::new();
    for width in WIDTHS {
        let of_all = [of_names(), of_repeats(), of_counts(), of_base(width)];
        let of_all = of_all.into_iter().flatten();
        list.extend(of_all.map(|fault| fault.on(width)));
    }
    for fault in property_faults::faults() {
        let needed = fault.needed;
        let what = format!("{} {}", needed.name, fault.what);
        let told = |&width: &u32| {
            TreeFault::new(needed.number, needed.record, &what, fault.tree()).on(width)
        };
        list.extend(fault.widths.iter().map(told));
    }
    list
}

/// The faults made on one board.
fn of_base(width: u32) -> Vec<TreeFault> {
    let mut list = Vec::new();
    for fault in faults(width) {
        // A node of another name is not the one that is read.
        if let (Change::Tree(change), true) = (fault.change, fault.number != 9) {
            let mut cpus = base(width);
            change(&mut cpus);
            list.push(TreeFault::new(fault.number, fault.place, fault.what, cpus));
        }
    }
    list
}

/// 5 and 7: names of no bytes and of too many.
fn of_names() -> Vec<TreeFault> {
    let mut list = Vec::new();
    for length in [0, 65, 66, 300] {
        for record in [1, 2, 6] {
            let mut cpus = whole_case();
            cpus.at(record).name = vec![b'n'; length];
            list.push(TreeFault::new(5, record, "a node's name", cpus));
        }
    }
    for length in [0, 32, 33, 100] {
        // The last property of records 0, 3 and 6 of the whole case.
        for (record, place) in [(0, 2), (3, 3), (6, 10)] {
            let mut cpus = whole_case();
            let prop = (vec![b'p'; length], vec![1, 2, 3]);
            cpus.at(record).props.push(prop);
            list.push(TreeFault::new(7, place, "a property's name", cpus));
        }
    }
    list
}

/// 8: each property once more, behind the last one of its node.
fn of_repeats() -> Vec<TreeFault> {
    let mut list = Vec::new();
    for (record, props, behind) in [(0, 2, 2), (3, 1, 3), (4, 1, 4), (5, 3, 7), (6, 3, 10)] {
        for at in 0..props {
            let mut cpus = whole_case();
            let again = cpus.at(record).props[at].clone();
            cpus.at(record).props.push(again);
            list.push(TreeFault::new(8, behind, "a property twice", cpus));
        }
    }
    list
}

/// 10: no cpu at all, and 257 of them.
fn of_counts() -> Vec<TreeFault> {
    let mut many = cpus_node(1);
    many.children = vec![Node::new("cpu"); 257];
    let alone = cpus_node(1);
    let mut others = cpus_node(1);
    fill_up(&mut others, 1024, 1024);
    vec![
        TreeFault::new(10, 0, "257 cpus", many),
        TreeFault::new(10, 0, "no child", alone),
        TreeFault::new(10, 0, "other children", others),
    ]
}
