// SPDX-License-Identifier: BSD-2-Clause OR GPL-2.0-or-later
//! The rows of an accepted board.

use super::hash;
use super::rules::{reg, told};
use super::tables::{Kind, Tables};
use crate::answer::Answer;
use crate::width::RISCV;

/// Words of a row.
pub const ROW_WORDS: usize = 12;
const GAP: u32 = u32::MAX;
const NO_RULE_AFTER: u32 = 27;

/// The whole job: the answer, and the rows (none in a refusal).
pub fn read(tables: &Tables) -> (Answer, Vec<u32>) {
    if let Some(refusal) = told(tables, NO_RULE_AFTER) {
        return (refusal, Vec::new());
    }
    let slots = Slots::of(tables);
    let answer = Answer {
        count: tables.cpus().len() as u32,
        ..slots.accepted()
    };
    let rows = (1..tables.node_count())
        .filter(|&r| tables.is_leaf(r))
        .flat_map(|leaf| row(tables, &slots, leaf))
        .collect();
    (answer, rows)
}

/// Where slots come from: there is no MPIDR on a RISC-V board, and so no slot.
enum Slots {
    Mask(u64),
    Gaps,
}

impl Slots {
    fn of(tables: &Tables) -> Slots {
        if tables.width == RISCV {
            return Slots::Gaps;
        }
        let mpidrs: Vec<u64> = tables.cpus().iter().map(|&c| mpidr(tables, c)).collect();
        Slots::Mask(hash::mask(&mpidrs))
    }

    /// Mask, shifts and bits of an accepted board.
    fn accepted(&self) -> Answer {
        match *self {
            Slots::Mask(mask) => hash::accepted(mask),
            Slots::Gaps => Answer {
                mask: 0,
                shifts: [0, 8, 16, 32],
                bits: 0,
                ..Answer::default()
            },
        }
    }

    /// Word 11 of the row of a cpu record.
    fn slot(&self, tables: &Tables, cpu: usize) -> u32 {
        match *self {
            Slots::Mask(mask) => hash::slot(mask, mpidr(tables, cpu)),
            Slots::Gaps => GAP,
        }
    }
}

fn mpidr(tables: &Tables, cpu: usize) -> u64 {
    let (upper, lower) = reg(tables, cpu).expect("rule 12 holds");
    u64::from(upper) << 32 | u64::from(lower)
}

/// Numbers of the ancestors of a kind, outermost first.
fn ancestor_numbers(tables: &Tables, leaf: usize, kind: Kind) -> Vec<u32> {
    let mut numbers: Vec<u32> = tables
        .ancestors(leaf)
        .filter_map(|a| tables.topology(a))
        .filter(|&(k, _)| k == kind)
        .map(|(_, number)| number)
        .collect();
    numbers.reverse();
    numbers
}

fn row(tables: &Tables, slots: &Slots, leaf: usize) -> [u32; ROW_WORDS] {
    let cpu = tables.cpu_of(leaf).expect("rule 24 holds");
    let (upper, lower) = reg(tables, cpu).expect("rule 12 holds");
    let (kind, number) = tables.topology(leaf).expect("a leaf has a topology name");
    let first = |kind| {
        ancestor_numbers(tables, leaf, kind)
            .first()
            .copied()
            .unwrap_or(GAP)
    };
    let (core, thread) = match kind {
        Kind::Thread => (first(Kind::Core), number),
        _ => (number, GAP),
    };
    let clusters = ancestor_numbers(tables, leaf, Kind::Cluster);
    let path = [0, 1, 2, 3].map(|depth| clusters.get(depth).copied().unwrap_or(GAP));
    let slot = slots.slot(tables, cpu);
    let [c0, c1, c2, c3] = path;
    let socket = first(Kind::Socket);
    [
        leaf as u32,
        cpu as u32,
        upper,
        lower,
        socket,
        c0,
        c1,
        c2,
        c3,
        core,
        thread,
        slot,
    ]
}
