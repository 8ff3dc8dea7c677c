// SPDX-License-Identifier: BSD-2-Clause OR GPL-2.0-or-later
//! How often each call was made and told each number, and whether each number
//! was told that it can tell.

use crate::vector::{Call, Vector};
use std::collections::{BTreeMap, BTreeSet};
use sunderwath_tests::answer::SHORT_ANSWER;
use sunderwath_tests::counts::{blob_numbers, numbers, slot_numbers};

const HEADER: &str = include_str!("../../../../include/sunderwath.h");

/// What find_property gives back where there is no such property.
const NONE: u32 = u32::MAX;

/// What is counted of find_property, whose answer is no number of a rule.
const FOUND: u32 = 1;
const MISSING: u32 = 0;

/// The fewest boards that the calls have to read.
const FEWEST_BOARDS: usize = 10_000;

#[derive(Default)]
pub struct Tally(BTreeMap<(Call, u32), usize>);

/// The numbers that a call tells.
fn of_call(call: Call) -> BTreeSet<u32> {
    let short = [0, SHORT_ANSWER].into_iter();
    match call {
        Call::ListHash | Call::PlanMake => short.chain([28, 29]).collect(),
        Call::ListSlot | Call::Slot => short.chain([28, 29, 30]).collect(),
        Call::PlanCheck => short.chain([28, 29, 40]).collect(),
        Call::PlanSlot => short.chain([28, 29, 40, 30]).collect(),
        Call::CheckTables => short.chain(1..=8).collect(),
        Call::FindProperty => [FOUND, MISSING].into_iter().collect(),
        Call::ReadTables => short.chain(numbers()).collect(),
        Call::ReadTablesSlots => short.chain(slot_numbers()).collect(),
        Call::ReadFlat => short.chain(31..=35).collect(),
        Call::ReadBlob => short.chain(blob_numbers()).collect(),
    }
}

/// The numbers of the header's enumeration.
fn of_header() -> BTreeSet<u32> {
    let from = HEADER.find("enum sunderwath_number {").unwrap_or(0);
    let lines = HEADER[from..].lines().take_while(|line| *line != "};");
    let value = |line: &str| line.split_once(" = ")?.1.trim_end_matches(',').parse().ok();
    lines.filter_map(value).collect()
}

impl Tally {
    pub fn of(list: &[Vector]) -> Tally {
        let mut tally = Tally::default();
        for vector in list {
            let told = match (vector.call, vector.number) {
                (Call::FindProperty, NONE) => MISSING,
                (Call::FindProperty, _) => FOUND,
                (_, number) => number,
            };
            *tally.0.entry((vector.call, told)).or_default() += 1;
        }
        tally
    }

    /// What a call told, and how often.
    fn told(&self, call: Call) -> impl Iterator<Item = (u32, usize)> + '_ {
        let own = self.0.iter().filter(move |((of, _), _)| *of == call);
        own.map(|(&(_, number), &count)| (number, count))
    }

    /// How often a call was made.
    pub fn calls(&self, call: Call) -> usize {
        self.told(call).map(|(_, count)| count).sum()
    }

    /// A line for each call, with how often it told each number.
    pub fn lines(&self) -> String {
        let mut text = String::new();
        for call in Call::ALL {
            text += &format!("{}: {} calls;", call.name(), self.calls(call));
            for (number, count) in self.told(call) {
                text += &match (call, number) {
                    (Call::FindProperty, FOUND) => format!(" found:{count}"),
                    (Call::FindProperty, _) => format!(" missing:{count}"),
                    _ => format!(" {number}:{count}"),
                };
            }
            text.push('\n');
        }
        text
    }

    /// What is wrong with the numbers that were told, one line for each fault.
    pub fn faults(&self) -> Vec<String> {
        let mut faults = Vec::new();
        let mut all = BTreeSet::new();
        for call in Call::ALL {
            let told: BTreeSet<u32> = self.told(call).map(|(number, _)| number).collect();
            let wanted = of_call(call);
            if told != wanted {
                let name = call.name();
                faults.push(format!("{name} told {told:?}, and not {wanted:?}"));
            }
            if call != Call::FindProperty {
                all.extend(told);
            }
        }
        if all != of_header() {
            faults.push(format!("told {all:?}, in the header {:?}", of_header()));
        }
        let readers = [Call::ReadTables, Call::ReadTablesSlots, Call::ReadBlob];
        let boards: usize = readers.iter().map(|&call| self.calls(call)).sum();
        if boards < FEWEST_BOARDS {
            faults.push(format!("{boards} boards, and not {FEWEST_BOARDS} or more"));
        }
        faults
    }
}
