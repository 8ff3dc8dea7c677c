// SPDX-License-Identifier: BSD-2-Clause OR GPL-2.0-or-later
//! How often each number was told of boards, with a property record and without.

use crate::answer::{Answer, NO_PROPERTY, SHORT_ANSWER};
use crate::build::property_faults::NEEDED;
use crate::second::SLOT_NUMBERS;
use std::collections::{BTreeMap, BTreeSet};

/// The numbers that read_tables tells.
pub fn numbers() -> impl Iterator<Item = u32> {
    (1..=27).filter(|&number| number != 14).chain([36, 37])
}

/// The numbers that read_tables_slots tells, with 49 of a short answer.
pub fn slot_numbers() -> impl Iterator<Item = u32> {
    numbers().chain(SLOT_NUMBERS).chain([SHORT_ANSWER])
}

/// The numbers that read_blob tells, with 49 of a short answer. A blob's tables
/// are whole, not too long and depth first, each value lies in the blob, and
/// record 0 is named `cpus`: 2, 3, 4, 6 and 9 are not told.
pub fn blob_numbers() -> impl Iterator<Item = u32> {
    let of_board = numbers().filter(|number| ![2, 3, 4, 6, 9].contains(number));
    (31..=35).chain(of_board).chain([SHORT_ANSWER])
}

/// Answers by number, and by whether they have a property record.
#[derive(Default)]
pub struct Counts(BTreeMap<(u32, bool), usize>);

impl Counts {
    pub fn add(&mut self, answer: &Answer) {
        let key = (answer.number, answer.second != NO_PROPERTY);
        *self.0.entry(key).or_default() += 1;
    }

    fn of_sort(&self, number: u32, with_property: bool) -> usize {
        self.0.get(&(number, with_property)).copied().unwrap_or(0)
    }

    pub fn of(&self, number: u32) -> usize {
        self.of_sort(number, false) + self.of_sort(number, true)
    }

    /// The numbers that were told, rising.
    pub fn told(&self) -> BTreeSet<u32> {
        self.0.keys().map(|&(number, _)| number).collect()
    }

    /// Whether the numbers with a second place were told both where the property
    /// is there and where it is missing.
    pub fn second_places(&self) -> bool {
        let both = |number| self.of_sort(number, false) > 0 && self.of_sort(number, true) > 0;
        NEEDED.iter().all(|needed| both(needed.number))
    }

    /// Whether every number was told, and these in both ways.
    pub fn complete(&self) -> bool {
        numbers().all(|number| self.of(number) > 0) && self.second_places()
    }

    /// The same of boards of one width that rule 1 allows.
    pub fn complete_but_width(&self) -> bool {
        let mut others = numbers().filter(|&number| number != 1);
        others.all(|number| self.of(number) > 0) && self.second_places()
    }

    /// A line for each number of read_tables that was told, with 0 for acceptance,
    /// and then the numbers that were not told.
    pub fn lines(&self) -> String {
        self.lines_of(numbers())
    }

    /// The same of some numbers.
    pub fn lines_of(&self, numbers: impl Iterator<Item = u32>) -> String {
        let line = |number: u32| {
            let with = match self.of_sort(number, true) {
                0 => String::new(),
                with => format!(", {with} with a property record"),
            };
            format!("number {number:>2}: {}{with}\n", self.of(number))
        };
        let all = std::iter::once(0).chain(numbers);
        let (told, other): (Vec<u32>, Vec<u32>) = all.partition(|&number| self.of(number) > 0);
        let told: String = told.into_iter().map(line).collect();
        format!("{told}not told: {other:?}")
    }
}
