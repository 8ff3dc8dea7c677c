// SPDX-License-Identifier: BSD-2-Clause OR GPL-2.0-or-later
//! A board slot by slot.

use super::leaf_path;
use crate::escape::for_terminal;
use crate::tables::Tables;
use sunderwath::Row;

/// One line for each slot: the path of its leaf, or a hyphen where no processor has it.
pub fn slots(tables: &Tables, slots: &[Option<Row>]) -> String {
    let width = slots.len().saturating_sub(1).to_string().len();
    let mut text = String::new();
    for (slot, row) in slots.iter().enumerate() {
        let leaf = match row {
            Some(row) => for_terminal(&leaf_path(tables, row.leaf)),
            None => "-".into(),
        };
        text.push_str(&format!("{slot:<width$} {leaf}\n"));
    }
    text
}
