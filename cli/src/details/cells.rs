// SPDX-License-Identifier: BSD-2-Clause OR GPL-2.0-or-later
//! The cell counts of the cpus node: 36 and 37.

use super::value::one_cell;
use super::Told;
use crate::kind::Wording;
use sunderwath::Kind;

/// The counts that a kind of board allows.
fn allowed(kind: Kind) -> String {
    let counts = if kind == Kind::Arm64 { "1 or 2" } else { "1" };
    format!("board {} allows {counts}", kind.name())
}

pub fn address_cells(told: &Told, property: u32) -> String {
    match one_cell(told.tables, property) {
        Ok(value) => format!("#address-cells is {value}; {}", allowed(told.kind)),
        Err(length) => length,
    }
}

pub fn size_cells(told: &Told, property: u32) -> String {
    match one_cell(told.tables, property) {
        Ok(value) => format!("#size-cells is {value}, not 0"),
        Err(length) => length,
    }
}
