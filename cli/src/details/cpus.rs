// SPDX-License-Identifier: BSD-2-Clause OR GPL-2.0-or-later
//! The cpu nodes: 10 to 13, 15, 17 and 26.

use super::value::{counted, number, one_cell, shown};
use super::Told;
use crate::kind::Wording;
use crate::tables::Tables;
use sunderwath::Kind;

pub fn count(tables: &Tables) -> String {
    counted(tables.cpus().count(), "cpu node")
}

pub fn device_type(told: &Told, property: u32) -> String {
    format!("device_type is {}", shown(told.tables.value(property)))
}

/// The bits that `reg` may have.
fn affinity_bits(cells: usize) -> u64 {
    match cells {
        1 => 0xFF_FFFF,
        _ => 0xFF_00FF_FFFF,
    }
}

/// How many cells `reg` has to have.
fn address_cells(tables: &Tables) -> usize {
    let value = tables.find_value(0, "#address-cells").map(number);
    value.unwrap_or(0) as usize
}

/// Of a hart id only the length can be wrong.
pub fn reg(told: &Told, property: u32) -> String {
    let value = told.tables.value(property);
    let cells = address_cells(told.tables);
    let wanted = 4 * cells;
    if value.len() != wanted {
        let length = counted(value.len(), "byte");
        return format!("reg has {length}; #address-cells {cells} asks for {wanted}");
    }
    let bits = affinity_bits(cells);
    format!("reg {:#x} has bits outside {bits:#x}", number(value))
}

/// The lowest cpu node before the place with the same value.
fn earlier<'a>(told: &Told<'a>, name: &'a str, value: &'a [u8]) -> Option<u32> {
    let tables = told.tables;
    let mut before = tables.cpus().take_while(|&cpu| cpu < told.refusal.place);
    before.find(|&cpu| tables.find_value(cpu, name) == Some(value))
}

/// The path of an earlier node, unless the node at the place has the same.
fn earlier_path(told: &Told, cpu: u32) -> String {
    let path = told.tables.path(cpu);
    if path == told.tables.path(told.refusal.place) {
        return "an earlier node with this path".to_string();
    }
    path
}

pub fn same_reg(told: &Told) -> Option<String> {
    let value = told.tables.find_value(told.refusal.place, "reg")?;
    let path = earlier_path(told, earlier(told, "reg", value)?);
    let id = told.kind.id_text(number(value));
    Some(match told.kind {
        Kind::Arm32 | Kind::Arm64 => format!("reg {id} is that of {path}"),
        Kind::Riscv => format!("hart id {id} is that of {path}"),
    })
}

pub fn phandle(told: &Told, property: u32) -> String {
    let phandle = match one_cell(told.tables, property) {
        Ok(phandle) => phandle,
        Err(length) => return length,
    };
    match earlier(told, "phandle", told.tables.value(property)) {
        Some(cpu) => format!(
            "phandle {phandle:#x} is that of {}",
            earlier_path(told, cpu)
        ),
        None if phandle == 0 => "phandle is 0".to_string(),
        None => format!("phandle is {phandle:#x}"),
    }
}

/// For a cpu node that no leaf names.
pub fn own_phandle(told: &Told) -> Option<String> {
    let value = told.tables.find_value(told.refusal.place, "phandle")?;
    Some(format!("its phandle is {:#x}", number(value)))
}
