// SPDX-License-Identifier: BSD-2-Clause OR GPL-2.0-or-later
//! The map and its leaves: 16, 24 and 25.

use super::value::{number, one_cell};
use super::Told;

/// The map that the other node of this name stands beside.
pub fn first_map(told: &Told) -> Option<String> {
    let path = told.tables.path(told.tables.map()?);
    if path == told.tables.path(told.refusal.place) {
        return Some("the map is the first one with this path".to_string());
    }
    Some(format!("the map is {path}"))
}

/// The lowest node with this phandle, whatever node it is.
fn owner(told: &Told, phandle: &[u8]) -> Option<u32> {
    let mut nodes = 0..told.tables.node_count() as u32;
    nodes.find(|&node| told.tables.find_value(node, "phandle") == Some(phandle))
}

/// For a leaf whose `cpu` is the phandle of no cpu node.
pub fn cpu(told: &Told, property: u32) -> String {
    let phandle = match one_cell(told.tables, property) {
        Ok(phandle) => phandle,
        Err(length) => return length,
    };
    match owner(told, told.tables.value(property)) {
        Some(node) => {
            let path = told.tables.path(node);
            format!("cpu {phandle:#x} is the phandle of {path}, which is no cpu node")
        }
        None => format!("cpu {phandle:#x} is the phandle of no cpu node"),
    }
}

/// For a leaf whose cpu node is named by an earlier leaf: the lowest that names it.
pub fn same_cpu(told: &Told) -> Option<String> {
    let tables = told.tables;
    let value = tables.find_value(told.refusal.place, "cpu")?;
    let leaf = tables
        .leaves()
        .find(|&leaf| tables.find_value(leaf, "cpu") == Some(value))?;
    let cpu = tables
        .cpus()
        .find(|&cpu| tables.find_value(cpu, "phandle") == Some(value))?;
    let [leaf, cpu] = [leaf, cpu].map(|record| tables.path(record));
    Some(format!("{leaf} names {cpu}, phandle {:#x}", number(value)))
}
