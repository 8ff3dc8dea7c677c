// SPDX-License-Identifier: BSD-2-Clause OR GPL-2.0-or-later
//! A property that is missing, and what may stand there in its place.

use super::near::near;
use super::value::listed;
use super::Told;
use sunderwath::Rule;

/// `no property cpu (it has cpu0)`. Leaves have few properties, so all are listed; other nodes have many, and only names that
/// are near the missing one are.
pub fn missing(told: &Told, name: &str) -> String {
    let properties = told.tables.properties(told.refusal.place);
    let names = properties.map(|property| told.tables.property_name(property));
    let leaf = told.refusal.rule == Rule::CpuMapPhandle;
    let hints: Vec<String> = names.filter(|other| leaf || near(name, other)).collect();
    match (hints.is_empty(), leaf) {
        (true, true) => format!("no property {name} (it has no properties)"),
        (true, false) => format!("no property {name}"),
        (false, _) => format!("no property {name} (it has {})", listed(&hints)),
    }
}
