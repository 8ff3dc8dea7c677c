// SPDX-License-Identifier: BSD-2-Clause OR GPL-2.0-or-later
//! What stands at the place of a refusal and what would be right, in words. Which record and which property that is says the
//! library's answer; only what the answer does not name is looked up.

mod cells;
mod cpus;
mod hash;
mod map;
mod missing;
mod near;
mod siblings;
mod value;

use crate::tables::Tables;
use sunderwath::{Kind, Place, Refusal, Rule};
use value::counted;

/// A refusal, and the board that it was told of.
pub struct Told<'a> {
    pub tables: &'a Tables,
    pub kind: Kind,
    pub refusal: Refusal,
}

impl Told<'_> {
    /// The node at the place, or that of the property there.
    pub fn node(&self) -> u32 {
        let Refusal { rule, place, .. } = self.refusal;
        match rule.place() {
            Place::Property => self.tables.property_node(place),
            _ => place,
        }
    }

    /// The name of the property that the number speaks of, missing or not.
    pub fn property_name(&self) -> Option<String> {
        let record = match self.refusal.rule.place() {
            Place::Property => Some(self.refusal.place),
            _ => self.refusal.property,
        };
        match record {
            Some(property) => Some(self.tables.property_name(property)),
            None => subject(self.refusal.rule).map(String::from),
        }
    }
}

/// The property that a rule with a second place speaks of.
fn subject(rule: Rule) -> Option<&'static str> {
    match rule {
        Rule::CpuDeviceType => Some("device_type"),
        Rule::CpuReg => Some("reg"),
        Rule::CpuPhandle => Some("phandle"),
        Rule::CpuMapPhandle => Some("cpu"),
        Rule::CpusAddressCells => Some("#address-cells"),
        Rule::CpusSizeCells => Some("#size-cells"),
        _ => None,
    }
}

/// For a rule with a second place: the property is missing, or what is wrong with it.
fn of_property(told: &Told, name: &str) -> String {
    let property = match told.refusal.property {
        Some(property) => property,
        None => return missing::missing(told, name),
    };
    match told.refusal.rule {
        Rule::CpuDeviceType => cpus::device_type(told, property),
        Rule::CpuReg => cpus::reg(told, property),
        Rule::CpuPhandle => cpus::phandle(told, property),
        Rule::CpuMapPhandle => map::cpu(told, property),
        Rule::CpusAddressCells => cells::address_cells(told, property),
        _ => cells::size_cells(told, property),
    }
}

/// For a name that may be too short or too long to be seen as such.
fn name_length(name: &[u8]) -> String {
    format!("its name has {}", counted(name.len(), "byte"))
}

/// What stands there, where that helps.
pub fn details(told: &Told) -> Option<String> {
    let tables = told.tables;
    if let Some(name) = subject(told.refusal.rule) {
        return Some(of_property(told, name));
    }
    match told.refusal.rule {
        Rule::NodeTableSize => Some(format!("{} nodes", tables.node_count())),
        Rule::PropertyTableSize => Some(format!("{} properties", tables.property_count())),
        Rule::PoolSize => Some(format!("{} bytes", tables.pool.len())),
        Rule::NodeNameRange => Some(name_length(tables.name_bytes(told.refusal.place))),
        Rule::PropertyRange => Some(name_length(tables.property_name_bytes(told.refusal.place))),
        Rule::CpusNode => Some(format!("its name is {}", tables.name(0))),
        Rule::CpuCount | Rule::CpuMapMissing => Some(cpus::count(tables)),
        Rule::DuplicateCpuReg => cpus::same_reg(told),
        Rule::CpuMapDuplicate => map::first_map(told),
        Rule::CpuMapOrder => Some(siblings::number(tables, told.refusal.place)),
        Rule::CpuMapCpuRepeated => map::same_cpu(told),
        Rule::CpuUnmapped => cpus::own_phandle(told),
        Rule::SlotTableBits => hash::bits(told),
        _ => None,
    }
}

#[cfg(test)]
mod tests {
    use super::*;

    fn told(tables: &Tables, number: u32, place: u32, property: Option<u32>) -> Option<String> {
        details(&Told {
            tables,
            kind: Kind::Arm64,
            refusal: Refusal {
                rule: Rule::from_number(number).unwrap(),
                place,
                property,
            },
        })
    }

    /// No blob has such a board, as its /cpus is found by that name.
    #[test]
    fn name_of_the_cpus_node() {
        let tables = Tables::of_nodes(&[(0, "cpu")]);
        assert_eq!(told(&tables, 9, 0, None).unwrap(), "its name is cpu");
    }

    /// The record at the second place counts, not the first one with the name.
    #[test]
    fn second_place() {
        let tables = Tables::of_nodes(&[(0, "cpus"), (0, "cpu@0")]);
        let tables = tables
            .with(1, "phandle", &[0; 4])
            .with(1, "phandle", &[0; 3]);
        assert_eq!(told(&tables, 17, 1, Some(0)).unwrap(), "phandle is 0");
        let second = told(&tables, 17, 1, Some(1)).unwrap();
        assert_eq!(second, "phandle has 3 bytes, not 4");
    }

    /// What cannot be found is left out.
    #[test]
    fn nothing_to_say() {
        let tables = Tables::of_nodes(&[(0, "cpus"), (0, "cpu@0")]);
        for number in [1, 13, 16, 18, 22, 25, 26, 27, 38, 39, 49] {
            assert_eq!(told(&tables, number, 1, None), None);
        }
    }
}
