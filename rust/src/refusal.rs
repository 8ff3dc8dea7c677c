// SPDX-License-Identifier: BSD-2-Clause OR GPL-2.0-or-later
//! Why a call refuses, and where.

use crate::layout::NO_PROPERTY;
use crate::{Place, Rule};
use core::fmt;

/// The first rule broken, and where. Nothing but the answer was written.
#[derive(Clone, Copy, Debug, PartialEq, Eq, Hash)]
pub struct Refusal {
    /// The rule that is broken.
    pub rule: Rule,
    /// Where it is broken: what [`Rule::place`] says.
    pub place: u32,
    /// The record of the property to mend, for the six rules that speak of one property of a node; none where it is missing.
    pub property: Option<u32>,
}

impl Refusal {
    /// What an answer says.
    ///
    /// A number that the header does not have cannot come from an archive of the same version, and nothing true could be said
    /// of it: the panic tells that archive and crate differ.
    pub(crate) fn of(number: u32, place: u32, second: u32) -> Self {
        let rule = Rule::from_number(number).unwrap_or_else(|| {
            panic!("libsunderwath.a tells {number}, unknown to this crate: their versions differ")
        });
        Refusal {
            rule,
            place,
            property: (second != NO_PROPERTY).then_some(second),
        }
    }

    /// The number that the library tells.
    pub const fn number(&self) -> u32 {
        self.rule.number()
    }
}

/// `24 (cpu_map_phandle) at node 5, property 9: cpu must be the phandle of a cpu node`
impl fmt::Display for Refusal {
    fn fmt(&self, f: &mut fmt::Formatter<'_>) -> fmt::Result {
        let Refusal { rule, place, .. } = self;
        write!(f, "{} ({})", rule.number(), rule.check_name())?;
        match rule.place() {
            Place::Nothing => Ok(()),
            Place::Node => write!(f, " at node {place}"),
            Place::Property => write!(f, " at property {place}"),
            Place::Mpidr => write!(f, " at MPIDR {place}"),
            Place::Offset => write!(f, " at offset {place:#x}"),
        }?;
        if let Some(property) = self.property {
            write!(f, ", property {property}")?;
        }
        write!(f, ": {rule}")
    }
}

#[cfg(feature = "std")]
impl std::error::Error for Refusal {}

#[cfg(test)]
mod tests {
    use super::*;
    use std::string::ToString;

    fn said(number: u32, place: u32, second: u32) -> std::string::String {
        Refusal::of(number, place, second).to_string()
    }

    #[test]
    fn places_in_words() {
        let sentence =
            "24 (cpu_map_phandle) at node 5, property 9: cpu must be the phandle of a cpu node";
        assert_eq!(said(24, 5, 9), sentence);
        let missing = "24 (cpu_map_phandle) at node 5: cpu must be the phandle of a cpu node";
        assert_eq!(said(24, 5, NO_PROPERTY), missing);
        assert_eq!(said(15, 0, NO_PROPERTY), "15 (cpu_map_missing): no cpu-map");
        let cells =
            "37 (cpus_size_cells), property 1: #size-cells must be one cell, with the value 0";
        assert_eq!(said(37, 0, 1), cells);
        let mpidr = "29 (list_mpidr) at MPIDR 3: an MPIDR has bits outside the affinity bits";
        assert_eq!(said(29, 3, NO_PROPERTY), mpidr);
        assert!(said(33, 0x58, NO_PROPERTY).starts_with("33 (blob_structure) at offset 0x58: "));
        assert!(said(8, 7, NO_PROPERTY).starts_with("8 (duplicate_property) at property 7: "));
    }

    #[test]
    #[should_panic(expected = "libsunderwath.a tells 14, unknown to this crate")]
    fn unknown_number() {
        Refusal::of(14, 0, NO_PROPERTY);
    }
}
