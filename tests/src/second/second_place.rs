// SPDX-License-Identifier: BSD-2-Clause OR GPL-2.0-or-later
//! The second place of a refusal: the property record that its number speaks of.

use super::tables::Tables;
use crate::answer::{Answer, NO_PROPERTY};

/// The property that a number speaks of; every other number has no second place.
fn property_of(number: u32) -> Option<&'static [u8]> {
    match number {
        11 => Some(b"device_type"),
        12 => Some(b"reg"),
        17 => Some(b"phandle"),
        24 => Some(b"cpu"),
        36 => Some(b"#address-cells"),
        37 => Some(b"#size-cells"),
        _ => None,
    }
}

/// The refusal of a number at its place. The property is one of the record
/// there; if it is missing, the second place is the same as of other numbers.
pub fn refusal(tables: &Tables, number: u32, place: usize) -> Answer {
    let record = property_of(number).and_then(|name| tables.property(place, name));
    let second = record.map_or(NO_PROPERTY, |record| record as u32);
    Answer::refusal(number, place).of_property(second)
}
