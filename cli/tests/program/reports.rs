// SPDX-License-Identifier: BSD-2-Clause OR GPL-2.0-or-later
//! Damaged boards: whatever the library refuses is told in one line, and the property is the one at the second place. With a
//! table of slots it refuses the same boards in the same way, and others with 38 alone.

use crate::builder::{patched, small};
use crate::run::compiled;
use sunderwath::Kind;
use sunderwath::Refusal;
use sunderwath_cli::board;
use sunderwath_cli::details::Told;
use sunderwath_cli::flat;
use sunderwath_cli::report::Report;
use sunderwath_cli::tables::Tables;

/// The numbers that have a second place.
const SIX: [u32; 6] = [11, 12, 17, 24, 36, 37];
/// The other numbers whose messages say what stands there.
const DETAILED: [u32; 13] = [2, 3, 5, 7, 9, 10, 13, 15, 16, 21, 25, 26, 38];

/// The name that the report has is that of the record, or of no property of the node.
fn check_property(tables: &Tables, refusal: Refusal, report: &Report) {
    let name = report.property.clone().expect("it names a property");
    let mut names = tables
        .properties(refusal.place)
        .map(|property| tables.property_name(property));
    match refusal.property {
        Some(property) => {
            assert_eq!(tables.property_node(property), refusal.place);
            assert_eq!(tables.property_name(property), name);
            assert!(!report.message.contains("no property "));
        }
        None => {
            assert!(names.all(|other| other != name));
            let missing = format!("(no property {name}");
            assert!(report.message.contains(&missing), "{report}");
        }
    }
}

fn check(tables: &Tables, kind: Kind, refusal: Refusal) {
    let report = Report::of_board(&Told {
        tables,
        kind,
        refusal,
    });
    let number = refusal.number();
    assert_eq!(report.to_string().lines().count(), 1);
    assert!(report.node.is_some());
    if SIX.contains(&number) {
        check_property(tables, refusal, &report);
    } else {
        assert_eq!(refusal.property, None);
        assert_eq!(report.property.is_some(), [7, 8].contains(&number));
    }
    if SIX.contains(&number) || DETAILED.contains(&number) {
        let end = if number == 15 { "cpu nodes" } else { ")" };
        assert!(report.message.ends_with(end), "{report}");
    }
}

const WORDS: [u32; 14] = [
    0,
    1,
    2,
    3,
    4,
    5,
    8,
    9,
    14,
    26,
    0x100,
    0x0063_7075,
    0x8000_0001,
    u32::MAX,
];

/// Reads the board as each kind, and counts the numbers told.
fn read(blob: Vec<u8>, told: &mut [u32; 50]) {
    let reading = match flat::read(blob) {
        Ok(reading) => reading,
        Err(_) => return,
    };
    for kind in Kind::ALL {
        let plain = board::read(kind, &reading.tables).err();
        let refusal = match board::read_slots(kind, &reading.tables) {
            Err(refusal) => refusal,
            Ok(_) => {
                assert_eq!(plain, None);
                continue;
            }
        };
        check(&reading.tables, kind, refusal);
        told[refusal.number() as usize] += 1;
        assert_eq!(plain, (refusal.number() != 38).then_some(refusal));
        assert!(refusal.number() != 38 || kind != Kind::Riscv);
    }
}

/// The blob with one byte changed.
fn patched_byte(blob: &[u8], at: usize, byte: u8) -> Vec<u8> {
    let mut changed = blob.to_vec();
    changed[at] = byte;
    changed
}

#[test]
fn every_word_and_byte_changed() {
    let mut told = [0; 50];
    for blob in [small(), compiled("two-sockets"), compiled("mixed-smt")] {
        for at in (40..blob.len() - 3).step_by(4) {
            for word in WORDS {
                read(patched(&blob, at, word), &mut told);
            }
        }
        for at in 40..blob.len() {
            for byte in *b"019ct\xff" {
                read(patched_byte(&blob, at, byte), &mut told);
            }
        }
    }
    let wanted = SIX.iter().chain(&[7, 8, 13, 15, 19, 21, 25, 38]);
    let missing: Vec<_> = wanted.filter(|&&n| told[n as usize] == 0).collect();
    assert!(missing.is_empty(), "{missing:?} of {told:?}");
}
