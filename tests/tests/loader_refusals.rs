// SPDX-License-Identifier: BSD-2-Clause OR GPL-2.0-or-later
//! What read_blob refuses, with number, place and property record known from the
//! tree, and the order of the numbers.

use std::collections::BTreeSet;
use sunderwath_tests::answer::NO_PROPERTY;
use sunderwath_tests::build::faults;
use sunderwath_tests::build::flat::*;
use sunderwath_tests::build::flat_form::{write, Form};
use sunderwath_tests::build::flat_trees::around;
use sunderwath_tests::build::loader::{Lent, ROW_BYTES};
use sunderwath_tests::build::loader_faults::{tree_faults, TreeFault};
use sunderwath_tests::build::shapes::fill_up;
use sunderwath_tests::build::worked::whole_case;
use sunderwath_tests::build::{blob, Node};
use sunderwath_tests::compare_blob::agreed_blob;
use sunderwath_tests::counts::{blob_numbers, Counts};
use sunderwath_tests::width::{RISCV, UNKNOWN_WIDTHS, WIDTHS};

fn plain(root: &Node) -> Vec<u8> {
    write(&items(root), &Form::default())
}

/// The blob is refused with these words, whatever room there is for rows.
fn expect(blob: &[u8], width: u32, words: [u32; 4], what: &str) {
    for (at, rows) in [0, 1, 47, 48, 99, ROW_BYTES * 256].into_iter().enumerate() {
        let lent = Lent {
            width,
            rows,
            answer: 16 + at % 3,
            start: at,
        };
        assert_eq!(agreed_blob(blob, lent).words(), Some(words), "{what}");
    }
}

/// Each fault of a tree, alone in its blob and beside other nodes. A wrong width
/// is told before it.
#[test]
fn each_fault_of_a_tree() {
    let [mut counts, mut of_harts] = [(); 2].map(|()| Counts::default());
    let faults = tree_faults();
    for fault in &faults {
        let TreeFault { answer, what, .. } = fault;
        let words = [answer.number, answer.place, answer.second, 0];
        for blob in [blob::write(&fault.cpus), plain(&around(fault.cpus.clone()))] {
            expect(&blob, fault.width, words, what);
            expect(&blob, 33, [1, 0, NO_PROPERTY, 0], what);
        }
        counts.add(answer);
        if fault.width == RISCV {
            of_harts.add(answer);
        }
    }
    let lines = counts.lines_of(blob_numbers());
    println!("{} faults of trees\n{lines}", faults.len());
    // What is left is told of blobs, of the width and of the room.
    let left = [1, 27, 31, 32, 33, 34, 35, 49];
    let of_trees: BTreeSet<u32> = blob_numbers().filter(|n| !left.contains(n)).collect();
    assert_eq!(counts.told(), of_trees);
    assert_eq!(of_harts.told(), of_trees);
    assert!(counts.second_places() && of_harts.second_places());
}

/// The faults of a blob and of what is lent beside it, in the order of checking.
/// 33 spoils the end token, 34 the name of `/cpus`, 36 a cell of its.
const ORDER: [u32; 8] = [49, 31, 32, 33, 34, 35, 1, 36];

/// The whole case with all faults of a set; the cpus node stands first.
fn with_faults(set: &[u32]) -> (Vec<u8>, Lent) {
    let has = |number| set.contains(&number);
    let mut cpus = whole_case();
    if has(34) {
        cpus.name = b"cpux".to_vec();
    }
    if has(36) {
        cpus.set("#address-cells", [0, 0, 0, 3]);
    }
    if has(35) {
        fill_up(&mut cpus, 1025, 12);
    }
    let mut list = items(&Node::new("").child(cpus));
    if has(33) {
        *list.last_mut().expect("the end token") = Item::Word(0);
    }
    let mut blob = write(&list, &Form::default());
    if has(32) {
        set_word(&mut blob, STRINGS_AT, u32::MAX);
    }
    if has(31) {
        set_word(&mut blob, MAGIC_AT, 0);
    }
    let lent = Lent {
        width: if has(1) { 63 } else { 64 },
        // The rows never have room.
        rows: 2 * ROW_BYTES - 1,
        answer: if has(49) { 15 } else { 16 },
        start: set.len(),
    };
    (blob, lent)
}

/// Of every set of faults the first is told; 27 is the last of all.
#[test]
fn order_of_numbers() {
    for set in 0..1 << ORDER.len() {
        let chosen = (0..ORDER.len()).filter(|bit| set >> bit & 1 == 1);
        let chosen: Vec<u32> = chosen.map(|bit| ORDER[bit]).collect();
        let (blob, lent) = with_faults(&chosen);
        let told = agreed_blob(&blob, lent).number();
        assert_eq!(told, chosen.first().copied().unwrap_or(27), "{chosen:?}");
    }
    println!("every set of {ORDER:?}, and 27");
}

/// Only 32, 64 and 5 are widths, and only once the blob is sound.
#[test]
fn widths() {
    let sound = plain(&around(whole_case()));
    let mut broken = sound.clone();
    set_word(&mut broken, VERSION_AT, 16);
    let near = (0..=130).chain([0x100, 0x2020, 0x4000_0040, u32::MAX - 1]);
    for width in near.chain(UNKNOWN_WIDTHS) {
        let lent = Lent {
            width,
            ..Lent::default()
        };
        let number = if WIDTHS.contains(&width) { 0 } else { 1 };
        assert_eq!(agreed_blob(&sound, lent).number(), number);
        assert_eq!(agreed_blob(&broken, lent).number(), 31);
    }
}

/// The board that faults are made on has five rows.
#[test]
fn the_sound_board() {
    for width in WIDTHS {
        let lent = Lent {
            width,
            ..Lent::default()
        };
        let told = agreed_blob(&blob::write(&faults::base(width)), lent);
        assert_eq!(told.words(), Some([0, 0, NO_PROPERTY, 5]));
        assert_eq!(told.rows.len(), 60);
    }
}
