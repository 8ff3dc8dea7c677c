// SPDX-License-Identifier: BSD-2-Clause OR GPL-2.0-or-later
//! 9, 36 and 37, and the second place of read_tables, against the second reader
//! and against what a board is built of.

use sunderwath_tests::answer::{Answer, NO_PROPERTY};
use sunderwath_tests::build::faults;
use sunderwath_tests::build::property_faults::{self, base, second_place, PropertyFault, NEEDED};
use sunderwath_tests::build::shapes::{fill_up, regular_board};
use sunderwath_tests::build::worked::{cores, whole_case};
use sunderwath_tests::build::{cell, text, Board, Node};
use sunderwath_tests::compare::compare;
use sunderwath_tests::rng::Rng;
use sunderwath_tests::width::WIDTHS;

fn agreed(board: &Board) -> Answer {
    compare(board).unwrap_or_else(|report| panic!("{report}"))
}

/// All eleven words: a refusal has nothing but number, place and second place.
fn expect(board: &Board, number: u32, place: usize, second: u32) {
    let wanted = Answer::refusal(number, place).of_property(second);
    assert_eq!(agreed(board), wanted, "{}", text::write(board));
}

/// The fault's number and place, and the record in which its property stands.
fn expect_fault(board: &Board, fault: &PropertyFault) {
    let needed = fault.needed;
    let second = board.property(needed.record, needed.name);
    assert_eq!(second.is_some(), fault.value.is_some());
    let second = second.map_or(NO_PROPERTY, |second| second as u32);
    expect(board, needed.number, needed.record, second);
}

/// Moves the first property records behind the others.
fn rotated(board: &Board, by: usize) -> Board {
    let mut board = board.clone();
    board.props.rotate_left(5 * by);
    board
}

/// On each board that it is a fault of, in the order of the nodes and with the
/// properties shuffled.
#[test]
fn each_fault_of_a_property() {
    const SEED: u64 = 0x5EC0;
    let mut rng = Rng::new(SEED);
    let faults = property_faults::faults();
    for needed in &NEEDED {
        let of_number = |fault: &&PropertyFault| fault.needed.number == needed.number;
        assert!(faults.iter().filter(of_number).count() >= 7);
    }
    for fault in &faults {
        let tree = fault.tree();
        for &width in fault.widths {
            expect_fault(&Board::of(width, &tree), fault);
            for _ in 0..20 {
                expect_fault(&Board::shuffled(width, &tree, &mut rng), fault);
            }
        }
    }
    println!("{} faults in 21 orders, seed {SEED:#x}", faults.len());
}

/// Without a fault the same board is accepted; 2 cells are allowed on width 64.
#[test]
fn the_board_of_these_faults_is_sound() {
    for width in WIDTHS {
        let answer = agreed(&Board::of(width, &base()));
        assert_eq!((answer.number, answer.second), (0, NO_PROPERTY));
    }
    let answer = agreed(&Board::of(64, &cores(&[0, 1])));
    assert_eq!((answer.number, answer.second), (0, NO_PROPERTY));
    let board = Board::of(32, &cores(&[0, 1]));
    expect(&board, 36, 0, 0);
}

/// The property stands at each place of the table once.
#[test]
fn every_second_place() {
    for fault in property_faults::faults() {
        let last = fault.widths.len() - 1;
        let board = Board::of(fault.widths[last], &fault.tree());
        let mut seen = Vec::new();
        for by in 0..board.prop_count() {
            let board = rotated(&board, by);
            expect_fault(&board, &fault);
            seen.extend(board.property(fault.needed.record, fault.needed.name));
        }
        seen.sort_unstable();
        let all = fault.value.map_or(0, |_| board.prop_count());
        assert!(seen.into_iter().eq(0..all));
    }
}

/// The whole case, in which the property records are known by heart: 0 and 1 of
/// record 0; 2 and 3 the `cpu` of records 3 and 4; 4 to 6 and 7 to 9 those of
/// records 5 and 6.
#[test]
fn numbers_by_hand() {
    type Spoil = fn(&mut Node);
    let cases: [(u32, usize, u32, Spoil); 15] = [
        (36, 0, 0, |r| r.set("#address-cells", cell(0))),
        (36, 0, NO_PROPERTY, |r| r.remove("#address-cells")),
        (37, 0, 1, |r| r.set("#size-cells", cell(1))),
        (37, 0, NO_PROPERTY, |r| r.remove("#size-cells")),
        (24, 3, 2, |r| r.at(3).set("cpu", cell(9))),
        (24, 4, 3, |r| r.at(4).set("cpu", [])),
        (24, 3, NO_PROPERTY, |r| r.at(3).remove("cpu")),
        (11, 5, 4, |r| r.at(5).set("device_type", b"cpu")),
        (12, 5, 5, |r| r.at(5).set("reg", cell(1 << 24))),
        (17, 5, 6, |r| r.at(5).set("phandle", cell(0))),
        (11, 6, 7, |r| r.at(6).set("device_type", b"x\0")),
        (12, 6, 8, |r| r.at(6).set("reg", [0; 8])),
        (17, 6, 9, |r| r.at(6).set("phandle", cell(1))),
        (13, 6, NO_PROPERTY, |r| r.at(6).set("reg", cell(0))),
        (25, 4, NO_PROPERTY, |r| r.at(4).set("cpu", cell(2))),
    ];
    for (number, place, second, spoil) in cases {
        let mut root = whole_case();
        spoil(&mut root);
        expect(&Board::of(64, &root), number, place, second);
    }
    // Without its first property the others move up.
    let mut root = whole_case();
    root.at(3).remove("cpu");
    root.at(5).set("phandle", cell(2));
    expect(&Board::of(64, &root), 17, 6, 8);
}

/// The name is told before `#address-cells`, and that before `#size-cells`.
#[test]
fn faults_of_record_0_at_once() {
    let faults = property_faults::faults();
    let of = |number| faults.iter().filter(move |f| f.needed.number == number);
    for address in of(36) {
        for size in of(37) {
            for &width in address.widths {
                let mut root = size.tree();
                address.apply(&mut root);
                let board = Board::of(width, &root);
                expect_fault(&board, address);
                expect_fault(&rotated(&board, 7), address);
                root.children.clear();
                expect_fault(&Board::of(width, &root), address);
                root.name = b"cpu".to_vec();
                expect(&Board::of(width, &root), 9, 0, NO_PROPERTY);
            }
        }
    }
    // 10 comes behind 37.
    for size in of(37) {
        let mut root = size.tree();
        root.children.clear();
        for width in WIDTHS {
            expect_fault(&Board::of(width, &root), size);
        }
    }
}

/// Of two cpus with one phandle the later record is told, with its own property,
/// wherever that stands.
#[test]
fn repeated_phandles() {
    const SEED: u64 = 0x17;
    let mut rng = Rng::new(SEED);
    for _ in 0..200 {
        let mut root = cores(&[0, 1, 2, 3, 4, 5]);
        let first = root.count() - 6;
        let (a, b) = (rng.below(6), rng.below(6));
        let phandle = root.at(first + a).get("phandle").map(<[u8]>::to_vec);
        root.at(first + b)
            .set("phandle", phandle.unwrap_or_default());
        let board = Board::shuffled(64, &root, &mut rng);
        if a != b {
            let place = first + a.max(b);
            expect(&board, 17, place, second_place(&board, 17, place));
        }
    }
}

/// Every other number, and acceptance, has no second place.
#[test]
fn other_numbers() {
    for width in WIDTHS {
        for fault in faults::faults(width) {
            let answer = agreed(&faults::with_faults(width, &[&fault]));
            let needed = NEEDED.iter().any(|n| n.number == fault.number);
            assert_eq!(answer.number, fault.number);
            assert!(needed || answer.second == NO_PROPERTY, "{}", fault.what);
        }
    }
}

/// The last record of a full property table.
#[test]
fn full_tables() {
    for needed in &NEEDED {
        let mut root = regular_board(64);
        fill_up(&mut root, 1024, 4096);
        let path: &[&str] = match needed.number {
            36 | 37 => &[],
            24 => &["cpu-map", "cluster15", "core3"],
            _ => &["cpu@f03"],
        };
        let record = root.find(path).expect("it is there");
        root.at(record).set(needed.name, [7; 5]);
        let mut board = Board::of(64, &root);
        let at = board.property(record, needed.name).expect("it is there");
        board.props.rotate_left(5 * (at + 1));
        expect(&board, needed.number, record, 4095);
    }
}
