// SPDX-License-Identifier: BSD-2-Clause OR GPL-2.0-or-later
//! read_tables against the second reader.

use sunderwath::ROW_WORDS;
use sunderwath_tests::answer::{Answer, ANSWER_WORDS, SHORT_ANSWER};
use sunderwath_tests::build::faults::{self, rename, with_faults, Fault};
use sunderwath_tests::build::mix::{any_board, large_board};
use sunderwath_tests::build::order::{self, children_named};
use sunderwath_tests::build::property_faults::second_place;
use sunderwath_tests::build::shapes::{fill_up, regular_board, regular_board_of, valid_board};
use sunderwath_tests::build::small::{maps_in_order, maps_with_choices};
use sunderwath_tests::build::worked::{self, cores, cpu_node, cpus_node, group, leaf, nested};
use sunderwath_tests::build::{cell, text, Board, Node};
use sunderwath_tests::compare::{compare, library};
use sunderwath_tests::counts::{numbers, Counts};
use sunderwath_tests::rng::Rng;
use sunderwath_tests::width::{ARM32, ARM64, RISCV, WIDTHS};
use sunderwath_tests::{ffi, second};

const GAP: u32 = u32::MAX;
const GUARD: usize = 16;

/// Compares all readers and gives the answer and the rows of the library.
fn agreed(board: &Board) -> (Answer, Vec<u32>) {
    if let Err(report) = compare(board) {
        panic!("{report}");
    }
    let (answer, buffer) = library(board);
    let words = ROW_WORDS * answer.count as usize;
    (answer, buffer[GUARD..GUARD + words].to_vec())
}

fn expect(width: u32, root: &Node, number: u32, place: usize) {
    expect_board(&Board::of(width, root), number, place);
}

fn expect_board(board: &Board, number: u32, place: usize) {
    let (answer, _) = agreed(board);
    let told = (answer.number, answer.place as usize, answer.second);
    let wanted = (number, place, second_place(board, number, place));
    assert_eq!(told, wanted, "{}", text::write(board));
}

fn record(root: &Node, path: &[&str]) -> usize {
    root.find(path).expect("the path exists")
}

#[test]
fn whole_case() {
    let (answer, rows) = agreed(&Board::of(64, &worked::whole_case()));
    let expected = Answer {
        count: 2,
        mask: 0x100,
        shifts: [0, 8, 15, 31],
        bits: 1,
        ..Answer::default()
    };
    assert_eq!(answer, expected);
    let expected = [
        [3, 6, 0, 0x100, GAP, 0, GAP, GAP, GAP, 0, GAP, 1],
        [4, 5, 0, 0, GAP, 0, GAP, GAP, GAP, 1, GAP, 0],
    ];
    assert_eq!(rows, expected.concat());
}

#[test]
fn example_1() {
    let (answer, rows) = agreed(&Board::of(64, &worked::example_1()));
    let expected = Answer {
        count: 16,
        mask: 0x1_0001_0101,
        shifts: [0, 7, 14, 29],
        bits: 4,
        ..Answer::default()
    };
    assert_eq!(answer, expected);
    for (at, row) in rows.chunks(ROW_WORDS).enumerate() {
        let bit = |n: usize| (at >> n & 1) as u32;
        let lower = bit(2) << 16 | bit(1) << 8 | bit(0);
        let path = [0, bit(3), bit(2), GAP, GAP, bit(1), bit(0)];
        assert_eq!(row[2..4], [bit(3), lower]);
        assert_eq!(row[4..11], path);
        assert_eq!(row[11], at as u32);
    }
}

#[test]
fn example_2() {
    for width in [32, 64] {
        let (answer, rows) = agreed(&Board::of(width, &worked::example_2()));
        let expected = Answer {
            count: 8,
            mask: 0x103,
            shifts: [0, 6, 13, 29],
            bits: 3,
            ..Answer::default()
        };
        assert_eq!(answer, expected);
        for (at, row) in rows.chunks(ROW_WORDS).enumerate() {
            let at = at as u32;
            let (cluster, core) = (at / 4, at % 4);
            assert_eq!(row[2..4], [0, cluster << 8 | core]);
            assert_eq!(row[4..11], [GAP, cluster, GAP, GAP, GAP, core, GAP]);
            assert_eq!(row[11], at);
        }
    }
}

#[test]
fn example_3_in_three_forms() {
    let core_2 = ["cpu-map", "socket0", "cluster0", "core2"];
    let printed = worked::example_3();
    expect(64, &printed, 24, record(&printed, &core_2));
    let corrected = worked::example_3_corrected();
    expect(64, &corrected, 25, record(&corrected, &core_2));
    let without = worked::example_3_without_phandle();
    expect(64, &without, 17, record(&without, &["cpu@4"]));
}

#[test]
fn slips_to_keep_out() {
    // Width is not the number of ones in the mask (H4, H7); H6 has slot GAP.
    let lists: [(&[u64], &[u32]); 3] = [
        (&[0x2, 0x80], &[1, 64]),
        (&[0x0, 0x5], &[0, 5]),
        (&[0x0, 0xFF_00FF_FFFF], &[0, 0xFFFF_FFFF]),
    ];
    for (mpidrs, slots) in lists {
        let (answer, rows) = agreed(&Board::of(64, &cores(mpidrs)));
        assert_eq!(answer.number, 0);
        for (row, slot) in rows.chunks(ROW_WORDS).zip(slots) {
            assert_eq!((row[4], row[11]), (GAP, *slot));
        }
    }
    // A cluster with `cluster0` and then `core1`.
    let mixed = worked::cluster_beside_core();
    let second_child = record(&mixed, &["cpu-map", "cluster0", "core1"]);
    expect(64, &mixed, 20, second_child);
    // A cpu that no leaf names: no row is written.
    let unmapped = worked::unmapped_cpu();
    expect(64, &unmapped, 26, record(&unmapped, &["cpu@2"]));
    // One lone socket, one cpu, a core beside threads.
    expect(32, &worked::lone_socket(), 0, 0);
    expect(64, &cores(&[0x7]), 0, 0);
}

#[test]
fn limits() {
    for (depth, number) in [(1, 0), (2, 0), (3, 0), (4, 0), (5, 22), (6, 22)] {
        let place = if number == 0 { 0 } else { 6 };
        expect(64, &nested(depth), number, place);
    }
    for (records, number) in [(1023, 0), (1024, 0), (1025, 2)] {
        let mut root = regular_board(16);
        fill_up(&mut root, records, 0);
        expect(64, &root, number, 0);
    }
    for (props, number) in [(4095, 0), (4096, 0), (4097, 3)] {
        let mut root = regular_board(16);
        fill_up(&mut root, 1000, props);
        expect(64, &root, number, 0);
    }
    for (cpus, number) in [(255, 0), (256, 0), (257, 10), (300, 10)] {
        expect(64, &regular_board(cpus), number, 0);
    }
    for (bytes, number) in [(65536, 0), (65537, 4)] {
        let mut board = Board::of(64, &regular_board(4));
        board.pool.resize(bytes, 7);
        assert_eq!(agreed(&board).0.number, number);
    }
    // 10 before 26, and 26 alone.
    let mut root = regular_board(255);
    root.children.push(cpu_node(2, 0xFF_0000_0000, 999));
    expect(64, &root, 26, root.count() - 1);
    root.children.push(cpu_node(2, 0xFE_0000_0000, 998));
    expect(64, &root, 10, 0);
}

/// Names that are and are not topology names (N1 to N6 and others).
#[test]
fn names() {
    let cluster_numbers = |count: usize| {
        let mut root = cpus_node(1).child(Node::new("cpu-map"));
        for at in 0..count {
            let cluster = group("cluster", at, vec![leaf("core0", at as u32 + 1)]);
            root.children[0].children.push(cluster);
            root.children.push(cpu_node(1, at as u64, at as u32 + 1));
        }
        root
    };
    expect(64, &cluster_numbers(12), 0, 0);
    for (name, number) in [
        ("core0", 0),
        ("core1", 21),
        ("core10", 21),
        ("core9999", 21),
        ("core01", 19),
        ("core00", 19),
        ("core", 19),
        ("core10000", 19),
        ("core99999999999", 19),
        ("core-0", 19),
        ("core+0", 19),
        ("core 0", 19),
        ("core0x", 19),
        ("core0\0", 19),
        ("Core0", 19),
        ("xcore0", 19),
        ("core@0", 19),
        ("socket9999", 20),
        ("socket10000", 19),
        ("thread", 19),
        ("thread0", 20),
        ("cpu@9", 19),
    ] {
        let mut root = cores(&[0]);
        let at = record(&root, &["cpu-map", "cluster0", "core0"]);
        root.at(at).name = name.as_bytes().to_vec();
        let place = if number == 0 { 0 } else { at };
        expect(64, &root, number, place);
        // The same name outside the map.
        let mut outside = cores(&[0]);
        outside.at(4).children.push(Node::new(name));
        let topology = matches!(number, 0 | 20 | 21);
        let told = if topology { (18, 5) } else { (0, 0) };
        expect(64, &outside, told.0, told.1);
    }
}

/// Each number alone, on each board.
#[test]
fn each_number() {
    for width in WIDTHS {
        expect(width, &faults::base(width), 0, 0);
        let faults = faults::faults(width);
        for fault in &faults {
            expect_board(&with_faults(width, &[fault]), fault.number, fault.place);
        }
        assert!(numbers().all(|number| faults.iter().any(|fault| fault.number == number)));
    }
}

/// Every pair of faults in both orders: the one of the earlier stage, lower place
/// and smaller number is told.
#[test]
fn pairs_of_faults() {
    WIDTHS.into_iter().for_each(pairs_on);
}

fn pairs_on(width: u32) {
    let faults = faults::faults(width);
    let key = |f: &Fault| (second::stage_of(f.number), f.place, f.number);
    let mut pairs = 0;
    for first in &faults {
        for second in &faults {
            let board = with_faults(width, &[first, second]);
            // A sound cpu node made by 26 keeps 10 from being broken.
            let both = (first.number, second.number);
            if matches!(both, (10, 26) | (26, 10)) {
                agreed(&board);
                continue;
            }
            let wanted = if key(first) < key(second) {
                first
            } else {
                second
            };
            expect_board(&board, wanted.number, wanted.place);
            pairs += 1;
        }
    }
    let count = faults.len();
    println!("width {width}: {count} faults, {pairs} ordered pairs");
}

type Spoil = fn(&mut Node);

/// Several faults at one record: the number and the place told.
const SEVERAL: [(u32, usize, Spoil); 12] = [
    // device_type, reg length; then reg alone
    (11, 1, |r| {
        r.at(1).remove("device_type");
        r.at(1).remove("reg");
    }),
    // a reg of no length that is allowed, which a later one has too
    (12, 1, |r| {
        for at in [1, 2] {
            r.at(at).set("reg", [0; 6]);
        }
    }),
    // no topology name and no cpu
    (19, 8, |r| {
        rename(r, 8, "thread");
        r.at(8).remove("cpu");
    }),
    // kind, number and no cpu
    (20, 8, |r| {
        rename(r, 8, "core7");
        r.at(8).remove("cpu");
    }),
    // number and no cpu
    (21, 8, |r| {
        rename(r, 8, "thread7");
        r.at(8).remove("cpu");
    }),
    // number and a cpu named before
    (21, 8, |r| {
        rename(r, 8, "thread0");
        r.at(8).set("cpu", cell(1));
    }),
    // kind, depth and no children
    (20, 18, |r| rename(r, 18, "cluster0")),
    // number, depth and no children
    (21, 17, |r| {
        rename(r, 17, "cluster3");
        r.at(17).children.clear();
    }),
    // depth and no children
    (22, 17, |r| {
        rename(r, 17, "cluster0");
        r.at(17).children.clear();
    }),
    // number and no children
    (21, 10, |r| {
        rename(r, 10, "cluster5");
        r.at(10).children.clear();
    }),
    // a thread with a child and a bad cpu is told before the child
    (24, 18, |r| {
        r.at(18).children.push(leaf("thread0", 5));
        r.at(18).set("cpu", cell(99));
    }),
    // with a good cpu the child is told
    (20, 19, |r| r.at(18).children.push(leaf("thread0", 5))),
];

/// The smallest number that one record breaks is told.
#[test]
fn several_faults_at_one_record() {
    for width in WIDTHS {
        for (number, place, spoil) in SEVERAL {
            let mut root = faults::base(width);
            spoil(&mut root);
            expect(width, &root, number, place);
        }
        // Names that are no topology name below a thread: 19 at the child.
        let mut root = faults::base(width);
        root.at(18).children.push(Node::new("x"));
        expect(width, &root, 19, 19);
    }
    // A reg of wrong bits that a later one has too.
    let mut root = faults::base(ARM64);
    for at in [1, 2] {
        root.at(at).set("reg", [0, 0, 0, 0, 1, 0, 0, 0]);
    }
    expect(ARM64, &root, 12, 1);
}

/// Rows stand in leaf record order, whatever the order of the numbers.
#[test]
fn siblings_out_of_order() {
    let (answer, rows) = agreed(&Board::of(64, &order::cores_swapped()));
    let expected = [
        [3, 6, 0, 0x100, GAP, 0, GAP, GAP, GAP, 1, GAP, 1],
        [4, 5, 0, 0, GAP, 0, GAP, GAP, GAP, 0, GAP, 0],
    ];
    assert_eq!((answer.number, answer.count), (0, 2));
    assert_eq!(rows, expected.concat());
    let (answer, rows) = agreed(&Board::of(32, &order::threads_swapped()));
    let expected = [
        [5, 8, 0, 0, 0, 0, GAP, GAP, GAP, 0, 1, 0],
        [6, 9, 0, 1, 0, 0, GAP, GAP, GAP, 0, 0, 1],
        [7, 10, 0, 2, 0, 0, GAP, GAP, GAP, 1, GAP, 2],
    ];
    assert_eq!((answer.number, answer.count), (0, 3));
    assert_eq!(rows, expected.concat());
    let column = |width, root: &Node, word: usize| {
        let (answer, rows) = agreed(&Board::of(width, root));
        assert_eq!(answer.number, 0);
        let words = rows.chunks(ROW_WORDS).map(|row| (row[0], row[word]));
        words.collect::<Vec<_>>()
    };
    let clusters = [3, 4, 5, 6].map(|leaf| (leaf, 1));
    let others = [8, 9, 10, 11].map(|leaf| (leaf, 0));
    let expected = [clusters, others].concat();
    assert_eq!(column(32, &order::clusters_swapped(), 5), expected);
    let expected = [(7, 1), (8, 1), (9, 1), (11, 1), (18, 0)];
    assert_eq!(column(64, &order::sockets_swapped(), 4), expected);
}

/// Example 1 with all siblings of the map in falling order: the same rows, the last first.
#[test]
fn siblings_out_of_order_on_all_levels() {
    let (answer, rows) = agreed(&Board::of(64, &worked::example_1()));
    let mut root = worked::example_1();
    order::reverse_siblings(root.at(1));
    let (reversed_answer, reversed_rows) = agreed(&Board::of(64, &root));
    assert_eq!(reversed_answer, answer);
    let mut leaf = 0;
    for (row, falling) in rows
        .chunks(ROW_WORDS)
        .rev()
        .zip(reversed_rows.chunks(ROW_WORDS))
    {
        assert_eq!(row[1..], falling[1..]);
        assert!(falling[0] > leaf);
        leaf = falling[0];
    }
}

/// One cluster whose children have these names, from record 3 on.
fn expect_of(names: &str, number: u32, place: usize) {
    let names: Vec<&str> = names.split(' ').collect();
    expect(64, &children_named(&names), number, place);
}

/// A number that is not below the count of siblings, wherever it stands.
#[test]
fn sibling_numbers_too_high() {
    expect_of("core0 core1 core2 core3 core6 core7", 21, 7);
    expect_of("core2 core0", 21, 3);
    expect_of("core0 core2", 21, 4);
    expect_of("core1", 21, 3);
    expect_of("core0 core9999 core1", 21, 4);
    expect_of("core3 core1 core2", 21, 3);
    // One less than the count.
    expect_of("core2 core0 core1", 0, 0);
    expect_of("core1 core2 core0", 0, 0);
    expect_of("core0", 0, 0);
    let falling: Vec<String> = (0..256).rev().map(|n| format!("core{n}")).collect();
    expect_of(&falling.join(" "), 0, 0);
}

#[test]
fn repeated_sibling_numbers() {
    expect_of("core0 core1 core1 core2", 21, 5);
    expect_of("core1 core1", 21, 4);
    expect_of("core0 core0", 21, 4);
    expect_of("core1 core1 core0", 21, 4);
    expect_of("core2 core0 core2 core1", 21, 5);
    expect_of("core2 core1 core0 core1 core0", 21, 6);
    // The repeat stands before the number that is too high.
    expect_of("core0 core0 core3", 21, 4);
    expect_of("core0 core3 core0", 21, 4);
    // The same numbers under another parent are no repeats.
    expect(32, &worked::example_2(), 0, 0);
    let mut root = order::clusters_swapped();
    rename(&mut root, 7, "cluster1");
    expect(32, &root, 21, 7);
    let mut root = order::sockets_swapped();
    rename(&mut root, 12, "socket1");
    expect(64, &root, 21, 12);
    let mut root = order::threads_swapped();
    rename(&mut root, 6, "thread1");
    expect(32, &root, 21, 6);
}

/// Siblings without a topology name, and of another kind, are counted too.
#[test]
fn siblings_of_all_sorts() {
    expect_of("core1 x", 19, 4);
    expect_of("x core1", 19, 3);
    expect_of("core2 x core0", 19, 4);
    expect_of("core2 x", 21, 3);
    expect_of("core0 x core0", 19, 4);
    // core1 passes 21: cluster0 is its sibling, and 20 is told there.
    expect_of("core1 cluster0", 20, 4);
    // An earlier sibling of another kind has the number: 20 before 21.
    expect_of("core0 cluster0", 20, 4);
    expect_of("core0 cluster0 core0", 20, 4);
    let mut mixed = worked::cluster_beside_core();
    rename(&mut mixed, 5, "core0");
    expect(64, &mixed, 20, 5);
}

/// The map before, after and below other nodes; second maps everywhere.
#[test]
fn maps_in_odd_places() {
    let mut moved = cores(&[0, 1]);
    let map = moved.children.remove(0);
    moved.children.push(map);
    expect(64, &moved, 0, 0);
    // A lone cpu-map below a cpu node is no map.
    let mut below = cores(&[0, 1]);
    let map = below.children.remove(0);
    below.children[0].children.push(map);
    expect(64, &below, 15, 0);
    // A second one, before the map, below another node.
    let mut before = cores(&[0, 1]);
    let holder = Node::new("x").child(Node::new("cpu-map"));
    before.children.insert(0, holder);
    expect(64, &before, 16, 2);
    let mut twice = cores(&[0, 1]);
    twice.children.push(Node::new("cpu-map"));
    expect(64, &twice, 16, 7);
    // An empty map.
    let mut empty = cores(&[0, 1]);
    empty.children[0].children.clear();
    expect(64, &empty, 23, 1);
    // Topology names below a cpu node.
    let mut inside_cpu = cores(&[0, 1]);
    inside_cpu.children[1].children.push(Node::new("core0"));
    expect(64, &inside_cpu, 18, 6);
}

#[test]
fn cells_and_widths() {
    for (width, most) in [(ARM32, 1), (ARM64, 2), (RISCV, 1)] {
        for cells in [1, 2] {
            let map = Node::new("cpu-map").child(group("cluster", 0, vec![leaf("core0", 1)]));
            let root = cpus_node(cells).child(map).child(cpu_node(cells, 5, 1));
            expect(width, &root, if cells > most { 36 } else { 0 }, 0);
        }
    }
    let spoilt: [(&str, &[u8], u32); 10] = [
        ("#address-cells", &[], 36),
        ("#address-cells", &[0, 0, 1], 36),
        ("#address-cells", &[0, 0, 0, 1, 0], 36),
        ("#address-cells", &[1, 0, 0, 0], 36),
        ("#address-cells", &[0, 0, 1, 1], 36),
        ("#address-cells", &[0, 0, 0, 0], 36),
        ("#address-cells", &[0, 0, 0, 3], 36),
        ("#size-cells", &[], 37),
        ("#size-cells", &[0, 0, 0], 37),
        ("#size-cells", &[0, 0, 0, 0, 0], 37),
    ];
    for (name, value, number) in spoilt {
        let mut root = cores(&[0]);
        root.set(name, value);
        expect(64, &root, number, 0);
    }
    for (name, number) in [("#address-cells", 36), ("#size-cells", 37)] {
        let mut root = cores(&[0]);
        root.remove(name);
        expect(64, &root, number, 0);
    }
    for name in ["cpu", "cpus@0", "Cpus", "cpus0"] {
        let mut root = cores(&[0]);
        rename(&mut root, 0, name);
        expect(64, &root, 9, 0);
    }
}

/// With one and with two cells.
#[test]
fn every_bit_of_reg() {
    for cells in [1u32, 2] {
        for at in 0..32 * cells {
            let allowed = at < 24 || (32..40).contains(&at);
            let mut root = cpus_node(cells);
            let map = Node::new("cpu-map").child(group("cluster", 0, vec![leaf("core0", 1)]));
            root.children = vec![map, cpu_node(cells, 1 << at, 1)];
            let told = if allowed { (0, 0) } else { (12, 4) };
            expect(64, &root, told.0, told.1);
        }
    }
}

/// Values of device_type, phandle and cpu, and which of them are sound.
#[test]
fn property_values() {
    let cpu_values: [(&str, &[u8], u32); 18] = [
        ("device_type", b"cpu\0", 0),
        ("device_type", b"", 11),
        ("device_type", b"cpu", 11),
        ("device_type", b"cpu\0\0", 11),
        ("device_type", b"CPU\0", 11),
        ("device_type", b"cpux", 11),
        ("reg", &[0; 7], 12),
        ("reg", &[0; 9], 12),
        ("reg", &[0; 4], 12),
        ("reg", &[], 12),
        ("reg", &[0; 8], 13),
        ("phandle", &[], 17),
        ("phandle", &[0, 0, 2], 17),
        ("phandle", &[0, 0, 0, 2, 0], 17),
        ("phandle", &[0; 4], 17),
        ("phandle", &[0xFF; 4], 17),
        ("phandle", &[0, 0, 0, 1], 17),
        ("phandle", &[0, 0, 0, 2], 0),
    ];
    for (name, value, number) in cpu_values {
        let mut root = cores(&[0, 1]);
        let second_cpu = record(&root, &["cpu@1"]);
        root.at(second_cpu).set(name, value);
        expect(64, &root, number, if number == 0 { 0 } else { second_cpu });
    }
    for name in ["device_type", "reg", "phandle"] {
        let mut root = cores(&[0, 1]);
        let first_cpu = record(&root, &["cpu@0"]);
        root.at(first_cpu).remove(name);
        let number = match name {
            "device_type" => 11,
            "reg" => 12,
            _ => 17,
        };
        expect(64, &root, number, first_cpu);
    }
    let leaf_values: [(&[u8], u32); 7] = [
        (&[0, 0, 0, 2], 0),
        (&[], 24),
        (&[0, 0, 2], 24),
        (&[0, 0, 0, 2, 0], 24),
        (&[0, 0, 0, 2, 0, 0, 0, 2], 24),
        (&[2, 0, 0, 0], 24),
        (&[0, 0, 0, 1], 25),
    ];
    for (value, number) in leaf_values {
        let mut root = cores(&[0, 1]);
        let core = record(&root, &["cpu-map", "cluster0", "core1"]);
        root.at(core).set("cpu", value);
        expect(64, &root, number, if number == 0 { 0 } else { core });
    }
    // Phandles of other nodes do not matter.
    let mut root = cores(&[0, 1]);
    root.children
        .push(Node::new("l2-cache").with("phandle", cell(2)));
    expect(64, &root, 0, 0);
    root.at(2).set("phandle", cell(1));
    expect(64, &root, 0, 0);
}

/// Which children of record 0 are cpu records.
#[test]
fn cpu_names() {
    for (name, is_cpu) in [
        ("cpu", true),
        ("cpu@", true),
        ("cpu@1", true),
        ("cpu@1,2", true),
        ("cpu0", false),
        ("cpus", false),
        ("cpu-", false),
        ("Cpu@1", false),
        ("cpu\0", false),
        ("xcpu@1", false),
    ] {
        let mut root = cores(&[0, 1]);
        let last = record(&root, &["cpu@1"]);
        root.at(last).name = name.as_bytes().to_vec();
        // A node that is no cpu record leaves the second core without a cpu.
        let told = if is_cpu { (0, 0) } else { (24, 4) };
        expect(64, &root, told.0, told.1);
    }
    // A cpu node below another node is none.
    let mut root = cores(&[0, 1]);
    let moved = root.children.pop().expect("a cpu node");
    root.children.push(Node::new("x").child(moved));
    expect(64, &root, 24, 4);
}

/// Row buffers of every length around what is needed; `compare` checks the
/// words before, within and behind the lent part.
#[test]
fn row_buffers() {
    let mut tried = 0;
    let sizes = [1, 2, 3, 16, 256].map(|cpus| [(ARM64, cpus), (RISCV, cpus)]);
    for (width, cpus) in sizes.into_iter().flatten() {
        let mut board = Board::of(width, &regular_board_of(width, cpus));
        let need = ROW_WORDS * cpus;
        let lengths = (0..=40).chain(need.saturating_sub(25)..need + 26);
        for room in lengths {
            board.room = room;
            let (answer, _) = agreed(&board);
            assert_eq!(answer.number, if room < need { 27 } else { 0 });
            tried += 1;
        }
    }
    println!("{tried} row buffers");
}

#[test]
fn answer_lengths() {
    const PATTERN: u32 = 0xDEAD_BEEF;
    let refused = Board::of(64, &worked::example_3());
    let mut root = worked::whole_case();
    root.at(6).set("reg", []);
    let with_second = Board::of(64, &root);
    for board in [Board::of(64, &worked::whole_case()), refused, with_second] {
        let (answer, rows) = agreed(&board);
        for length in 0..=13 {
            let mut buffer = [PATTERN; 20];
            let mut lent_rows = [PATTERN; 30];
            let lent = &mut buffer[4..4 + length];
            let Board {
                width,
                nodes,
                props,
                pool,
                ..
            } = &board;
            let number = ffi::read_tables_into(*width, nodes, props, pool, &mut lent_rows, lent);
            let mut wanted = [PATTERN; 20];
            let mut wanted_rows = [PATTERN; 30];
            if length < ANSWER_WORDS {
                assert_eq!(number, SHORT_ANSWER);
            } else {
                assert_eq!(number, answer.number);
                wanted[4..4 + ANSWER_WORDS].copy_from_slice(&answer.words());
                wanted_rows[..rows.len()].copy_from_slice(&rows);
            }
            assert_eq!(buffer, wanted);
            assert_eq!(lent_rows, wanted_rows);
        }
    }
}

#[test]
fn small_maps() {
    let mut counts = Counts::default();
    let mut all = 0;
    let mut job = |board: Board| {
        all += 1;
        match compare(&board) {
            Ok(answer) => counts.add(&answer),
            Err(report) => panic!("{report}"),
        }
    };
    for width in [ARM64, RISCV] {
        for count in 0..=4 {
            maps_in_order(width, count, &mut job);
        }
        for count in 1..=3 {
            maps_with_choices(width, count, &mut job);
        }
    }
    println!("{all} small maps:\n{}", counts.lines());
}

#[test]
fn sound_boards() {
    let seed = 0x50_0D;
    let mut rng = Rng::new(seed);
    let boards = 10_000;
    for at in 0..boards {
        let most = if at % 500 == 0 { 256 } else { 16 };
        let (width, root) = valid_board(&mut rng, most);
        let board = Board::shuffled(width, &root, &mut rng);
        if board.pool.len() > 65536 || board.node_count() > 1024 {
            continue;
        }
        let (answer, _) = agreed(&board);
        assert_eq!(answer.number, 0, "{}", text::write(&board));
    }
    println!("{boards} sound boards, seed {seed:#x}");
}

#[test]
fn mixed_boards() {
    let seed = 0xB0A2_D500;
    let mut rng = Rng::new(seed);
    let [mut counts, mut of_harts] = [(); 2].map(|()| Counts::default());
    let boards = 80_000;
    for at in 0..boards {
        let board = if at % 2000 == 0 {
            large_board(&mut rng)
        } else {
            any_board(&mut rng)
        };
        let answer = compare(&board)
            .unwrap_or_else(|report| panic!("seed {seed:#x}, board {at}:\n{report}"));
        counts.add(&answer);
        if board.width == RISCV {
            of_harts.add(&answer);
        }
    }
    println!("{boards} mixed boards, seed {seed:#x}:\n{}", counts.lines());
    println!("RISC-V boards among them:\n{}", of_harts.lines());
    assert!(counts.of(0) > 0 && counts.complete());
    assert!(of_harts.of(0) > 0 && of_harts.complete_but_width());
}
