// SPDX-License-Identifier: BSD-2-Clause OR GPL-2.0-or-later
//! A sound board, and single changes that each break one rule of it.

use super::worked::{cpu_node, cpus_node, group, leaf};
use super::{cell, Board, Node};
use crate::width::{most_cells, RISCV};
use Change::{Tree, Words};

/// The board that faults are made on, as one of a width, with as many address
/// cells as that allows. The record numbers are used in the table of faults.
pub fn base(width: u32) -> Node {
    let cells = most_cells(width);
    let last = if cells == 2 { 0x1_0000_0000 } else { 0x1_0000 };
    let core_0 = group("core", 0, vec![leaf("thread0", 1), leaf("thread1", 2)]);
    let cluster_0 = group("cluster", 0, vec![core_0, leaf("core1", 3)]);
    let cluster_1 = group("cluster", 1, vec![leaf("core0", 4)]);
    let socket_0 = group("socket", 0, vec![cluster_0, cluster_1]);
    let mut deep = group("core", 0, vec![leaf("thread0", 5)]);
    for _ in 0..4 {
        deep = group("cluster", 0, vec![deep]);
    }
    let socket_1 = group("socket", 1, vec![deep]);
    let map = Node::new("cpu-map").child(socket_0).child(socket_1);
    let mut spare = cpu_node(cells, 0x777, 77);
    spare.name = b"spare".to_vec();
    cpus_node(cells)
        .child(cpu_node(cells, 0x0, 1))
        .child(cpu_node(cells, 0x1, 2))
        .child(map)
        .child(cpu_node(cells, 0x100, 3))
        .child(Node::new("idle-states").child(Node::new("cpu-sleep")))
        .child(cpu_node(cells, 0x101, 4))
        .child(cpu_node(cells, last, 5))
        .child(spare)
}

const CPU_RECORDS: [usize; 5] = [1, 2, 19, 22, 23];

#[derive(Clone, Copy)]
pub enum Change {
    Tree(fn(&mut Node)),
    Words(fn(&mut Board)),
}

/// A change, with the number and the place that are told for it alone. No
/// change moves a record to another number.
pub struct Fault {
    pub number: u32,
    pub place: usize,
    pub what: &'static str,
    pub change: Change,
}

pub fn rename(root: &mut Node, record: usize, name: &str) {
    root.at(record).name = name.as_bytes().to_vec();
}

/// The base with some faults.
pub fn with_faults(width: u32, faults: &[&Fault]) -> Board {
    let mut root = base(width);
    for fault in faults {
        if let Tree(change) = fault.change {
            change(&mut root);
        }
    }
    let mut board = Board::of(width, &root);
    for fault in faults {
        if let Words(change) = fault.change {
            change(&mut board);
        }
    }
    board
}

/// Gives a cpu the `reg` of another.
fn copy_reg(root: &mut Node, from: usize, to: usize) {
    let reg = root.at(from).get("reg").map(<[u8]>::to_vec);
    root.at(to).set("reg", reg.expect("it has one"));
}

/// One fault or more for each number.
pub fn faults(width: u32) -> Vec<Fault> {
    let fault = |(number, place, what, change)| Fault {
        number,
        place,
        what,
        change,
    };
    let cpus = [of_cpus_node(), of_regs(width), of_cpus()].concat();
    let mut rows = [of_tables(), cpus, of_map()].concat();
    rows.sort_by_key(|row| row.0);
    rows.into_iter().map(fault).collect()
}

type Row = (u32, usize, &'static str, Change);

fn of_tables() -> Vec<Row> {
    const NOWHERE: u32 = u32::MAX;
    vec![
        (1, 0, "width 33", Words(|b| b.width = 33)),
        (2, 0, "a node word too many", Words(|b| b.nodes.push(0))),
        (3, 0, "a property word too many", Words(|b| b.props.push(0))),
        (4, 0, "a long pool", Words(|b| b.pool.resize(65537, 0))),
        (5, 2, "a name of no bytes", Words(|b| b.nodes[6 + 2] = 0)),
        (
            5,
            20,
            "a name outside the pool",
            Words(|b| b.nodes[60 + 1] = NOWHERE),
        ),
        (
            6,
            3,
            "a record that is its parent",
            Words(|b| b.nodes[9] = 3),
        ),
        (
            6,
            23,
            "a parent that is no ancestor of the record before",
            Words(|b| b.nodes[69] = 21),
        ),
        (
            7,
            1,
            "a value outside the pool",
            Words(|b| b.props[5 + 4] = NOWHERE),
        ),
        (7, 4, "a property of no record", Words(|b| b.props[20] = 99)),
        (
            8,
            1,
            "a property twice on record 0",
            Words(|b| b.props.copy_within(0..3, 5)),
        ),
        (
            8,
            3,
            "a property twice on a cpu",
            Words(|b| b.props.copy_within(10..13, 15)),
        ),
    ]
}

fn of_cpus_node() -> Vec<Row> {
    let no_cpus: fn(&mut Node) = |r| CPU_RECORDS.iter().for_each(|&c| rename(r, c, "x"));
    vec![
        (9, 0, "record 0 named cpu", Tree(|r| rename(r, 0, "cpu"))),
        (
            36,
            0,
            "#address-cells 3",
            Tree(|r| r.set("#address-cells", cell(3))),
        ),
        (
            37,
            0,
            "#size-cells 1",
            Tree(|r| r.set("#size-cells", cell(1))),
        ),
        (10, 0, "no cpu record", Tree(no_cpus)),
    ]
}

/// 12 and 13. A hart id may have any bits.
fn of_regs(width: u32) -> Vec<Row> {
    const OUTSIDE: &str = "reg with a bit outside";
    let bad_pair: fn(&mut Node) = |r| r.at(19).set("reg", [0, 0, 1, 0, 0, 0, 1, 0]);
    let mut rows = match most_cells(width) {
        2 => vec![
            (
                12,
                1,
                "reg of one cell where two are asked",
                Tree(|r| r.at(1).set("reg", [0; 4])),
            ),
            (12, 19, OUTSIDE, Tree(bad_pair)),
        ],
        _ => vec![
            (
                12,
                1,
                "reg of two cells where one is asked",
                Tree(|r| r.at(1).set("reg", [0; 8])),
            ),
            (12, 19, OUTSIDE, Tree(|r| r.at(19).set("reg", [1, 0, 1, 0]))),
        ],
    };
    rows.retain(|row| width != RISCV || row.2 != OUTSIDE);
    rows.extend([
        (13, 2, "reg of the cpu before", Tree(|r| copy_reg(r, 1, 2))),
        (
            13,
            23,
            "reg of a cpu further up",
            Tree(|r| copy_reg(r, 2, 23)),
        ),
    ]);
    rows
}

fn of_cpus() -> Vec<Row> {
    vec![
        (
            11,
            1,
            "device_type without a zero byte",
            Tree(|r| r.at(1).set("device_type", b"cpu")),
        ),
        (
            11,
            22,
            "device_type cpus",
            Tree(|r| r.at(22).set("device_type", b"cpus\0")),
        ),
        (
            17,
            1,
            "phandle 0",
            Tree(|r| r.at(1).set("phandle", cell(0))),
        ),
        (17, 19, "no phandle", Tree(|r| r.at(19).remove("phandle"))),
        (
            17,
            23,
            "phandle of another cpu",
            Tree(|r| r.at(23).set("phandle", cell(2))),
        ),
    ]
}

fn of_map() -> Vec<Row> {
    vec![
        (15, 0, "no map", Tree(|r| rename(r, 3, "cpu-maps"))),
        (
            16,
            8,
            "a second map below the map",
            Tree(|r| rename(r, 8, "cpu-map")),
        ),
        (
            16,
            21,
            "a second map elsewhere",
            Tree(|r| rename(r, 21, "cpu-map")),
        ),
        (
            18,
            20,
            "a core outside the map",
            Tree(|r| rename(r, 20, "core0")),
        ),
        (
            19,
            18,
            "no topology name below the map",
            Tree(|r| rename(r, 18, "x")),
        ),
        (
            20,
            9,
            "a cluster beside a core",
            Tree(|r| rename(r, 9, "cluster1")),
        ),
        (21, 9, "core1 after core1", Tree(|r| rename(r, 6, "core1"))),
        (
            21,
            12,
            "socket2 as one of two sockets",
            Tree(|r| rename(r, 12, "socket2")),
        ),
        (
            21,
            16,
            "cluster1 as the only child",
            Tree(|r| rename(r, 16, "cluster1")),
        ),
        (
            22,
            17,
            "a fifth cluster",
            Tree(|r| rename(r, 17, "cluster0")),
        ),
        (
            23,
            11,
            "a cluster without children",
            Tree(|r| rename(r, 11, "cluster0")),
        ),
        (
            24,
            8,
            "a thread without cpu",
            Tree(|r| r.at(8).remove("cpu")),
        ),
        (
            24,
            9,
            "a cpu that is no phandle",
            Tree(|r| r.at(9).set("cpu", cell(99))),
        ),
        (
            25,
            18,
            "a cpu named twice",
            Tree(|r| r.at(18).set("cpu", cell(1))),
        ),
        (
            26,
            24,
            "a cpu that no leaf names",
            Tree(|r| rename(r, 24, "cpu@777")),
        ),
        (27, 0, "59 row words for 5 cpus", Words(|b| b.room = 59)),
    ]
}
