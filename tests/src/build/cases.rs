// SPDX-License-Identifier: BSD-2-Clause OR GPL-2.0-or-later
//! What the program `cases` runs, each with a label: boards, alone and with a table of slots, lists and names.

use super::faults::{faults, with_faults};
use super::order::{self, children_named};
use super::property_faults;
use super::shapes::{fill_up, regular_board};
use super::worked::{self, cores, harts, leaf, nested, SPARSE_HARTS};
use super::{cell, Board, Node};
use crate::rng::Rng;
use crate::width::{ARM64, RISCV};

pub type Case = (String, Board);

/// A board with the entries of the table that is lent.
pub type SlotCase = (String, Board, usize);

/// A list of MPIDRs.
pub struct List {
    pub label: &'static str,
    pub mpidrs: Vec<u64>,
    /// The MPIDRs whose slots are asked.
    pub asked: Vec<u64>,
}

/// N1 to N6.
pub const NAMES: [(&str, &str); 6] = [
    ("N1", "cluster0"),
    ("N2", "core10"),
    ("N3", "core01"),
    ("N4", "thread"),
    ("N5", "socket9999"),
    ("N6", "socket10000"),
];

/// H1 to H7, with the slots of all MPIDRs; then what is refused, and the limit.
pub fn lists() -> Vec<List> {
    let whole = |label, mpidrs: Vec<u64>| List {
        label,
        asked: mpidrs.clone(),
        mpidrs,
    };
    let one = |label, mpidrs, asked| List {
        label,
        mpidrs,
        asked: vec![asked],
    };
    let example_1 = (0..16).map(worked::example_1_mpidr).collect();
    let example_2 = [0x000, 0x100].iter().flat_map(|at| *at..at + 4).collect();
    vec![
        whole("H1", vec![0x0]),
        whole("H2", example_1),
        whole("H3", example_2),
        whole("H4", vec![0x2, 0x80]),
        whole("H5", (0xF00..0xF04).collect()),
        whole("H6", vec![0x0, 0xFF_00FF_FFFF]),
        whole("H7", vec![0x0, 0x5]),
        one("a bit outside", vec![0x0, 0x100_0000], 0x0),
        one(
            "an unknown MPIDR on a listed one's slot",
            vec![0x0, 0x1],
            0x1_0001,
        ),
        one("no MPIDR", vec![], 0x0),
        one("256 MPIDRs", (0..256).collect(), 0xFF),
        one("257 MPIDRs", (0..257).collect(), 0x100),
    ]
}

fn case(label: &str, width: u32, root: &Node) -> Case {
    (label.to_string(), Board::of(width, root))
}

/// All boards, in the order in which they are run.
pub fn boards() -> Vec<Case> {
    let groups = [
        worked_boards(),
        allowed(),
        slips(),
        limits(),
        rules(),
        orders(),
        properties(),
        cpus_node_faults().into(),
        riscv_boards(),
    ];
    groups.into_iter().flatten().collect()
}

/// The whole case of the scope, and the examples of document 000.
fn worked_boards() -> Vec<Case> {
    vec![
        case("whole case", 64, &worked::whole_case()),
        case("example 1", 64, &worked::example_1()),
        case("example 2", 32, &worked::example_2()),
        case("example 3", 64, &worked::example_3()),
        case(
            "example 3, cpu0 corrected",
            64,
            &worked::example_3_corrected(),
        ),
        case(
            "example 3, no phandle of CPU4",
            64,
            &worked::example_3_without_phandle(),
        ),
    ]
}

/// What the scope allows in words, and what stands right beside it.
fn allowed() -> Vec<Case> {
    let lone = worked::lone_socket();
    let path = ["cpu-map", "socket0", "cluster0", "core0"];
    let core = lone.find(&path).expect("it is there");
    let mut named = lone.clone();
    named.at(core).set("cpu", cell(3));
    let mut below = lone.clone();
    below.at(core + 1).children.push(leaf("thread0", 3));
    let mut under_map = cores(&[0]);
    under_map.at(1).children = vec![leaf("core0", 1)];
    let mut beside = lone.clone();
    beside.at(1).children.push(Node::new("cluster1"));
    vec![
        case("one cpu", 64, &cores(&[0x7])),
        case("one lone socket, cores with and without threads", 32, &lone),
        case("a cpu property on a core with children", 32, &named),
        case("a thread with a child", 32, &below),
        case("a core under the map", 64, &under_map),
        case("a cluster beside a socket", 32, &beside),
    ]
}

/// Boards that a reader with one of the slips answers otherwise.
fn slips() -> Vec<Case> {
    vec![
        case("no socket is no socket 0", 64, &cores(&[0x0, 0x1])),
        case("H4 as a board", 64, &cores(&[0x2, 0x80])),
        case("H5 as a board", 64, &cores(&[0xF00, 0xF01, 0xF02, 0xF03])),
        case("H6 as a board", 64, &cores(&[0x0, 0xFF_00FF_FFFF])),
        case("H7 as a board", 64, &cores(&[0x0, 0x5])),
        case(
            "cluster0 and then core1",
            64,
            &worked::cluster_beside_core(),
        ),
        case("rows before rule 26", 64, &worked::unmapped_cpu()),
    ]
}

/// The last board within each limit and the first beyond it.
fn limits() -> Vec<Case> {
    let mut cases = vec![
        case("four nested clusters", 64, &nested(4)),
        case("five nested clusters", 64, &nested(5)),
        case("256 cpus", 64, &regular_board(256)),
        case("257 cpus", 64, &regular_board(257)),
    ];
    for (label, records) in [("1,024 records", 1024), ("1,025 records", 1025)] {
        let mut root = regular_board(2);
        fill_up(&mut root, records, 0);
        cases.push(case(label, 64, &root));
    }
    cases.extend(property_limits());
    cases.extend(name_limits());
    let small = Board::of(64, &worked::whole_case());
    for (label, bytes) in [("65,536 bytes", 65536), ("65,537 bytes", 65537)] {
        let mut board = small.clone();
        board.pool.resize(bytes, 0);
        cases.push((label.to_string(), board));
    }
    for (label, room) in [("row words just enough", 24), ("a row word short", 23)] {
        let board = small.clone();
        cases.push((label.to_string(), Board { room, ..board }));
    }
    cases
}

/// 4,096 sound properties, and the same with one more behind them.
fn property_limits() -> [Case; 2] {
    let mut root = regular_board(2);
    fill_up(&mut root, 100, 4096);
    let most = case("4,096 properties", 64, &root);
    let last = root.count() - 1;
    root.at(last).set("one-more", []);
    [most, case("4,097 properties", 64, &root)]
}

/// The longest names, and those of a byte more.
fn name_limits() -> Vec<Case> {
    let of_record = |bytes| worked::whole_case().child(Node::new("n".repeat(bytes)));
    let of_property = |bytes: usize| worked::whole_case().with(&"p".repeat(bytes), []);
    vec![
        case("a name of 64 bytes", 64, &of_record(64)),
        case("a name of 65 bytes", 64, &of_record(65)),
        case("a property name of 31 bytes", 64, &of_property(31)),
        case("a property name of 32 bytes", 64, &of_property(32)),
    ]
}

/// Every number told, each for one change to a sound board.
fn rules() -> Vec<Case> {
    let sound = ("no rule broken".to_string(), with_faults(ARM64, &[]));
    let broken = faults(ARM64).into_iter().map(|fault| {
        let label = format!("rule {}: {}", fault.number, fault.what);
        (label, with_faults(ARM64, &[&fault]))
    });
    std::iter::once(sound).chain(broken).collect()
}

/// Siblings in any order, and numbers that are refused in each.
fn orders() -> Vec<Case> {
    let named = |label, names: &[&str]| case(label, 64, &children_named(names));
    let swapped = |label, width, root| case(label, width, &root);
    vec![
        swapped("W1 core1 before core0", 64, order::cores_swapped()),
        swapped("W1 clusters out of order", 32, order::clusters_swapped()),
        swapped("W1 sockets out of order", 64, order::sockets_swapped()),
        swapped(
            "W1 a thread pair out of order",
            32,
            order::threads_swapped(),
        ),
        named(
            "W1 a gap: core0 to core3, core6, core7",
            &["core0", "core1", "core2", "core3", "core6", "core7"],
        ),
        named(
            "W1 a repeated number: core0, core1, core1, core2",
            &["core0", "core1", "core1", "core2"],
        ),
        named(
            "W1 a number of the count of siblings: core2, core0",
            &["core2", "core0"],
        ),
        named("W1 core1 beside a nameless sibling", &["core1", "x"]),
    ]
}

/// A missing property, a wrong length and a wrong value for each number that has
/// a second place. The properties stand in some fixed order.
fn properties() -> Vec<Case> {
    let mut cases = Vec::new();
    for needed in &property_faults::NEEDED {
        let faults = property_faults::faults().into_iter();
        let of_number = faults.filter(|fault| fault.needed.number == needed.number);
        for fault in of_number.take(3) {
            let mut order = Rng::new(cases.len() as u64);
            let board = Board::shuffled(fault.widths[0], &fault.tree(), &mut order);
            cases.push((format!("W3 {} {}", needed.name, fault.what), board));
        }
    }
    cases
}

/// Several faults of record 0: the name is told first, then `#address-cells`.
fn cpus_node_faults() -> [Case; 2] {
    let cells = property_faults::base()
        .with("#address-cells", [0, 0, 1])
        .with("#size-cells", cell(1));
    let mut name = cells.clone();
    name.name = b"cpus@0".to_vec();
    [
        case("W3 name and both cell counts of record 0", 64, &name),
        case("W3 both cell counts of record 0", 64, &cells),
    ]
}

/// Boards of harts, and what stands right beside them.
fn riscv_boards() -> Vec<Case> {
    let sparse = harts(&SPARSE_HARTS);
    let corrected = worked::example_3_corrected();
    vec![
        case("W7 example 3", RISCV, &worked::example_3()),
        case("W7 example 3, cpu0 corrected", RISCV, &corrected),
        case(
            "W7 hart ids 0xffffffff and 0",
            RISCV,
            &harts(&[u32::MAX, 0]),
        ),
        case("W7 sparse harts", RISCV, &sparse),
        case("W7 sparse harts as width 64", ARM64, &sparse),
        case("W7 two address cells", RISCV, &cores(&[0x0, 0x1])),
        case("W7 equal hart ids", RISCV, &harts(&[7, u32::MAX, u32::MAX])),
        case("W7 board 4", RISCV - 1, &sparse),
    ]
}

/// Tables with the entries that are needed and more, one too few, and too many
/// bits; then what is told before.
pub fn slot_boards() -> Vec<SlotCase> {
    let whole = worked::whole_case();
    let lists: [(&str, &[u64], usize); 6] = [
        ("W5 H1", &[0x0], 1),
        ("W5 H4", &[0x2, 0x80], 130),
        ("W5 H6", &[0x0, 0xFF_00FF_FFFF], 4),
        ("W5 H7", &[0x0, 0x5], 9),
        ("W5 12 bits and 100 entries", &[0x0, 0xFFF], 100),
        ("W5 13 bits and no entry", &[0x0, 0x1FFF], 0),
    ];
    let mut cases: Vec<SlotCase> = (0..5)
        .map(|entries| {
            (
                format!("W5 whole case, a table of {entries}"),
                &whole,
                entries,
            )
        })
        .map(|(label, root, entries)| (label, Board::of(64, root), entries))
        .collect();
    for (label, mpidrs, entries) in lists {
        cases.push((label.to_string(), Board::of(64, &cores(mpidrs)), entries));
    }
    let short = Board {
        room: 23,
        ..Board::of(64, &whole)
    };
    cases.push(("W5 rows and table too short".to_string(), short, 1));
    let example_3 = Board::of(64, &worked::example_3());
    cases.push(("W5 example 3, no entry".to_string(), example_3, 0));
    let example_1 = Board::of(64, &worked::example_1());
    cases.push(("W5 example 1".to_string(), example_1, 17));
    for (label, entries) in [("W7 no entry", 0), ("W7 one entry and another", 2)] {
        let board = Board::of(RISCV, &harts(&[0, u32::MAX]));
        cases.push((label.to_string(), board, entries));
    }
    cases
}
