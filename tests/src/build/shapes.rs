// SPDX-License-Identifier: BSD-2-Clause OR GPL-2.0-or-later
//! Generators of valid boards of all shapes.

use super::property_faults::NEEDED;
use super::worked::{cpu_node, cpus_node};
use super::{cell, Node};
use crate::rng::Rng;
use crate::width::{most_cells, ARM64, RISCV, WIDTHS};

/// Nodes outside the map that break no rule.
const OTHER_NAMES: [&str; 12] = [
    "idle-states",
    "l2-cache0",
    "l3-cache",
    "cpu0",
    "cpu-",
    "cpus",
    "cpu-map0",
    "core",
    "core01",
    "thread1x",
    "socket10000",
    "cluster-0",
];

const OTHER_PROPS: [&str; 8] = [
    "compatible",
    "enable-method",
    "capacity-dmips-mhz",
    "next-level-cache",
    "cpu-idle-states",
    "clocks",
    "status",
    "cpu0",
];

/// A board that must be accepted: its width and tree.
pub fn valid_board(rng: &mut Rng, most_cpus: usize) -> (u32, Node) {
    let width = *rng.pick(&WIDTHS);
    (width, valid_tree(rng, width, most_cpus))
}

/// The tree of a board of a width that must be accepted.
pub fn valid_tree(rng: &mut Rng, width: u32, most_cpus: usize) -> Node {
    let cells = rng.between(1, most_cells(width) as usize) as u32;
    let budget = rng.between(1, most_cpus);
    let mut map = Node::new("cpu-map");
    map.children = map_children(rng, budget);
    let mut leaves = Vec::new();
    collect_leaves(&mut map, &mut leaves);
    let count = leaves.len();
    let phandles = distinct_phandles(rng, count);
    for (leaf, phandle) in leaves.into_iter().zip(&phandles) {
        leaf.set("cpu", cell(*phandle));
    }
    let regs = match width {
        RISCV => distinct(rng, count, some_hart),
        _ => distinct(rng, count, |rng, style, at| {
            some_mpidr(rng, style, cells, at)
        }),
    };
    let mut cpus = cpu_nodes(rng, cells, &regs, &phandles);
    rng.shuffle(&mut cpus);
    assemble(rng, cells, map, cpus)
}

/// Parts of a budget, each at least 1.
fn split(rng: &mut Rng, budget: usize, parts: usize) -> Vec<usize> {
    let mut shares = vec![1; parts];
    for _ in parts..budget {
        shares[rng.below(parts)] += 1;
    }
    shares
}

/// Siblings of a kind, each number from 0 up once.
fn numbered(
    rng: &mut Rng,
    kind: &str,
    budget: usize,
    most: usize,
    mut fill: impl FnMut(&mut Rng, usize) -> Vec<Node>,
) -> Vec<Node> {
    let parts = rng.between(1, most.min(budget));
    let shares = split(rng, budget, parts);
    let build = |(number, share)| Node {
        children: fill(rng, share),
        ..Node::new(format!("{kind}{number}"))
    };
    let siblings = shares.into_iter().enumerate().map(build).collect();
    some_order(rng, siblings)
}

/// In half of the cases in the order of their numbers, otherwise in any order.
fn some_order(rng: &mut Rng, mut siblings: Vec<Node>) -> Vec<Node> {
    if rng.one_in(2) {
        rng.shuffle(&mut siblings);
    }
    siblings
}

fn map_children(rng: &mut Rng, budget: usize) -> Vec<Node> {
    if rng.one_in(2) {
        return clusters(rng, budget, 1);
    }
    numbered(rng, "socket", budget, 4, |rng, share| {
        clusters(rng, share, 1)
    })
}

/// Clusters on a level from 1 to 4.
fn clusters(rng: &mut Rng, budget: usize, level: usize) -> Vec<Node> {
    numbered(rng, "cluster", budget, 4, |rng, share| {
        if level < 4 && rng.one_in(2) {
            clusters(rng, share, level + 1)
        } else {
            cores(rng, share)
        }
    })
}

/// As many cores as wanted, with and without threads side by side.
fn cores(rng: &mut Rng, budget: usize) -> Vec<Node> {
    let smt = rng.below(3);
    numbered(rng, "core", budget, 64, |rng, share| {
        let threads = share > 1 || smt == 2 || smt == 1 && rng.one_in(2);
        let most = if threads { share } else { 0 };
        let siblings = (0..most).map(|n| Node::new(format!("thread{n}")));
        some_order(rng, siblings.collect())
    })
}

fn collect_leaves<'a>(node: &'a mut Node, leaves: &mut Vec<&'a mut Node>) {
    if node.children.is_empty() {
        leaves.push(node);
        return;
    }
    for child in &mut node.children {
        collect_leaves(child, leaves);
    }
}

fn distinct_phandles(rng: &mut Rng, count: usize) -> Vec<u32> {
    let dense = rng.one_in(2);
    let mut phandles: Vec<u32> = Vec::new();
    while phandles.len() < count {
        let next = if dense {
            phandles.len() as u32 + 1
        } else {
            rng.word()
        };
        if next != 0 && next != u32::MAX && !phandles.contains(&next) {
            phandles.push(next);
        }
    }
    rng.shuffle(&mut phandles);
    phandles
}

/// An MPIDR in one of several styles; `at` is a running number.
fn some_mpidr(rng: &mut Rng, style: usize, cells: u32, at: u64) -> u64 {
    let wide = if cells == 2 {
        0xFF_00FF_FFFF
    } else {
        0xFF_FFFF
    };
    let mpidr = match style {
        0 => at,
        1 => at << 8 | 0x0F_0000,
        2 => (at & 1) | (at >> 1 & 3) << 8 | (at >> 3 & 7) << 16 | (at >> 6) << 32,
        3 => (at & 3) << 6 | (at >> 2 & 3) << 14 | (at >> 4 & 3) << 22 | (at >> 6) << 38,
        _ => rng.wide(),
    };
    mpidr & wide
}

/// A hart id in one of several styles: any 32 bits may be set.
fn some_hart(rng: &mut Rng, style: usize, at: u64) -> u64 {
    let hart = match style {
        0 => at as u32,
        1 => u32::MAX - at as u32,
        2 => (at as u32).rotate_right(8),
        3 => 1u32.rotate_left(at as u32) | (at as u32 >> 5) << 8,
        _ => rng.word(),
    };
    u64::from(hart)
}

/// As many values of one style as asked for, all different. The last style is
/// that of any value.
fn distinct(rng: &mut Rng, count: usize, some: impl Fn(&mut Rng, usize, u64) -> u64) -> Vec<u64> {
    const STYLES: usize = 5;
    let style = rng.below(STYLES);
    let mut values: Vec<u64> = Vec::new();
    while values.len() < count {
        let mut next = some(rng, style, values.len() as u64);
        while values.contains(&next) {
            next = some(rng, STYLES - 1, 0);
        }
        values.push(next);
    }
    values
}

fn cpu_nodes(rng: &mut Rng, cells: u32, regs: &[u64], phandles: &[u32]) -> Vec<Node> {
    let build = |(&reg, &phandle)| {
        let mut cpu = cpu_node(cells, reg, phandle);
        match rng.below(12) {
            0 => cpu.name = b"cpu".to_vec(),
            1 => cpu.name = b"cpu@".to_vec(),
            _ => {}
        }
        cpu
    };
    regs.iter().zip(phandles).map(build).collect()
}

/// Puts the map before, after or among the cpu nodes, and adds other nodes.
fn assemble(rng: &mut Rng, cells: u32, mut map: Node, cpus: Vec<Node>) -> Node {
    idle_cpu_properties(rng, &mut map, true);
    let mut root = cpus_node(cells);
    root.children = cpus;
    let at = match rng.below(3) {
        0 => 0,
        1 => root.children.len(),
        _ => rng.below(root.children.len() + 1),
    };
    root.children.insert(at, map);
    if rng.one_in(2) {
        for _ in 0..rng.below(4) {
            let at = rng.below(root.children.len() + 1);
            root.children.insert(at, other_node(rng, 2));
        }
    }
    if rng.one_in(2) {
        other_properties(rng, &mut root);
    }
    shuffle_properties(rng, &mut root);
    root
}

/// Properties that no rule asks for, and such as are asked for at other nodes.
fn other_properties(rng: &mut Rng, root: &mut Node) {
    for _ in 0..rng.below(10) {
        let record = rng.below(root.count());
        let value: Vec<u8> = (0..rng.below(10)).map(|_| rng.byte()).collect();
        let node = root.at(record);
        let other = *rng.pick(&OTHER_PROPS);
        match rng.one_in(2) {
            true => node.set(other, value),
            false => node.add(rng.pick(&NEEDED).name, value),
        }
    }
}

/// `cpu` on nodes with children is ignored, so any value may stand there.
fn idle_cpu_properties(rng: &mut Rng, node: &mut Node, is_map: bool) {
    if !is_map && !node.children.is_empty() && rng.one_in(6) {
        let value: Vec<u8> = (0..rng.below(6)).map(|_| rng.byte()).collect();
        node.set("cpu", value);
    }
    for child in &mut node.children {
        idle_cpu_properties(rng, child, false);
    }
}

fn other_node(rng: &mut Rng, depth: usize) -> Node {
    let mut node = Node::new(*rng.pick(&OTHER_NAMES));
    if rng.one_in(3) {
        node.set("phandle", cell(rng.between(1, 8) as u32));
    }
    if depth > 0 && rng.one_in(3) {
        node.children.push(other_node(rng, depth - 1));
        if rng.one_in(2) {
            // Not a child of record 0, so it is no cpu record.
            node.children.push(Node::new("cpu@0"));
        }
    }
    node
}

fn shuffle_properties(rng: &mut Rng, node: &mut Node) {
    rng.shuffle(&mut node.props);
    for child in &mut node.children {
        shuffle_properties(rng, child);
    }
}

/// Adds other nodes and properties until the counts are reached.
pub fn fill_up(root: &mut Node, records: usize, props: usize) {
    let first = root.children.len();
    let missing = records.saturating_sub(root.count());
    for _ in 0..missing {
        root.children.push(Node::new("x"));
    }
    let missing_props = props.saturating_sub(root.prop_count());
    if missing == 0 {
        for at in 0..missing_props {
            root.set(&format!("p{at}"), []);
        }
        return;
    }
    for at in 0..missing_props {
        let node = &mut root.children[first + at % missing];
        node.set(&format!("p{}", at / missing), []);
    }
}

/// A board with a given number of cpus in clusters of four cores, width 64.
pub fn regular_board(cpus: usize) -> Node {
    regular_board_of(ARM64, cpus)
}

/// The same as a board of a width, with as many address cells as it allows.
pub fn regular_board_of(width: u32, cpus: usize) -> Node {
    let cells = most_cells(width);
    let mut map = Node::new("cpu-map");
    let mut nodes = Vec::new();
    for at in 0..cpus {
        let (cluster, core) = (at / 4, at % 4);
        if core == 0 {
            map.children.push(Node::new(format!("cluster{cluster}")));
        }
        let phandle = at as u32 + 1;
        let leaf = super::worked::leaf(&format!("core{core}"), phandle);
        map.children[cluster].children.push(leaf);
        let cpu = match width {
            RISCV => cpu_node(cells, at as u64, phandle)
                .with("compatible", b"sifive,u74-mc\0riscv\0")
                .with("riscv,isa", b"rv64imafdc\0"),
            _ => cpu_node(cells, (cluster << 8 | core) as u64, phandle)
                .with("compatible", b"arm,cortex-a53\0")
                .with("enable-method", b"psci\0"),
        };
        nodes.push(cpu);
    }
    let mut root = cpus_node(cells).child(map);
    root.children.extend(nodes);
    root
}
