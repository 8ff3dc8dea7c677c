// SPDX-License-Identifier: BSD-2-Clause OR GPL-2.0-or-later
//! Trees for blobs: what may stand beside `/cpus`, and names that are not it.

use super::damage::spoil_tree;
use super::shapes::valid_board;
use super::worked::whole_case;
use super::{cell, Node};
use crate::rng::Rng;

/// Names of the root's children that are not `cpus`.
pub const NOT_CPUS: [&str; 12] = [
    "cpus@0", "cpus1", "cpu", "cpu-map", "cpus ", "Cpus", "CPUS", "xcpus", "", "c", "cpus-",
    "cpu@0",
];

/// Property names, of which some are the ends of others.
const PROPS: [&str; 10] = [
    "device_type",
    "type",
    "e",
    "",
    "reg",
    "cpu",
    "#address-cells",
    "address-cells",
    "cells",
    "a-name-of-more-than-thirty-one-bytes",
];

/// A root around a cpus node, with other children before and behind it.
pub fn around(cpus: Node) -> Node {
    let memory = Node::new("memory@80000000")
        .with("device_type", b"memory\0")
        .with("reg", [0x80, 0, 0, 0, 0, 1, 0, 0]);
    let chosen = Node::new("chosen").with("bootargs", b"quiet\0");
    Node::new("")
        .with("#address-cells", cell(1))
        .with("model", b"a board\0")
        .with("dma-coherent", [])
        .child(memory)
        .child(cpus)
        .child(Node::new("soc").child(Node::new("cpus").with("reg", cell(7))))
        .child(chosen)
}

/// The whole case of the scope paper, as a whole tree.
pub fn sample() -> Node {
    around(whole_case())
}

/// A small tree: two nodes and two properties below the root's only child.
pub fn small() -> Node {
    let inner = Node::new("a").with("reg", [1, 2, 3]);
    let cpus = Node::new("cpus").with("g", []).child(inner);
    Node::new("").child(cpus)
}

/// A tree of any sort.
pub fn some_root(rng: &mut Rng) -> Node {
    let mut root = Node::new(*rng.pick(&["", "", "/", "cpus", "a-root-with-a-name"]));
    add_props(rng, &mut root);
    for _ in 0..rng.below(3) {
        root.children.push(odd_node(rng, 2));
    }
    let count = *rng.pick(&[1, 1, 1, 1, 1, 1, 0, 2]);
    for _ in 0..count {
        let at = rng.below(root.children.len() + 1);
        let cpus = some_cpus(rng);
        root.children.insert(at, cpus);
    }
    root
}

/// A sound cpus node, a damaged one, or any node named `cpus`.
fn some_cpus(rng: &mut Rng) -> Node {
    if rng.one_in(2) {
        let (_, mut cpus) = valid_board(rng, 3);
        if rng.one_in(3) {
            spoil_tree(rng, &mut cpus);
        }
        return cpus;
    }
    Node {
        name: b"cpus".to_vec(),
        ..odd_node(rng, 3)
    }
}

fn odd_node(rng: &mut Rng, depth: usize) -> Node {
    let mut node = match rng.below(8) {
        0 => Node::new("cpus"),
        1 => Node::new("n".repeat(rng.between(60, 70))),
        _ => Node::new(*rng.pick(&NOT_CPUS)),
    };
    add_props(rng, &mut node);
    if depth > 0 {
        for _ in 0..rng.below(3) {
            node.children.push(odd_node(rng, depth - 1));
        }
    }
    node
}

fn add_props(rng: &mut Rng, node: &mut Node) {
    for _ in 0..rng.below(4) {
        let value: Vec<u8> = (0..rng.below(10)).map(|_| rng.byte()).collect();
        let name = *rng.pick(&PROPS);
        node.set(name, value);
    }
}
