// SPDX-License-Identifier: BSD-2-Clause OR GPL-2.0-or-later
//! Boards whose siblings do not stand in the order of their numbers.

use super::faults::{self, rename};
use super::worked::{self, cores};
use super::Node;
use crate::width::ARM64;

fn renamed(mut root: Node, names: [(usize, &str); 2]) -> Node {
    for (record, name) in names {
        rename(&mut root, record, name);
    }
    root
}

/// The whole case, width 64, with `core1` before `core0`.
pub fn cores_swapped() -> Node {
    renamed(worked::whole_case(), [(3, "core1"), (4, "core0")])
}

/// Example 2, width 32, with `cluster1` before `cluster0`.
pub fn clusters_swapped() -> Node {
    renamed(worked::example_2(), [(2, "cluster1"), (7, "cluster0")])
}

/// The board that faults are made on, width 64, with `socket1` before `socket0`.
pub fn sockets_swapped() -> Node {
    renamed(faults::base(ARM64), [(4, "socket1"), (12, "socket0")])
}

/// The lone socket, width 32, with `thread1` before `thread0`.
pub fn threads_swapped() -> Node {
    renamed(worked::lone_socket(), [(5, "thread1"), (6, "thread0")])
}

/// Turns the order of siblings around, on all levels below a node.
pub fn reverse_siblings(node: &mut Node) {
    node.children.reverse();
    node.children.iter_mut().for_each(reverse_siblings);
}

/// A cluster whose children have these names, from record 3 on. Each names a cpu.
pub fn children_named(names: &[&str]) -> Node {
    let mpidrs: Vec<u64> = (0..names.len() as u64).collect();
    let mut root = cores(&mpidrs);
    for (at, name) in names.iter().enumerate() {
        rename(&mut root, 3 + at, name);
    }
    root
}
