// SPDX-License-Identifier: BSD-2-Clause OR GPL-2.0-or-later
//! Every small map over a small alphabet of names.

use super::worked::{cpu_node, cpus_node};
use super::{cell, Board, Node};
use crate::width::RISCV;
use sunderwath::ROW_WORDS;

pub const NAMES: [&str; 8] = [
    "socket0", "cluster0", "cluster1", "core0", "core1", "thread0", "thread1", "x",
];

/// Every depth-first list of parents of `count` records below the map; the
/// number is that of an earlier record, or None for the map itself.
pub fn parent_lists(count: usize) -> Vec<Vec<Option<usize>>> {
    let mut lists = vec![Vec::new()];
    for at in 0..count {
        let grown = lists.iter().flat_map(|list: &Vec<Option<usize>>| {
            open_records(list, at).into_iter().map(|parent| {
                let mut next = list.clone();
                next.push(parent);
                next
            })
        });
        lists = grown.collect();
    }
    lists
}

/// The record before `at`, its ancestors, and the map.
fn open_records(list: &[Option<usize>], at: usize) -> Vec<Option<usize>> {
    let mut open = Vec::new();
    let mut next = at.checked_sub(1);
    while let Some(record) = next {
        open.push(Some(record));
        next = list[record];
    }
    open.push(None);
    open
}

/// The digits of `number` in a base, lowest first.
fn digits(number: usize, base: usize, count: usize) -> impl Iterator<Item = usize> {
    (0..count as u32).map(move |at| number / base.pow(at) % base)
}

fn subtree(parents: &[Option<usize>], nodes: &[Node], parent: Option<usize>) -> Vec<Node> {
    let children = (0..nodes.len()).filter(|&at| parents[at] == parent);
    let build = |at: usize| Node {
        children: subtree(parents, nodes, Some(at)),
        ..nodes[at].clone()
    };
    children.map(build).collect()
}

/// One address cell; hart ids fall from the highest, MPIDRs rise from 0.
fn board(width: u32, parents: &[Option<usize>], nodes: &[Node], cpus: usize) -> Board {
    let map = Node {
        children: subtree(parents, nodes, None),
        ..Node::new("cpu-map")
    };
    let mut root = cpus_node(1).child(map);
    for at in 0..cpus {
        let reg = match width {
            RISCV => u32::MAX - at as u32,
            _ => at as u32,
        };
        root.children
            .push(cpu_node(1, u64::from(reg), at as u32 + 1));
    }
    let mut board = Board::of(width, &root);
    board.room = ROW_WORDS * cpus;
    board
}

/// Calls `job` with every map of `count` records in which the childless ones
/// name the cpus in order.
pub fn maps_in_order(width: u32, count: usize, job: &mut dyn FnMut(Board)) {
    for parents in parent_lists(count) {
        let is_parent = |at: usize| parents.contains(&Some(at));
        let ends = (0..count).filter(|&at| !is_parent(at)).count();
        for choice in 0..NAMES.len().pow(count as u32) {
            let mut nodes = Vec::new();
            let mut phandle = 0;
            for (at, name) in digits(choice, NAMES.len(), count).enumerate() {
                let mut node = Node::new(NAMES[name]);
                if !is_parent(at) {
                    phandle += 1;
                    node.set("cpu", cell(phandle));
                }
                nodes.push(node);
            }
            job(board(width, &parents, &nodes, ends.max(1)));
        }
    }
}

/// Calls `job` with every map of `count` records and every choice of `cpu`:
/// missing, one of two cpus, or unknown; on boards of one and of two cpus.
pub fn maps_with_choices(width: u32, count: usize, job: &mut dyn FnMut(Board)) {
    const CHOICES: usize = 4;
    for parents in parent_lists(count) {
        for choice in 0..NAMES.len().pow(count as u32) {
            for cpu_choice in 0..CHOICES.pow(count as u32) {
                let names = digits(choice, NAMES.len(), count);
                let phandles = digits(cpu_choice, CHOICES, count);
                let build = |(name, phandle): (usize, usize)| match phandle {
                    0 => Node::new(NAMES[name]),
                    _ => Node::new(NAMES[name]).with("cpu", cell(phandle as u32)),
                };
                let nodes: Vec<Node> = names.zip(phandles).map(build).collect();
                job(board(width, &parents, &nodes, 1));
                job(board(width, &parents, &nodes, 2));
            }
        }
    }
}
