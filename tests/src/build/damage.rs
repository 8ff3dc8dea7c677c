// SPDX-License-Identifier: BSD-2-Clause OR GPL-2.0-or-later
//! Changes that damage boards: to the tree, to the tables, and plain garbage.

use super::property_faults::NEEDED;
use super::{cell, Board, Node};
use crate::rng::Rng;
use crate::width::{UNKNOWN_WIDTHS, WIDTHS};
use sunderwath::ROW_WORDS;

const NAMES: [&str; 26] = [
    "cpu-map",
    "cpu",
    "cpu@0",
    "cpu@",
    "cpus",
    "socket0",
    "socket1",
    "cluster0",
    "cluster1",
    "cluster2",
    "core0",
    "core1",
    "core2",
    "core9999",
    "core10000",
    "core01",
    "core",
    "thread0",
    "thread1",
    "thread2",
    "thread",
    "x",
    "Core0",
    "core0 ",
    "core0\0",
    "cluster-1",
];

const PROPS: [&str; 10] = [
    "cpu",
    "cpu0",
    "reg",
    "phandle",
    "linux,phandle",
    "device_type",
    "#address-cells",
    "#size-cells",
    "compatible",
    "cpu\0",
];

/// One change to a tree.
pub fn spoil_tree(rng: &mut Rng, root: &mut Node) {
    let record = rng.below(root.count());
    match rng.below(17) {
        0 | 1 => root.at(record).name = rng.pick(&NAMES).as_bytes().to_vec(),
        2 => remove_property(rng, root.at(record)),
        3 | 4 => spoil_value(rng, root.at(record)),
        5 => rename_property(rng, root.at(record)),
        6 => repeat_property(rng, root.at(record)),
        7 => remove_child(rng, root.at(record)),
        8 => repeat_child(rng, root.at(record)),
        9 => swap_children(rng, root.at(record)),
        10 => move_subtree(rng, root),
        11 => insert_node(rng, root.at(record)),
        12 => copy_value(rng, root),
        13 => wrap_children(rng, root),
        14 => renumber_sibling(rng, root),
        15 => spoil_needed(rng, root),
        _ => renumber(rng, root.at(record)),
    }
}

fn remove_property(rng: &mut Rng, node: &mut Node) {
    if !node.props.is_empty() {
        let at = rng.below(node.props.len());
        node.props.remove(at);
    }
}

fn spoil_value(rng: &mut Rng, node: &mut Node) {
    if node.props.is_empty() {
        return;
    }
    let at = rng.below(node.props.len());
    spoil_bytes(rng, &mut node.props[at].1);
}

fn spoil_bytes(rng: &mut Rng, value: &mut Vec<u8>) {
    match rng.below(7) {
        0 => *value = cell(*rng.pick(&[0, 1, 2, 3, 0xFF, 0x100, u32::MAX])),
        1 => value.push(rng.byte()),
        2 => drop(value.pop()),
        3 => value.clear(),
        4 => value.extend_from_slice(&[0, 0, 0, 0]),
        5 => value.reverse(),
        _ if value.is_empty() => {}
        _ => {
            let byte = rng.below(value.len());
            value[byte] ^= 1 << rng.below(8);
        }
    }
}

/// Removes or spoils a property that rules ask for of some nodes.
fn spoil_needed(rng: &mut Rng, root: &mut Node) {
    let name = rng.pick(&NEEDED).name;
    let owners = owners(root, name);
    if owners.is_empty() {
        return;
    }
    let node = root.at(*rng.pick(&owners));
    let mut value = node.get(name).unwrap_or_default().to_vec();
    if rng.one_in(3) {
        node.remove(name);
    } else {
        spoil_bytes(rng, &mut value);
        node.set(name, value);
    }
}

/// The records of the nodes that have a property.
fn owners(root: &mut Node, name: &str) -> Vec<usize> {
    let all = 0..root.count();
    all.filter(|&record| root.at(record).get(name).is_some())
        .collect()
}

fn rename_property(rng: &mut Rng, node: &mut Node) {
    if !node.props.is_empty() {
        let at = rng.below(node.props.len());
        node.props[at].0 = rng.pick(&PROPS).as_bytes().to_vec();
    }
}

fn repeat_property(rng: &mut Rng, node: &mut Node) {
    if !node.props.is_empty() {
        let prop = rng.pick(&node.props).clone();
        node.props.push(prop);
    }
}

fn remove_child(rng: &mut Rng, node: &mut Node) {
    if !node.children.is_empty() {
        let at = rng.below(node.children.len());
        node.children.remove(at);
    }
}

fn repeat_child(rng: &mut Rng, node: &mut Node) {
    if !node.children.is_empty() {
        let child = rng.pick(&node.children).clone();
        node.children.push(child);
    }
}

fn swap_children(rng: &mut Rng, node: &mut Node) {
    if !node.children.is_empty() {
        let (a, b) = (
            rng.below(node.children.len()),
            rng.below(node.children.len()),
        );
        node.children.swap(a, b);
    }
}

fn move_subtree(rng: &mut Rng, root: &mut Node) {
    let from = rng.below(root.count());
    let node = root.at(from);
    if node.children.is_empty() {
        return;
    }
    let at = rng.below(node.children.len());
    let moved = node.children.remove(at);
    let to = rng.below(root.count());
    let target = root.at(to);
    let place = rng.below(target.children.len() + 1);
    target.children.insert(place, moved);
}

fn insert_node(rng: &mut Rng, node: &mut Node) {
    let mut new = Node::new(*rng.pick(&NAMES));
    if rng.one_in(2) {
        new.set("cpu", cell(rng.between(1, 4) as u32));
    }
    let place = rng.below(node.children.len() + 1);
    node.children.insert(place, new);
}

/// Copies a property's value from one node to another that has it too.
fn copy_value(rng: &mut Rng, root: &mut Node) {
    let name = *rng.pick(&["reg", "phandle", "cpu"]);
    let owners = owners(root, name);
    if !owners.is_empty() {
        let from = root.at(*rng.pick(&owners)).get(name).map(<[u8]>::to_vec);
        let to = root.at(*rng.pick(&owners));
        to.set(name, from.unwrap_or_default());
    }
}

/// Puts one or more clusters between a cluster and its children.
fn wrap_children(rng: &mut Rng, root: &mut Node) {
    let record = (1..root.count()).find(|&r| root.at(r).name.starts_with(b"cluster"));
    let node = match record {
        Some(record) => root.at(record),
        None => return,
    };
    for _ in 0..rng.between(1, 4) {
        let inner = Node {
            children: std::mem::take(&mut node.children),
            ..Node::new("cluster0")
        };
        node.children.push(inner);
    }
}

/// Changes the last character of a name to another digit.
fn renumber(rng: &mut Rng, node: &mut Node) {
    if let Some(last) = node.name.last_mut() {
        *last = b'0' + rng.below(10) as u8;
    }
}

/// Gives a node the number of a sibling, or one around the count of siblings.
fn renumber_sibling(rng: &mut Rng, root: &mut Node) {
    let all = 1..root.count();
    let parents: Vec<usize> = all
        .filter(|&record| !root.at(record).children.is_empty())
        .collect();
    if parents.is_empty() {
        return;
    }
    let siblings = &mut root.at(*rng.pick(&parents)).children;
    let count = siblings.len();
    let number = match rng.below(4) {
        0 => count - 1,
        1 => count,
        2 => count + 1,
        _ => rng.below(count),
    };
    set_number(&mut siblings[rng.below(count)].name, number);
}

fn set_number(name: &mut Vec<u8>, number: usize) {
    while name.last().map_or(false, u8::is_ascii_digit) {
        name.pop();
    }
    name.extend(number.to_string().bytes());
}

/// The number of any board, and once in `n` times of none.
pub fn some_width(rng: &mut Rng, n: usize) -> u32 {
    match rng.one_in(n) {
        true => *rng.pick(&UNKNOWN_WIDTHS),
        false => *rng.pick(&WIDTHS),
    }
}

/// One change to the tables: words, bytes, lengths, offsets.
pub fn spoil_tables(rng: &mut Rng, board: &mut Board) {
    match rng.below(12) {
        0 => board.width = some_width(rng, 2),
        1 | 2 => spoil_word(rng, true, board),
        3 | 4 => spoil_word(rng, false, board),
        5 | 6 => spoil_byte(rng, &mut board.pool),
        7 => cut_or_grow(rng, &mut board.nodes),
        8 => cut_or_grow(rng, &mut board.props),
        9 if rng.one_in(8) => board.pool.resize(rng.between(65_530, 65_540), 0),
        9 => board.pool.truncate(rng.below(board.pool.len() + 1)),
        10 => swap_records(rng, board),
        _ => board.room = rng.below(6 * ROW_WORDS),
    }
}

fn spoil_byte(rng: &mut Rng, pool: &mut [u8]) {
    if pool.is_empty() {
        return;
    }
    let at = rng.below(pool.len());
    pool[at] = match rng.below(4) {
        0 => pool[at] ^ 1 << rng.below(8),
        1 => 0,
        2 => b'0' + rng.below(10) as u8,
        _ => rng.byte(),
    };
}

fn spoil_word(rng: &mut Rng, of_nodes: bool, board: &mut Board) {
    let pool = board.pool.len() as u32;
    let words = if of_nodes {
        &mut board.nodes
    } else {
        &mut board.props
    };
    if words.is_empty() {
        return;
    }
    let at = rng.below(words.len());
    words[at] = match rng.below(10) {
        0 => words[at].wrapping_add(1),
        1 => words[at].wrapping_sub(1),
        2 => 0,
        3 => u32::MAX,
        4 => pool,
        5 => pool.wrapping_sub(words[at]),
        6 => words[at] ^ 1 << rng.below(32),
        7 => *rng.pick(words),
        8 => rng.below(70) as u32,
        _ => rng.word(),
    };
}

fn cut_or_grow(rng: &mut Rng, words: &mut Vec<u32>) {
    if rng.one_in(2) {
        let keep = words.len().saturating_sub(rng.between(1, 6));
        words.truncate(keep);
    } else {
        for _ in 0..rng.between(1, 6) {
            let word = if words.is_empty() || rng.one_in(2) {
                rng.below(8) as u32
            } else {
                *rng.pick(words)
            };
            words.push(word);
        }
    }
}

fn swap_records(rng: &mut Rng, board: &mut Board) {
    let (words, size) = if rng.one_in(2) {
        (&mut board.nodes, 3)
    } else {
        (&mut board.props, 5)
    };
    let count = words.len() / size;
    if count == 0 {
        return;
    }
    let (a, b) = (rng.below(count), rng.below(count));
    for at in 0..size {
        words.swap(size * a + at, size * b + at);
    }
}

/// Gives property `later` the node and the name of property `earlier`.
pub fn repeat(board: &mut Board, earlier: usize, later: usize) {
    let from = 5 * earlier;
    board.props.copy_within(from..from + 3, 5 * later);
}

/// Tables of random words, small enough to get past some rules at times.
pub fn garbage(rng: &mut Rng) -> Board {
    let nodes = rng.below(30);
    let props = rng.below(40);
    let pool: Vec<u8> = (0..rng.below(60)).map(|_| rng.byte()).collect();
    let small = rng.one_in(2);
    let word = |rng: &mut Rng| match (small, rng.below(8)) {
        (_, 0) => u32::MAX,
        (true, _) => rng.below(12) as u32,
        (false, 1..=3) => rng.below(80) as u32,
        (false, _) => rng.word(),
    };
    let mut board = Board {
        width: some_width(rng, 4),
        nodes: (0..nodes).map(|_| word(rng)).collect(),
        props: (0..props).map(|_| word(rng)).collect(),
        pool,
        room: rng.below(100),
    };
    if rng.one_in(2) {
        // Sound nodes, so that the properties are looked at.
        for (record, node) in board.nodes.chunks_mut(3).enumerate() {
            let plain = [(record as u32).wrapping_sub(1), 0, 1];
            node.copy_from_slice(&plain[..node.len()]);
        }
    }
    board
}
