// SPDX-License-Identifier: BSD-2-Clause OR GPL-2.0-or-later
//! Boards for tests: a tree of nodes, and the tables made from it.

pub mod blob;
pub mod cases;
pub mod damage;
pub mod faults;
pub mod flat;
pub mod flat_case;
pub mod flat_damage;
pub mod flat_faults;
pub mod flat_form;
pub mod flat_large;
pub mod flat_mix;
pub mod flat_trees;
pub mod loader;
pub mod loader_faults;
pub mod lookup;
pub mod mix;
pub mod order;
pub mod overlap;
pub mod plans;
pub mod property_faults;
pub mod shapes;
pub mod shrink;
pub mod slots;
pub mod small;
pub mod text;
pub mod worked;

use crate::rng::Rng;
use std::collections::HashMap;
use sunderwath::{MAX_CPUS, ROW_WORDS};

/// Row words that are enough for every board.
pub const FULL_ROOM: usize = ROW_WORDS * MAX_CPUS;

/// Name and value.
pub type Property = (Vec<u8>, Vec<u8>);

#[derive(Clone, Debug, Default, PartialEq, Eq)]
pub struct Node {
    pub name: Vec<u8>,
    pub props: Vec<Property>,
    pub children: Vec<Node>,
}

/// A big-endian cell.
pub fn cell(value: u32) -> Vec<u8> {
    value.to_be_bytes().to_vec()
}

impl Node {
    pub fn new(name: impl AsRef<[u8]>) -> Node {
        Node {
            name: name.as_ref().to_vec(),
            ..Node::default()
        }
    }

    pub fn with(mut self, name: &str, value: impl AsRef<[u8]>) -> Node {
        self.set(name, value);
        self
    }

    pub fn child(mut self, child: Node) -> Node {
        self.children.push(child);
        self
    }

    /// Changes a property, or adds it.
    pub fn set(&mut self, name: &str, value: impl AsRef<[u8]>) {
        let value = value.as_ref().to_vec();
        match self.props.iter_mut().find(|(n, _)| n == name.as_bytes()) {
            Some((_, old)) => *old = value,
            None => self.props.push((name.as_bytes().to_vec(), value)),
        }
    }

    /// Adds a property, if there is none of that name.
    pub fn add(&mut self, name: &str, value: impl AsRef<[u8]>) {
        if self.get(name).is_none() {
            self.set(name, value);
        }
    }

    pub fn remove(&mut self, name: &str) {
        self.props.retain(|(n, _)| n != name.as_bytes());
    }

    pub fn get(&self, name: &str) -> Option<&[u8]> {
        let found = self.props.iter().find(|(n, _)| n == name.as_bytes());
        found.map(|(_, value)| value.as_slice())
    }

    /// Nodes of this subtree.
    pub fn count(&self) -> usize {
        1 + self.children.iter().map(Node::count).sum::<usize>()
    }

    pub fn prop_count(&self) -> usize {
        self.props.len() + self.children.iter().map(Node::prop_count).sum::<usize>()
    }

    /// The node with a record number, counted depth first from this one.
    pub fn at(&mut self, record: usize) -> &mut Node {
        if record == 0 {
            return self;
        }
        let mut left = record - 1;
        for child in &mut self.children {
            let count = child.count();
            if left < count {
                return child.at(left);
            }
            left -= count;
        }
        panic!("no record {record}");
    }

    /// The record number of a node given by the names on its path.
    pub fn find(&self, path: &[&str]) -> Option<usize> {
        let (first, rest) = match path {
            [] => return Some(0),
            [first, rest @ ..] => (first, rest),
        };
        let mut record = 1;
        for child in &self.children {
            if child.name == first.as_bytes() {
                return child.find(rest).map(|r| record + r);
            }
            record += child.count();
        }
        None
    }
}

/// A board as it is lent to a reader.
#[derive(Clone, Debug, PartialEq, Eq)]
pub struct Board {
    pub width: u32,
    pub nodes: Vec<u32>,
    pub props: Vec<u32>,
    pub pool: Vec<u8>,
    /// Words of the row buffer.
    pub room: usize,
}

/// Puts names and values into the pool.
struct Pool {
    bytes: Vec<u8>,
    seen: HashMap<Vec<u8>, u32>,
    share: bool,
}

impl Pool {
    fn new(share: bool) -> Pool {
        Pool {
            bytes: Vec::new(),
            seen: HashMap::new(),
            share,
        }
    }

    fn add(&mut self, bytes: &[u8]) -> [u32; 2] {
        let length = bytes.len() as u32;
        if self.share {
            if let Some(&offset) = self.seen.get(bytes) {
                return [offset, length];
            }
            self.seen.insert(bytes.to_vec(), self.bytes.len() as u32);
        }
        let offset = self.bytes.len() as u32;
        self.bytes.extend_from_slice(bytes);
        [offset, length]
    }
}

struct Flattened<'a> {
    board: Board,
    pool: Pool,
    props: Vec<(u32, &'a Property)>,
}

impl<'a> Flattened<'a> {
    fn add(&mut self, parent: u32, node: &'a Node) {
        let record = (self.board.nodes.len() / 3) as u32;
        let [offset, length] = self.pool.add(&node.name);
        self.board.nodes.extend([parent, offset, length]);
        self.props.extend(node.props.iter().map(|p| (record, p)));
        for child in &node.children {
            self.add(record, child);
        }
    }

    fn finish(mut self) -> Board {
        for (record, (name, value)) in &self.props {
            let [name_at, name_length] = self.pool.add(name);
            let [value_at, value_length] = self.pool.add(value);
            self.board
                .props
                .extend([*record, name_at, name_length, value_at, value_length]);
        }
        self.board.pool = self.pool.bytes;
        self.board
    }
}

fn flatten(width: u32, root: &Node, share: bool) -> Flattened<'_> {
    let mut flat = Flattened {
        board: Board {
            width,
            nodes: Vec::new(),
            props: Vec::new(),
            pool: Vec::new(),
            room: FULL_ROOM,
        },
        pool: Pool::new(share),
        props: Vec::new(),
    };
    flat.add(u32::MAX, root);
    flat
}

impl Board {
    /// Properties in the order of the nodes; equal bytes stand once.
    pub fn of(width: u32, root: &Node) -> Board {
        flatten(width, root, true).finish()
    }

    /// Properties in any order; equal bytes stand once or each time.
    pub fn shuffled(width: u32, root: &Node, rng: &mut Rng) -> Board {
        let mut flat = flatten(width, root, rng.one_in(2));
        rng.shuffle(&mut flat.props);
        flat.finish()
    }

    pub fn node_count(&self) -> usize {
        self.nodes.len() / 3
    }

    pub fn prop_count(&self) -> usize {
        self.props.len() / 5
    }

    /// The property record of a node with a name, on a board that keeps rules 1
    /// to 8.
    pub fn property(&self, record: usize, name: &str) -> Option<usize> {
        self.props.chunks(5).position(|prop| {
            let from = prop[1] as usize;
            let bytes = &self.pool[from..from + prop[2] as usize];
            prop[0] as usize == record && bytes == name.as_bytes()
        })
    }
}
