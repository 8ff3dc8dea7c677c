// SPDX-License-Identifier: BSD-2-Clause OR GPL-2.0-or-later
//! The records of a whole stream. A node's depth is all that is kept of the
//! nesting: the nodes below it are those behind it that are deeper.

use super::flat::FlatTables;
use super::flat_tokens::{Bytes, Placed, Token};

struct Node {
    name: Bytes,
    /// The root has depth 1.
    depth: usize,
}

struct Property {
    /// The last node that began before it: no property follows a child.
    node: usize,
    name: Bytes,
    value: Bytes,
}

pub struct Tree {
    nodes: Vec<Node>,
    props: Vec<Property>,
}

fn words((offset, length): Bytes) -> [u32; 2] {
    [offset as u32, length as u32]
}

impl Tree {
    pub fn of(list: &[Placed]) -> Tree {
        let mut tree = Tree {
            nodes: Vec::new(),
            props: Vec::new(),
        };
        let mut depth = 0;
        for (_, token) in list {
            match *token {
                Token::Begin { name } => {
                    depth += 1;
                    tree.nodes.push(Node { name, depth });
                }
                Token::EndNode => depth -= 1,
                Token::Property { name, value } => {
                    let node = tree.nodes.len() - 1;
                    tree.props.push(Property { node, name, value });
                }
                _ => {}
            }
        }
        tree
    }

    /// The root's children with a name.
    pub fn children_of_root(&self, blob: &[u8], name: &[u8]) -> Vec<usize> {
        let named = |node: &Node| {
            let (offset, length) = node.name;
            node.depth == 2 && &blob[offset..offset + length] == name
        };
        let all = 0..self.nodes.len();
        all.filter(|&at| named(&self.nodes[at])).collect()
    }

    /// The tables of a node and all below it, in the stream's order.
    pub fn tables(&self, top: usize) -> FlatTables {
        let depth = self.nodes[top].depth;
        let behind = self.nodes[top + 1..].iter();
        let below = behind.take_while(|node| node.depth > depth).count();
        let all = top..=top + below;
        let mut tables = FlatTables::default();
        // The record that came last at each depth.
        let mut latest = vec![u32::MAX; depth];
        for at in all.clone() {
            let node = &self.nodes[at];
            latest.truncate(node.depth);
            tables.nodes.push(latest[node.depth - 1]);
            tables.nodes.extend(words(node.name));
            latest.push((at - top) as u32);
        }
        for prop in self.props.iter().filter(|prop| all.contains(&prop.node)) {
            tables.props.push((prop.node - top) as u32);
            tables.props.extend(words(prop.name));
            tables.props.extend(words(prop.value));
        }
        tables
    }
}
