// SPDX-License-Identifier: BSD-2-Clause OR GPL-2.0-or-later
//! Property tables for lookups: the ways to break rule 7, and tables of any sort
//! with a question.

use super::damage::repeat;
use super::{Board, FULL_ROOM};
use crate::rng::Rng;
use std::fmt;

const NONE: u32 = u32::MAX;

/// A way in which a property record breaks rule 7.
pub struct Way {
    pub what: &'static str,
    /// The node word and the name stay as they are.
    pub keeps_name: bool,
    /// Changes a record, given the count of nodes and of the pool's bytes.
    change: fn(&mut [u32], u32, u32),
}

/// Whether a changed record keeps its node word and its name.
const KEPT: bool = true;
const CHANGED: bool = false;

macro_rules! way {
    ($what:literal, $keeps_name:expr, $change:expr) => {
        Way {
            what: $what,
            keeps_name: $keeps_name,
            change: $change,
        }
    };
}

pub const WAYS: [Way; 13] = [
    way!("node of the count", CHANGED, |prop, nodes, _| prop[0] =
        nodes),
    way!("node 0xFFFFFFFF", CHANGED, |prop, _, _| prop[0] = NONE),
    way!("name of 0 bytes", CHANGED, |prop, _, _| prop[2] = 0),
    way!("name of 32 bytes", CHANGED, |prop, _, _| prop[2] = 32),
    way!("name of 0xFFFFFFFF bytes", CHANGED, |prop, _, _| prop[2] =
        NONE),
    way!("name a byte too far", CHANGED, |prop, _, pool| {
        prop[1] = (pool + 1).wrapping_sub(prop[2])
    }),
    way!("name at 0xFFFFFFFF", CHANGED, |prop, _, _| prop[1] = NONE),
    way!("name that ends at 2^32", CHANGED, |prop, _, _| {
        prop[1] = prop[2].wrapping_neg()
    }),
    way!("value a byte too far", KEPT, |prop, _, pool| {
        prop[3] = (pool + 1).wrapping_sub(prop[4])
    }),
    way!("value at 0xFFFFFFFF", KEPT, |prop, _, _| prop[3] = NONE),
    way!("value that ends at 2^32", KEPT, |prop, _, _| {
        prop[4] = 8;
        prop[3] = NONE - 7;
    }),
    way!("value a byte too long", KEPT, |prop, _, pool| {
        prop[4] = (pool + 1).wrapping_sub(prop[3])
    }),
    way!("value of 0xFFFFFFFF bytes", KEPT, |prop, _, _| prop[4] =
        NONE),
];

impl fmt::Debug for Way {
    fn fmt(&self, f: &mut fmt::Formatter<'_>) -> fmt::Result {
        f.write_str(self.what)
    }
}

impl Way {
    pub fn apply(&self, board: &mut Board, at: usize) {
        let (nodes, pool) = (board.node_count() as u32, board.pool.len() as u32);
        (self.change)(&mut board.props[5 * at..5 * at + 5], nodes, pool);
    }
}

/// Record 0 with children, and properties of a node, a name and so many bytes of
/// value. Names and values stand in the pool in this order, equal ones again.
pub fn table(nodes: usize, props: &[(u32, &str, usize)]) -> Board {
    let mut board = Board {
        width: 64,
        nodes: vec![NONE, 0, 4],
        props: Vec::new(),
        pool: b"cpus".to_vec(),
        room: FULL_ROOM,
    };
    for _ in 1..nodes {
        board.nodes.extend([0, 0, 4]);
    }
    for &(node, name, value) in props {
        add(&mut board, node, name, value);
    }
    board
}

/// Adds a property.
pub fn add(board: &mut Board, node: u32, name: &str, value: usize) {
    let from = board.pool.len() as u32;
    let length = name.len() as u32;
    board.pool.extend(name.bytes());
    board.pool.resize(board.pool.len() + value, 0);
    let words = [node, from, length, from + length, value as u32];
    board.props.extend(words);
}

/// A node and a name.
pub type Question = (u32, Vec<u8>);

/// Names that are easily taken for each other, and the longest.
const NAMES: [&str; 10] = [
    "a",
    "b",
    "aa",
    "ab",
    "ba",
    "aab",
    "aba",
    "baa",
    "reg",
    "a-name-of-thirty-one-bytes-aaaa",
];

/// A small table, and mostly a question that it had a property for. Then records
/// were damaged, names repeated and words cut off the last record, at times.
pub fn any_lookup(rng: &mut Rng) -> (Board, Question) {
    let nodes = rng.between(1, 4);
    let mut board = table(nodes, &[]);
    for _ in 0..rng.below(13) {
        let (node, name) = (rng.below(nodes) as u32, *rng.pick(&NAMES));
        add(&mut board, node, name, rng.below(6));
    }
    let before = some_question(rng, &board);
    end_pool(rng, &mut board.pool, &before.1);
    for _ in 0..*rng.pick(&[0, 0, 1, 1, 2, 3]) {
        if board.prop_count() > 0 {
            damage(rng, &mut board);
        }
    }
    if rng.one_in(8) {
        let keep = board.props.len().saturating_sub(rng.between(1, 4));
        board.props.truncate(keep);
    }
    let question = match rng.one_in(4) {
        true => some_question(rng, &board),
        false => before,
    };
    (board, question)
}

/// The pool ends with the last value, with the asked name but for its last byte,
/// or with room for a name that is too long.
fn end_pool(rng: &mut Rng, pool: &mut Vec<u8>, name: &[u8]) {
    match rng.below(3) {
        0 => {}
        1 => pool.extend(&name[..name.len().saturating_sub(1)]),
        _ => pool.extend([b'a'; 40]),
    }
}

/// One change to a property table that has records.
fn damage(rng: &mut Rng, board: &mut Board) {
    let at = rng.below(board.prop_count());
    match rng.below(4) {
        0 | 1 => rng.pick(&WAYS).apply(board, at),
        2 => repeat(board, rng.below(board.prop_count()), at),
        _ => {
            let pool = board.pool.len() as u32;
            let small = rng.below(42) as u32;
            let words = [small, pool, pool + 1, NONE, rng.word(), 0];
            board.props[5 * at + rng.below(5)] = *rng.pick(&words);
        }
    }
}

/// Node and name of one of the properties, or any other.
pub fn some_question(rng: &mut Rng, board: &Board) -> Question {
    if rng.one_in(6) || board.prop_count() == 0 {
        let nodes = board.node_count() as u32;
        let node = *rng.pick(&[0, 1, nodes.saturating_sub(1), nodes, NONE]);
        let long = "a".repeat(40);
        let names = ["", *rng.pick(&NAMES), "cpu", "phandle", &long];
        return (node, rng.pick(&names).as_bytes().to_vec());
    }
    let at = 5 * rng.below(board.prop_count());
    let (from, length) = (board.props[at + 1] as usize, board.props[at + 2] as usize);
    let name = board.pool.get(from..from.saturating_add(length));
    (board.props[at], name.unwrap_or_default().to_vec())
}
