// SPDX-License-Identifier: BSD-2-Clause OR GPL-2.0-or-later
//! Lookups of properties, where the papers fix the answer: find_property.

use crate::vector::{Call, Ground, Part, Vector};
use sunderwath_tests::build::lookup::{any_lookup, Question};
use sunderwath_tests::build::Board;
use sunderwath_tests::rng::Rng;
use sunderwath_tests::second::{fixed_lookup, Tables};

const LOOKUPS: usize = 3_000;

pub fn vectors(rng: &mut Rng) -> Vec<Vector> {
    let mut list = Vec::new();
    while list.len() < LOOKUPS {
        let (board, question) = any_lookup(rng);
        list.extend(find_property(rng, &board, question));
    }
    list
}

/// None where the answer is free.
fn find_property(rng: &mut Rng, board: &Board, (node, name): Question) -> Option<Vector> {
    let tables = Tables::new(board.width, &board.nodes, &board.props, &board.pool, 0);
    let number = fixed_lookup(&tables, node, &name)?;
    Some(Vector {
        call: Call::FindProperty,
        asked: u64::from(node),
        ground: Ground::some(rng),
        parts: vec![
            Part::Words(board.props.clone()),
            Part::Bytes(board.pool.clone()),
            Part::Bytes(name),
        ],
        number,
    })
}
