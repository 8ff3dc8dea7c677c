// SPDX-License-Identifier: BSD-2-Clause OR GPL-2.0-or-later
//! The mixture of boards that the gate and the long run compare.

use super::damage::{garbage, repeat, some_width, spoil_tables, spoil_tree};
use super::shapes::{fill_up, regular_board_of, valid_board};
use super::{Board, Node, FULL_ROOM};
use crate::rng::Rng;
use sunderwath::ROW_WORDS;

/// A board of any sort: sound, damaged once or in pairs, or garbage.
pub fn any_board(rng: &mut Rng) -> Board {
    if rng.one_in(20) {
        return garbage(rng);
    }
    let most = *rng.pick(&[1, 2, 3, 4, 6, 8, 12]);
    let (width, mut root) = valid_board(rng, most);
    let (in_tree, in_tables) = *rng.pick(&[
        (0, 0),
        (1, 0),
        (1, 0),
        (1, 0),
        (2, 0),
        (2, 0),
        (3, 0),
        (0, 1),
        (0, 2),
        (1, 1),
    ]);
    for _ in 0..in_tree {
        spoil_tree(rng, &mut root);
    }
    let mut board = lay_out(rng, width, &root);
    board.room = some_room(rng, &root);
    if rng.one_in(12) {
        // A tree of one board read as another.
        board.width = some_width(rng, 8);
    }
    for _ in 0..in_tables {
        spoil_tables(rng, &mut board);
    }
    board
}

fn lay_out(rng: &mut Rng, width: u32, root: &Node) -> Board {
    if rng.one_in(2) {
        Board::of(width, root)
    } else {
        Board::shuffled(width, root, rng)
    }
}

/// Mostly enough; at times around what the children of record 0 need.
fn some_room(rng: &mut Rng, root: &Node) -> usize {
    if rng.one_in(8) {
        let need = ROW_WORDS * (root.children.len() - root.children.len().min(1));
        (need + rng.below(27)).saturating_sub(13)
    } else {
        ROW_WORDS * root.children.len() + rng.below(3)
    }
}

/// A large board near the limits, damaged at times.
pub fn large_board(rng: &mut Rng) -> Board {
    let (width, mut root) = valid_board(rng, 256);
    if rng.one_in(2) {
        let records = rng.between(root.count(), root.count().max(1022) + 3);
        let props = rng.between(root.prop_count(), root.prop_count().max(4094) + 3);
        fill_up(&mut root, records, props);
    }
    if rng.one_in(2) {
        spoil_tree(rng, &mut root);
    }
    let mut board = Board::of(width, &root);
    board.room = FULL_ROOM;
    if rng.one_in(4) {
        spoil_tables(rng, &mut board);
    }
    board
}

/// Tables that break each of rules 1 to 8 often enough.
pub fn damaged_tables(rng: &mut Rng) -> Board {
    if rng.one_in(8) {
        return garbage(rng);
    }
    let (width, mut root) = valid_board(rng, 6);
    if rng.one_in(3) {
        spoil_tree(rng, &mut root);
    }
    let mut board = lay_out(rng, width, &root);
    for _ in 0..rng.below(3) {
        spoil_tables(rng, &mut board);
    }
    if rng.one_in(500) {
        let mut large = regular_board_of(width, 16);
        fill_up(&mut large, rng.between(1020, 1026), rng.between(4090, 4099));
        board = Board::of(width, &large);
        board.pool.resize(rng.between(65530, 65540), 0);
    }
    if rng.one_in(10) && board.prop_count() > 1 {
        let (a, b) = (rng.below(board.prop_count()), rng.below(board.prop_count()));
        repeat(&mut board, a, b);
    }
    board
}
