// SPDX-License-Identifier: BSD-2-Clause OR GPL-2.0-or-later
//! A board as values separated by commas, with comments.

use super::{columns, header, plan, shifts};
use crate::board::Board;
use crate::escape::for_commas;
use crate::tables::Tables;

/// The comment with the hash of all MPIDRs, nothing where there are none.
fn hash_comment(board: &Board) -> String {
    if !board.kind.has_mpidrs() {
        return String::new();
    }
    format!(
        "# mask={:#x} shifts={} bits={}\n",
        board.hash.mask,
        shifts(board, ","),
        board.hash.bits
    )
}

pub fn parsable(tables: &Tables, board: &Board) -> String {
    let mut text = hash_comment(board) + &plan::comment(board);
    text.push_str(&format!("# {}\n", header(board).join(",")));
    for row in 0..board.rows.len() {
        let values = columns(tables, board, row, "");
        let values: Vec<_> = values.iter().map(|value| for_commas(value)).collect();
        text.push_str(&values.join(","));
        text.push('\n');
    }
    text
}
