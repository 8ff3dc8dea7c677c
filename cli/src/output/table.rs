// SPDX-License-Identifier: BSD-2-Clause OR GPL-2.0-or-later
//! A board as a table under a header line.

use super::{columns, hash_line, header, plan};
use crate::board::Board;
use crate::escape::for_terminal;
use crate::tables::Tables;

pub fn table(tables: &Tables, board: &Board) -> String {
    let header = header(board);
    let mut lines: Vec<Vec<String>> = vec![header.iter().map(|name| name.to_uppercase()).collect()];
    for row in 0..board.rows.len() {
        let values = columns(tables, board, row, "-");
        lines.push(values.iter().map(|value| for_terminal(value)).collect());
    }
    let width = |column: usize| lines.iter().map(|line| line[column].chars().count()).max();
    let widths: Vec<usize> = (0..header.len())
        .map(|column| width(column).unwrap_or(0))
        .collect();
    let mut text = String::new();
    for line in &lines {
        let cells: Vec<String> = line
            .iter()
            .zip(&widths)
            .map(|(cell, width)| format!("{cell:<width$}"))
            .collect();
        text.push_str(cells.join(" ").trim_end());
        text.push('\n');
    }
    text + &hash_line(board) + &plan::line(board)
}
