// SPDX-License-Identifier: BSD-2-Clause OR GPL-2.0-or-later
//! The map of a board as a tree: indented, or with lines.

use super::{chain, hash_line};
use crate::board::Board;
use crate::escape::for_terminal;
use crate::kind::Wording;
use crate::tables::Tables;
use sunderwath::Kind;
use sunderwath::Row;

/// A node of the map: how deep it stands, from 0 on, and what is said of it.
struct Line {
    depth: usize,
    text: String,
}

/// `core0: cpu@0, mpidr 0x0, slot 0`, or `core0: cpu@0, hart 0, slot -`
fn leaf_text(name: &str, tables: &Tables, kind: Kind, row: &Row) -> String {
    let cpu = for_terminal(&tables.name(row.cpu));
    let slot = row.slot.map_or("-".to_string(), |slot| slot.to_string());
    let (id_name, id) = (kind.id_name(), kind.id_text(row.reg));
    format!("{name}: {cpu}, {id_name} {id}, slot {slot}")
}

/// Each node of the map once, a leaf with its cpu, MPIDR or hart id, and slot.
fn lines(tables: &Tables, board: &Board) -> Vec<Line> {
    let mut lines = Vec::new();
    let mut open: Vec<u32> = Vec::new();
    for row in &board.rows {
        let records = chain(tables, row.leaf);
        let same = open.iter().zip(&records).take_while(|(a, b)| a == b);
        let known = same.count();
        for (depth, &record) in records.iter().enumerate().skip(known) {
            let name = for_terminal(&tables.name(record));
            let text = if record == row.leaf {
                leaf_text(&name, tables, board.kind, row)
            } else {
                name
            };
            lines.push(Line { depth, text });
        }
        open = records;
    }
    lines
}

/// By indentation alone.
pub fn tree(tables: &Tables, board: &Board) -> String {
    let mut text = String::from("cpu-map\n");
    for line in lines(tables, board) {
        text.push_str(&"  ".repeat(line.depth + 1));
        text.push_str(&line.text);
        text.push('\n');
    }
    text + &hash_line(board)
}

/// The lines with what is drawn before them, found from the last one upwards.
fn drawn(lines: &[Line]) -> Vec<String> {
    // For each depth whether another node follows under the same parent.
    let mut more: Vec<bool> = Vec::new();
    let mut drawn = Vec::new();
    for line in lines.iter().rev() {
        more.resize(line.depth + 1, false);
        let above = more[..line.depth].iter();
        let mut text: String = above
            .map(|&more| if more { "│   " } else { "    " })
            .collect();
        text.push_str(if more[line.depth] {
            "├── "
        } else {
            "└── "
        });
        text.push_str(&line.text);
        more[line.depth] = true;
        drawn.push(text);
    }
    drawn.reverse();
    drawn
}

/// With lines, as tree(1) draws them.
pub fn drawn_tree(tables: &Tables, board: &Board) -> String {
    let mut text = String::from("cpu-map\n");
    for line in drawn(&lines(tables, board)) {
        text.push_str(&line);
        text.push('\n');
    }
    text + &hash_line(board)
}

#[cfg(test)]
mod tests {
    use super::*;

    fn drawing(depths: &[usize]) -> Vec<String> {
        let line = |&depth: &usize| Line {
            depth,
            text: depth.to_string(),
        };
        drawn(&depths.iter().map(line).collect::<Vec<_>>())
    }

    #[test]
    fn lines_go_as_far_as_siblings() {
        assert!(drawing(&[]).is_empty());
        assert_eq!(drawing(&[0]), ["└── 0"]);
        let tree = [
            "├── 0",
            "│   ├── 1",
            "│   │   ├── 2",
            "│   │   └── 2",
            "│   └── 1",
            "│       └── 2",
            "└── 0",
            "    └── 1",
        ];
        assert_eq!(drawing(&[0, 1, 2, 2, 1, 2, 0, 1]), tree);
    }
}
