// SPDX-License-Identifier: BSD-2-Clause OR GPL-2.0-or-later
//! Prints an accepted board: as a table, parsable, as JSON, as a tree or slot by slot.

mod json;
mod parsable;
mod plan;
mod slots;
mod table;
mod tree;

pub use json::{json, SCHEMA};
pub use parsable::parsable;
pub use slots::slots;
pub use table::table;
pub use tree::{drawn_tree, tree};

use crate::board::Board;
use crate::kind::Wording;
use crate::tables::Tables;
use sunderwath::Row;

/// The names of the columns; the third one depends on what `reg` holds, and only a plan has the last.
fn header(board: &Board) -> Vec<&'static str> {
    let id = board.kind.id_name();
    let mut names = vec![
        "leaf", "cpu", id, "socket", "cluster", "core", "thread", "slot",
    ];
    names.extend(board.planned.iter().map(|_| "planned"));
    names
}

/// The records from below the map down to a leaf.
fn chain(tables: &Tables, leaf: u32) -> Vec<u32> {
    let mut records: Vec<u32> =
        std::iter::successors(Some(leaf), |&record| tables.parent(record)).collect();
    records.reverse();
    // The first two are the cpus node and the map.
    records.split_off(2)
}

fn leaf_path(tables: &Tables, leaf: u32) -> String {
    let names: Vec<String> = chain(tables, leaf)
        .iter()
        .map(|&record| tables.name(record))
        .collect();
    names.join("/")
}

/// The numbers of the clusters, outermost first.
fn cluster_numbers(row: &Row, separator: &str) -> String {
    joined(row.clusters.iter().flatten(), separator)
}

/// The columns of the row with this number; `gap` stands where the map has no number, and where there is no slot.
fn columns(tables: &Tables, board: &Board, number: usize, gap: &str) -> Vec<String> {
    let row = &board.rows[number];
    let or_gap = |number: Option<u32>| number.map_or(gap.to_string(), |n| n.to_string());
    let mut columns = vec![
        leaf_path(tables, row.leaf),
        tables.name(row.cpu),
        board.kind.id_text(row.reg),
        or_gap(row.socket),
        cluster_numbers(row, "/"),
        row.core.to_string(),
        or_gap(row.thread),
        or_gap(row.slot),
    ];
    let planned = board.planned.iter();
    columns.extend(planned.map(|planned| or_gap(planned.slots[number])));
    columns
}

fn joined<'a>(numbers: impl IntoIterator<Item = &'a u32>, separator: &str) -> String {
    let numbers: Vec<String> = numbers.into_iter().map(u32::to_string).collect();
    numbers.join(separator)
}

fn shifts(board: &Board, separator: &str) -> String {
    joined(&board.hash.shifts, separator)
}

/// The line under a table or tree: the hash of all MPIDRs, nothing where there are none.
fn hash_line(board: &Board) -> String {
    if !board.kind.has_mpidrs() {
        return String::new();
    }
    format!(
        "hash: mask {:#x}, shifts {}, bits {}\n",
        board.hash.mask,
        shifts(board, " "),
        board.hash.bits
    )
}
