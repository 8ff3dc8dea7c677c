// SPDX-License-Identifier: BSD-2-Clause OR GPL-2.0-or-later
//! A board as a JSON object. docs/schema.json states its members.

use super::{cluster_numbers, plan, shifts};
use crate::board::Board;
use crate::escape::for_json;
use crate::kind::Wording;
use crate::tables::Tables;
use sunderwath::Kind;

/// The version of the objects' form: the first member of each.
pub const SCHEMA: u32 = 2;

/// An MPIDR is a string in hexadecimal, a hart id a number.
fn id(kind: Kind, reg: u64) -> String {
    let text = kind.id_text(reg);
    if kind.has_mpidrs() {
        for_json(&text)
    } else {
        text
    }
}

fn or_null(number: Option<u32>) -> String {
    number.map_or("null".to_string(), |number| number.to_string())
}

/// The last member of the row with this number, where there is a plan.
fn planned(board: &Board, number: usize) -> String {
    let planned = board.planned.as_ref();
    planned.map_or(String::new(), |planned| {
        format!(", \"planned\": {}", or_null(planned.slots[number]))
    })
}

fn object_of_row(tables: &Tables, board: &Board, number: usize) -> String {
    let (kind, row) = (board.kind, &board.rows[number]);
    format!(
        "    {{\"leaf\": {}, \"cpu\": {}, \"{}\": {}, \"socket\": {}, \
         \"clusters\": [{}], \"core\": {}, \"thread\": {}, \"slot\": {}{}}}",
        for_json(&tables.path(row.leaf)),
        for_json(&tables.path(row.cpu)),
        kind.id_name(),
        id(kind, row.reg),
        or_null(row.socket),
        cluster_numbers(row, ", "),
        row.core,
        or_null(row.thread),
        or_null(row.slot),
        planned(board, number)
    )
}

/// The members of the hash of all MPIDRs, nothing where there are none.
fn members_of_hash(board: &Board) -> String {
    if !board.kind.has_mpidrs() {
        return String::new();
    }
    format!(
        "  \"mask\": \"{:#x}\",\n  \"shifts\": [{}],\n  \"bits\": {},\n",
        board.hash.mask,
        shifts(board, ", "),
        board.hash.bits
    )
}

pub fn json(file: &str, tables: &Tables, board: &Board) -> String {
    let row = |number| object_of_row(tables, board, number);
    let rows: Vec<String> = (0..board.rows.len()).map(row).collect();
    format!(
        "{{\n  \"schema\": {SCHEMA},\n  \"file\": {},\n  \"width\": {},\n  \"board\": \"{}\",\n  \
         \"count\": {},\n{}{}  \"rows\": [\n{}\n  ]\n}}\n",
        for_json(file),
        board.kind.number(),
        board.kind.name(),
        board.rows.len(),
        members_of_hash(board),
        plan::member(board),
        rows.join(",\n")
    )
}
