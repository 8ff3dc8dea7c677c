// SPDX-License-Identifier: BSD-2-Clause OR GPL-2.0-or-later
//! Plain Rust versions of the library's jobs, written for speed, as peers in
//! the benchmarks. They share no code with the second reader.

mod board;
mod chunks;
mod flat;
mod hash;
mod plan;
mod tables;

pub use board::read_tables;
pub use flat::{read_blob, read_flat, FlatAnswer};
pub use hash::{list_hash, list_slot};
pub use plan::{by_pairs, by_sorting, plan_check, plan_make, plan_slot, TellsApart};
pub use tables::{check_tables, find_property};
