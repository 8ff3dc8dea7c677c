// SPDX-License-Identifier: BSD-2-Clause OR GPL-2.0-or-later
//! The second reader, written from the papers alone. Each rule is said of
//! records by quantifiers, and the answer is the least (stage, place, number).
//! Blobs are read over a list of tokens, in the files `flat*.rs`; the calls on
//! bytes in `bytes.rs` put these readings together.

mod bytes;
mod flat;
mod flat_records;
mod flat_stream;
mod flat_tokens;
mod flat_why;
mod hash;
mod lookup;
mod once;
mod plan;
mod rows;
mod rules;
mod second_place;
mod slots;
mod tables;

pub use bytes::{list_bytes, read_blob, slot, Told, BYTES_ANSWER, MOST_NODES, MOST_PROPERTIES};
pub use flat::{flat_answer, flat_tables, read_flat, word_at, FlatTables, Reading, Refusal};
pub use flat_why::{Why, REASONS};
pub use hash::{list_hash, list_slot};
pub use lookup::{find_property, fixed_lookup, Standing};
pub use plan::{plan_check, plan_make, plan_slot};
pub use rows::read;
pub use rules::{stage_of, told};
pub use slots::{read_slots, ReadSlots, SLOT_NUMBERS};
pub use tables::{topology_name, Kind, Tables};

use crate::answer::Answer;

/// Rules 1 to 8 alone.
pub fn check_tables(width: u32, nodes: &[u32], props: &[u32], pool: &[u8]) -> Answer {
    let tables = Tables::new(width, nodes, props, pool, 0);
    told(&tables, 8).unwrap_or_default()
}
