// SPDX-License-Identifier: BSD-2-Clause OR GPL-2.0-or-later
//! The library's calls with tables as three slices: into a lent answer of any
//! length, or with an answer of their own.

use crate::answer::{Answer, FlatAnswer};
use crate::plan_answer::{CHECK_WORDS, MAKE_WORDS, SLOT_WORDS};
use sunderwath::{calls, Tables, ANSWER_WORDS, FLAT_ANSWER_WORDS};

pub use sunderwath::calls::{
    find_property, list_hash as list_hash_into, list_slot as list_slot_into,
    plan_check as plan_check_into, plan_make as plan_make_into, plan_slot as plan_slot_into,
    read_blob as read_blob_into, read_flat as read_flat_into, slot as slot_into,
};

pub fn check_tables_into(
    width: u32,
    nodes: &[u32],
    props: &[u32],
    pool: &[u8],
    answer: &mut [u32],
) -> u32 {
    calls::check_tables(width, Tables { nodes, props, pool }, answer)
}

pub fn read_tables_into(
    width: u32,
    nodes: &[u32],
    props: &[u32],
    pool: &[u8],
    rows: &mut [u32],
    answer: &mut [u32],
) -> u32 {
    calls::read_tables(width, Tables { nodes, props, pool }, rows, answer)
}

pub fn read_tables_slots_into(
    width: u32,
    nodes: &[u32],
    props: &[u32],
    pool: &[u8],
    rows: &mut [u32],
    table: &mut [u32],
    answer: &mut [u32],
) -> u32 {
    let tables = Tables { nodes, props, pool };
    calls::read_tables_slots(width, tables, rows, table, answer)
}

/// Runs a call with an answer of eleven words, and checks the number given back
/// and the words before and behind the answer.
fn answered(call: impl FnOnce(&mut [u32]) -> u32) -> Answer {
    const MARK: u32 = 0xA5A5_A5A5;
    let mut lent = [MARK; ANSWER_WORDS + 2];
    let number = call(&mut lent[1..=ANSWER_WORDS]);
    let [before, words @ .., behind] = lent;
    assert_eq!([before, behind], [MARK; 2], "words around the answer");
    assert_eq!(number, words[0], "number given back and number written");
    Answer::from_words(&words)
}

pub fn list_hash(list: &[u64]) -> Answer {
    answered(|answer| list_hash_into(list, answer))
}

pub fn list_slot(mpidr: u64, list: &[u64]) -> Answer {
    answered(|answer| list_slot_into(mpidr, list, answer))
}

pub fn check_tables(width: u32, nodes: &[u32], props: &[u32], pool: &[u8]) -> Answer {
    answered(|answer| check_tables_into(width, nodes, props, pool, answer))
}

pub fn read_tables(
    width: u32,
    nodes: &[u32],
    props: &[u32],
    pool: &[u8],
    rows: &mut [u32],
) -> Answer {
    answered(|answer| read_tables_into(width, nodes, props, pool, rows, answer))
}

/// The same with a table from slots to rows.
pub fn read_tables_slots(
    width: u32,
    nodes: &[u32],
    props: &[u32],
    pool: &[u8],
    rows: &mut [u32],
    table: &mut [u32],
) -> Answer {
    answered(|answer| read_tables_slots_into(width, nodes, props, pool, rows, table, answer))
}

/// Runs a call with an answer of so many words, and checks the number given back.
fn words<const N: usize>(call: impl FnOnce(&mut [u32]) -> u32) -> [u32; N] {
    let mut words = [0xA5A5_A5A5; N];
    let number = call(&mut words);
    assert_eq!(number, words[0], "number given back and number written");
    words
}

pub fn read_flat(blob: &[u8], nodes: &mut [u32], props: &mut [u32]) -> FlatAnswer {
    let told: [u32; FLAT_ANSWER_WORDS] = words(|answer| read_flat_into(blob, nodes, props, answer));
    FlatAnswer::from_words(&told)
}

/// Number and place.
pub fn plan_check(list: &[u64], positions: &[u32]) -> [u32; CHECK_WORDS] {
    words(|answer| plan_check_into(list, positions, answer))
}

/// Number, place and slot.
pub fn plan_slot(mpidr: u64, list: &[u64], positions: &[u32]) -> [u32; SLOT_WORDS] {
    words(|answer| plan_slot_into(mpidr, list, positions, answer))
}

/// The positions, or number and place.
pub fn plan_make(list: &[u64]) -> Result<Vec<u32>, [u32; 2]> {
    let told: [u32; MAKE_WORDS] = words(|answer| plan_make_into(list, answer));
    match told[0] {
        0 => Ok(told[3..3 + told[2] as usize].to_vec()),
        number => Err([number, told[1]]),
    }
}
