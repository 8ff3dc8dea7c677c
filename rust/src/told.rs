// SPDX-License-Identifier: BSD-2-Clause OR GPL-2.0-or-later
//! What a call has told: acceptance, or a refusal made of its answer.

use crate::layout::{
    ANSWER_PLACE, ANSWER_SECOND, ANSWER_WORDS, BYTES_ANSWER, BYTES_COUNT, BYTES_PLACE,
    BYTES_SECOND, NO_PROPERTY,
};
use crate::Refusal;

/// Of an answer of words.
pub fn told(number: u32, answer: &[u32; ANSWER_WORDS]) -> Result<(), Refusal> {
    match number {
        0 => Ok(()),
        _ => Err(Refusal::of(
            number,
            answer[ANSWER_PLACE],
            answer[ANSWER_SECOND],
        )),
    }
}

/// Of an answer of words without a second place: that of `read_flat`, and those of the calls on plans.
pub fn told_place(number: u32, answer: &[u32]) -> Result<(), Refusal> {
    match number {
        0 => Ok(()),
        _ => Err(Refusal::of(number, answer[ANSWER_PLACE], NO_PROPERTY)),
    }
}

/// Of an answer of bytes: its last word on acceptance.
pub fn told_bytes(number: u32, answer: &[u8; BYTES_ANSWER]) -> Result<u32, Refusal> {
    let word = |at: usize| {
        let bytes = &answer[at..at + 4];
        u32::from_le_bytes([bytes[0], bytes[1], bytes[2], bytes[3]])
    };
    match number {
        0 => Ok(word(BYTES_COUNT)),
        _ => Err(Refusal::of(number, word(BYTES_PLACE), word(BYTES_SECOND))),
    }
}
