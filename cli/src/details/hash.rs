// SPDX-License-Identifier: BSD-2-Clause OR GPL-2.0-or-later
//! The hash of a board that breaks no other rule: 38.

use super::Told;
use crate::board;

/// The answer of a refusal has no hash, so the board is read again without a table of slots.
pub fn bits(told: &Told) -> Option<String> {
    let board = board::read(told.kind, told.tables).ok()?;
    let (bits, mask) = (board.hash.bits, board.hash.mask);
    Some(format!("{bits} bits, mask {mask:#x}"))
}
