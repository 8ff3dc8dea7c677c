// SPDX-License-Identifier: BSD-2-Clause OR GPL-2.0-or-later
//! The hash of a list in one pass.

use crate::answer::Answer;

const AFFINITY: u64 = 0xFF_00FF_FFFF;
const LEVEL_BEGIN: [u32; 4] = [0, 8, 16, 32];

/// Mask, shifts and bits of the ones in which listed values differ.
pub(super) fn layout(mask: u64) -> ([u32; 4], u32) {
    let mut shifts = [0; 4];
    let mut bits = 0;
    for (shift, begin) in shifts.iter_mut().zip(LEVEL_BEGIN) {
        let part = (mask >> begin) as u8;
        let low = if part == 0 { 0 } else { part.trailing_zeros() };
        let width = 8 - part.leading_zeros();
        *shift = begin + low - bits;
        bits += width.saturating_sub(low);
    }
    (shifts, bits)
}

pub(super) fn slot(mpidr: u64, mask: u64, shifts: &[u32; 4]) -> u32 {
    let kept = mpidr & mask;
    let level = |l: usize| (kept & (0xFF << LEVEL_BEGIN[l])) >> shifts[l];
    (level(0) | level(1) | level(2) | level(3)) as u32
}

pub(super) fn list_mask(list: &[u64]) -> Result<u64, Answer> {
    let first = match list.first() {
        Some(&first) if list.len() <= 256 => first,
        _ => return Err(Answer::refusal(28, 0)),
    };
    let (mut any, mut mask) = (0, 0);
    for &mpidr in list {
        any |= mpidr;
        mask |= mpidr ^ first;
    }
    if any & !AFFINITY != 0 {
        let bad = list.iter().position(|&m| m & !AFFINITY != 0);
        return Err(Answer::refusal(29, bad.unwrap_or(0)));
    }
    Ok(mask)
}

pub fn list_hash(list: &[u64]) -> Answer {
    match list_mask(list) {
        Err(refusal) => refusal,
        Ok(mask) => {
            let (shifts, bits) = layout(mask);
            Answer {
                mask,
                shifts,
                bits,
                ..Answer::default()
            }
        }
    }
}

pub fn list_slot(mpidr: u64, list: &[u64]) -> Answer {
    match list_mask(list) {
        Err(refusal) => refusal,
        Ok(_) if !list.contains(&mpidr) => Answer::refusal(30, 0),
        Ok(mask) => Answer {
            count: slot(mpidr, mask, &layout(mask).0),
            ..Answer::default()
        },
    }
}
