// SPDX-License-Identifier: BSD-2-Clause OR GPL-2.0-or-later
//! Lists of MPIDRs: their hash, and the slot of one.

use crate::layout::{ANSWER_COUNT, ANSWER_WORDS, BYTES_ANSWER};
use crate::told::{told, told_bytes};
use crate::{calls, Hash, Refusal};

/// The hash of a list of 1 to 256 MPIDRs, repeats allowed.
///
/// ```
/// let hash = sunderwath::list_hash(&[0x0, 0x1, 0x100, 0x101])?;
/// assert_eq!((hash.mask, hash.shifts, hash.bits), (0x101, [0, 7, 14, 30], 2));
/// # Ok::<(), sunderwath::Refusal>(())
/// ```
///
/// # Errors
///
/// Rules 28 and 29.
pub fn list_hash(list: &[u64]) -> Result<Hash, Refusal> {
    let mut answer = [0; ANSWER_WORDS];
    let number = calls::list_hash(list, &mut answer);
    told(number, &answer)?;
    Ok(Hash::of_words(&answer))
}

/// The slot of one MPIDR in the hash of a list.
///
/// ```
/// use sunderwath::{list_slot, Rule};
///
/// let list = [0x0, 0x1, 0x100, 0x101];
/// assert_eq!(list_slot(0x100, &list), Ok(2));
/// // An MPIDR that is not in the list has no slot.
/// assert_eq!(list_slot(0x10000, &list).unwrap_err().rule, Rule::ListUnknown);
/// ```
///
/// # Errors
///
/// Rules 28, 29 and 30.
pub fn list_slot(mpidr: u64, list: &[u64]) -> Result<u32, Refusal> {
    let mut answer = [0; ANSWER_WORDS];
    let number = calls::list_slot(mpidr, list, &mut answer);
    told(number, &answer)?;
    Ok(answer[ANSWER_COUNT])
}

/// The slot of one MPIDR in the hash of a list of bytes, [`MPIDR_BYTES`](crate::MPIDR_BYTES) for each MPIDR, the lowest first.
///
/// # Errors
///
/// Rules 28, 29 and 30.
pub fn slot(mpidr: u64, list: &[u8]) -> Result<u32, Refusal> {
    let mut answer = [0; BYTES_ANSWER];
    let number = calls::slot(mpidr, list, &mut answer);
    told_bytes(number, &answer)
}
