// SPDX-License-Identifier: BSD-2-Clause OR GPL-2.0-or-later
//! Plans: bit positions that tell the MPIDRs of a list apart, where it can be in fewer slots than the hash has.

use crate::layout::{
    MAX_PLAN, PLAN_ANSWER_FIRST, PLAN_ANSWER_LENGTH, PLAN_ANSWER_SLOT, PLAN_CHECK_ANSWER_WORDS,
    PLAN_MAKE_ANSWER_WORDS, PLAN_SLOT_ANSWER_WORDS,
};
use crate::told::told_place;
use crate::{calls, Refusal};
use core::fmt;

/// A plan that [`plan_make`] has made for a list.
///
/// A plan is at most [`MAX_PLAN`] bit positions, strictly rising, from 0 to 23 and 32 to 39: any two different MPIDRs of the list
/// differ at one of them. The slot under it is the bits at the positions, the lowest position in bit 0. The slots of
/// [`list_slot`](crate::list_slot) and of the rows are those of the hash, whatever plans there are.
#[derive(Clone, Copy, PartialEq, Eq, Hash)]
pub struct Plan {
    length: usize,
    /// The positions, and 0 behind them.
    words: [u32; MAX_PLAN],
}

impl Plan {
    /// The positions, rising; none where all MPIDRs of the list are equal.
    pub fn positions(&self) -> &[u32] {
        &self.words[..self.length]
    }

    /// How many slots there are: 2 to the number of positions.
    pub const fn slots(&self) -> u64 {
        1 << self.length
    }

    fn of_words(words: &[u32; PLAN_MAKE_ANSWER_WORDS]) -> Self {
        let mut plan = Plan {
            length: words[PLAN_ANSWER_LENGTH] as usize,
            words: [0; MAX_PLAN],
        };
        plan.words.copy_from_slice(&words[PLAN_ANSWER_FIRST..]);
        plan
    }
}

/// `Plan([0, 10])`
impl fmt::Debug for Plan {
    fn fmt(&self, f: &mut fmt::Formatter<'_>) -> fmt::Result {
        f.debug_tuple("Plan").field(&self.positions()).finish()
    }
}

/// Whether positions, made by whatever planner, are a plan for a list of 1 to 256 MPIDRs, repeats allowed.
///
/// ```
/// use sunderwath::{plan_check, Rule};
///
/// let list = [0x0, 0x1, 0x500, 0x501];
/// assert_eq!(plan_check(&list, &[0, 10]), Ok(()));
/// // 0x0 and 0x1 differ in bit 0 alone.
/// assert_eq!(plan_check(&list, &[8, 10]).unwrap_err().rule, Rule::PlanPositions);
/// ```
///
/// # Errors
///
/// Rules 28, 29 and 40.
pub fn plan_check(list: &[u64], positions: &[u32]) -> Result<(), Refusal> {
    let mut answer = [0; PLAN_CHECK_ANSWER_WORDS];
    let number = calls::plan_check(list, positions, &mut answer);
    told_place(number, &answer)
}

/// The slot of one MPIDR of a list under a plan for the list, which is checked first.
///
/// ```
/// use sunderwath::{plan_slot, Rule};
///
/// let list = [0x0, 0x1, 0x500, 0x501];
/// assert_eq!(plan_slot(0x500, &list, &[0, 10]), Ok(2));
/// // An MPIDR that is not in the list has no slot.
/// assert_eq!(plan_slot(0x400, &list, &[0, 10]).unwrap_err().rule, Rule::ListUnknown);
/// ```
///
/// # Errors
///
/// Rules 28, 29, 40 and 30.
pub fn plan_slot(mpidr: u64, list: &[u64], positions: &[u32]) -> Result<u32, Refusal> {
    let mut answer = [0; PLAN_SLOT_ANSWER_WORDS];
    let number = calls::plan_slot(mpidr, list, positions, &mut answer);
    told_place(number, &answer)?;
    Ok(answer[PLAN_ANSWER_SLOT])
}

/// Makes a plan for a list of 1 to 256 MPIDRs, repeats allowed.
///
/// It is one that [`plan_check`] accepts, it has no more positions than the hash has bits, and no single position can be dropped
/// from it. There may be a plan with fewer positions, not all of them among these.
///
/// ```
/// let list = [0x0, 0x1, 0x500, 0x501];
/// let plan = sunderwath::plan_make(&list)?;
/// assert_eq!((plan.positions(), plan.slots()), (&[0, 10][..], 4));
/// assert_eq!(sunderwath::list_hash(&list)?.slots(), 16);
/// # Ok::<(), sunderwath::Refusal>(())
/// ```
///
/// # Errors
///
/// Rules 28 and 29.
pub fn plan_make(list: &[u64]) -> Result<Plan, Refusal> {
    let mut answer = [0; PLAN_MAKE_ANSWER_WORDS];
    let number = calls::plan_make(list, &mut answer);
    told_place(number, &answer)?;
    Ok(Plan::of_words(&answer))
}
