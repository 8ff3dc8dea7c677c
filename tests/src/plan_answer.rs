// SPDX-License-Identifier: BSD-2-Clause OR GPL-2.0-or-later
//! What the calls on plans answer, and the words of these answers.

use crate::answer::SHORT_ANSWER;

/// Words of the answers of plan_check, plan_slot and plan_make.
pub const CHECK_WORDS: usize = 2;
pub const SLOT_WORDS: usize = 3;
pub const MAKE_WORDS: usize = 35;

/// What is found beside number and place, as words.
pub trait Found: Default {
    fn words(&self) -> Vec<u32>;
}

/// Nothing, by plan_check.
impl Found for () {
    fn words(&self) -> Vec<u32> {
        Vec::new()
    }
}

/// The slot, by plan_slot.
impl Found for u32 {
    fn words(&self) -> Vec<u32> {
        vec![*self]
    }
}

/// The positions, by plan_make: their number, themselves, and 0 behind them.
impl Found for Vec<u32> {
    fn words(&self) -> Vec<u32> {
        let mut words = vec![self.len() as u32];
        words.extend(self);
        words.resize(MAKE_WORDS - CHECK_WORDS, 0);
        words
    }
}

#[derive(Clone, Copy, Debug, Default, PartialEq, Eq)]
pub struct PlanAnswer<T> {
    pub number: u32,
    pub place: u32,
    /// Nothing, 0 or no position in a refusal.
    pub found: T,
}

impl<T: Found> PlanAnswer<T> {
    pub fn accepted(found: T) -> PlanAnswer<T> {
        PlanAnswer {
            found,
            ..PlanAnswer::default()
        }
    }

    pub fn refusal(number: u32, place: u32) -> PlanAnswer<T> {
        PlanAnswer {
            number,
            place,
            ..PlanAnswer::default()
        }
    }

    /// All words of an answer that is long enough.
    pub fn words(&self) -> Vec<u32> {
        [&[self.number, self.place], &self.found.words()[..]].concat()
    }
}

/// The number given back and the words written, of an answer of these words
/// where so many are lent.
pub fn unless_short(words: &[u32], lent: usize) -> (u32, &[u32]) {
    match lent < words.len() {
        true => (SHORT_ANSWER, &[]),
        false => (words[0], words),
    }
}
