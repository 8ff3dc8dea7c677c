// SPDX-License-Identifier: BSD-2-Clause OR GPL-2.0-or-later
//! One call of the library: all that is lent to it, and what the second reader
//! says that it gives back and leaves.

use sunderwath_tests::answer::{Answer, ANSWER_WORDS, SHORT_ANSWER};
use sunderwath_tests::rng::Rng;

/// The calls, in the order of their numbers in the file.
#[derive(Clone, Copy, Debug, PartialEq, Eq, PartialOrd, Ord)]
pub enum Call {
    ListHash,
    ListSlot,
    CheckTables,
    FindProperty,
    ReadTables,
    ReadTablesSlots,
    ReadFlat,
    ReadBlob,
    Slot,
    PlanCheck,
    PlanSlot,
    PlanMake,
}

impl Call {
    pub const ALL: [Call; 12] = [
        Call::ListHash,
        Call::ListSlot,
        Call::CheckTables,
        Call::FindProperty,
        Call::ReadTables,
        Call::ReadTablesSlots,
        Call::ReadFlat,
        Call::ReadBlob,
        Call::Slot,
        Call::PlanCheck,
        Call::PlanSlot,
        Call::PlanMake,
    ];

    pub fn name(self) -> &'static str {
        match self {
            Call::ListHash => "list_hash",
            Call::ListSlot => "list_slot",
            Call::CheckTables => "check_tables",
            Call::FindProperty => "find_property",
            Call::ReadTables => "read_tables",
            Call::ReadTablesSlots => "read_tables_slots",
            Call::ReadFlat => "read_flat",
            Call::ReadBlob => "read_blob",
            Call::Slot => "slot",
            Call::PlanCheck => "plan_check",
            Call::PlanSlot => "plan_slot",
            Call::PlanMake => "plan_make",
        }
    }
}

/// A part that is lent.
pub enum Part {
    /// Only read.
    Words(Vec<u32>),
    Mpidrs(Vec<u64>),
    Bytes(Vec<u8>),
    /// Written: what it holds after the call.
    WordsAfter(Vec<u32>),
    BytesAfter(Vec<u8>),
}

pub struct Vector {
    pub call: Call,
    /// The board number, the asked MPIDR or the asked node; 0 for a call that
    /// takes none of them.
    pub asked: u64,
    pub ground: Ground,
    /// In the order in which the call takes them.
    pub parts: Vec<Part>,
    /// What is given back.
    pub number: u32,
}

/// Where the parts start, and what stands around them and, before the call, in
/// those that are written.
#[derive(Clone, Copy)]
pub struct Ground {
    /// 0 to 3 move the parts; with 4 those that are only read end at a wall.
    pub start: u32,
    pub fill: u32,
}

impl Ground {
    pub fn some(rng: &mut Rng) -> Ground {
        let any = rng.word();
        Ground {
            start: rng.below(5) as u32,
            fill: *rng.pick(&[0, u32::MAX, any, any]),
        }
    }

    /// So many lent words, of which the first ones are written.
    pub fn words(&self, lent: usize, written: &[u32]) -> Part {
        let mut words = written.to_vec();
        assert!(words.len() <= lent);
        words.resize(lent, self.fill);
        Part::WordsAfter(words)
    }

    /// The same of bytes.
    pub fn bytes(&self, lent: usize, written: &[u8]) -> Part {
        let mut bytes = written.to_vec();
        assert!(bytes.len() <= lent);
        bytes.resize(lent, self.fill as u8);
        Part::BytesAfter(bytes)
    }

    /// An answer of so many words; too few are told by None, and stay.
    pub fn answer(&self, lent: usize, answer: Option<&Answer>) -> Part {
        let words = answer.map(Answer::words);
        self.words(lent, words.as_ref().map_or(&[], |words| words))
    }
}

/// Words of an answer: mostly those that are stated, at times more or fewer.
pub fn some_answer(rng: &mut Rng, stated: usize) -> usize {
    match rng.below(20) {
        0 => rng.below(stated),
        1..=4 => stated + rng.between(1, 12),
        _ => stated,
    }
}

/// What is read, if the answer has the stated words.
pub fn unless_short<T>(lent: usize, read: impl FnOnce() -> T) -> Option<T> {
    (lent >= ANSWER_WORDS).then(read)
}

/// The number that is given back beside an answer.
pub fn number(answer: Option<&Answer>) -> u32 {
    answer.map_or(SHORT_ANSWER, |answer| answer.number)
}
