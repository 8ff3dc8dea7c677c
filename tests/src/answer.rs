// SPDX-License-Identifier: BSD-2-Clause OR GPL-2.0-or-later
//! The eleven words that the calls of the library answer with, and the four of
//! read_flat.

/// Words in an answer.
pub const ANSWER_WORDS: usize = 11;

/// The second place of an answer that speaks of no property record.
pub const NO_PROPERTY: u32 = u32::MAX;

/// Told when the lent answer has fewer words than stated.
pub const SHORT_ANSWER: u32 = 49;

#[derive(Clone, Copy, Debug, PartialEq, Eq)]
pub struct Answer {
    pub number: u32,
    pub place: u32,
    /// Processors of a board, or the slot that was asked for.
    pub count: u32,
    pub mask: u64,
    pub shifts: [u32; 4],
    pub bits: u32,
    /// The second place: the property record that a refusal speaks of, or
    /// NO_PROPERTY.
    pub second: u32,
}

/// Acceptance, with nothing counted.
impl Default for Answer {
    fn default() -> Answer {
        Answer {
            number: 0,
            place: 0,
            count: 0,
            mask: 0,
            shifts: [0; 4],
            bits: 0,
            second: NO_PROPERTY,
        }
    }
}

impl Answer {
    /// A refusal that speaks of no property holds number and place and nothing
    /// else.
    pub fn refusal(number: u32, place: usize) -> Answer {
        Answer {
            number,
            place: place as u32,
            ..Answer::default()
        }
    }

    /// The same answer with a property record, or NO_PROPERTY, as second place.
    pub fn of_property(self, second: u32) -> Answer {
        Answer { second, ..self }
    }

    pub fn words(&self) -> [u32; ANSWER_WORDS] {
        let [a, b, c, d] = self.shifts;
        let low = self.mask as u32;
        let high = (self.mask >> 32) as u32;
        [
            self.number,
            self.place,
            self.count,
            low,
            high,
            a,
            b,
            c,
            d,
            self.bits,
            self.second,
        ]
    }

    pub fn from_words(words: &[u32; ANSWER_WORDS]) -> Answer {
        Answer {
            number: words[0],
            place: words[1],
            count: words[2],
            mask: u64::from(words[4]) << 32 | u64::from(words[3]),
            shifts: [words[5], words[6], words[7], words[8]],
            bits: words[9],
            second: words[10],
        }
    }
}

/// Words in the answer of read_flat.
pub const FLAT_ANSWER_WORDS: usize = 4;

/// What read_flat answers; a refusal counts no records.
#[derive(Clone, Copy, Debug, Default, PartialEq, Eq)]
pub struct FlatAnswer {
    pub number: u32,
    pub place: u32,
    pub nodes: u32,
    pub props: u32,
}

impl FlatAnswer {
    pub fn words(&self) -> [u32; FLAT_ANSWER_WORDS] {
        [self.number, self.place, self.nodes, self.props]
    }

    pub fn from_words(words: &[u32; FLAT_ANSWER_WORDS]) -> FlatAnswer {
        let [number, place, nodes, props] = *words;
        FlatAnswer {
            number,
            place,
            nodes,
            props,
        }
    }
}
