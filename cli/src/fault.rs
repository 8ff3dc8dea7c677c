// SPDX-License-Identifier: BSD-2-Clause OR GPL-2.0-or-later
//! Why a blob cannot be read: one of the rules 31 to 35, its place and a reason.

use sunderwath::Rule;

#[derive(Clone, Debug, PartialEq, Eq)]
pub struct Fault {
    pub rule: Rule,
    /// For 33 the offset from the file's start, otherwise 0.
    pub place: u32,
    /// Which reason of the rule held, in words; may be empty.
    pub reason: String,
}

impl Fault {
    /// A fault without a place.
    pub fn of_blob(rule: Rule, reason: String) -> Self {
        Fault {
            rule,
            place: 0,
            reason,
        }
    }

    /// 33 at an offset. No offset exceeds the total size, which is one word.
    pub fn at(place: usize, reason: String) -> Self {
        Fault {
            rule: Rule::BlobStructure,
            place: place as u32,
            reason,
        }
    }

    /// The node that is known to be wrong: the root for 34.
    pub fn node(&self) -> Option<&'static str> {
        (self.rule == Rule::BlobCpus).then_some("/")
    }

    /// What is wrong: `at offset 0x58: sentence (reason)`
    pub fn message(&self) -> String {
        let place = match self.rule {
            Rule::BlobStructure => format!("at offset {:#x}: ", self.place),
            _ => String::new(),
        };
        let sentence = self.rule.sentence();
        match self.reason.as_str() {
            "" => format!("{place}{sentence}"),
            reason => format!("{place}{sentence} ({reason})"),
        }
    }
}
