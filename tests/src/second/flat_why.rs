// SPDX-License-Identifier: BSD-2-Clause OR GPL-2.0-or-later
//! The reasons for which a blob is refused. Several share a number.

#[derive(Clone, Copy, Debug, PartialEq, Eq, PartialOrd, Ord)]
pub enum Why {
    BlobShort,
    BlobLong,
    Magic,
    TotalShort,
    TotalBeyond,
    Version,
    Compatible,
    StructureOutside,
    StringsOutside,
    OffsetUneven,
    SizeUneven,
    /// A word that is no token.
    NoToken,
    /// A node's name has no zero byte in the structure block.
    NodeNameLeaves,
    /// A property's length, name offset or value leaves the structure block.
    PropertyLeaves,
    /// A property's name starts outside the strings block.
    NameOutside,
    /// A property's name has no zero byte in the strings block.
    NameOpen,
    AfterEnd,
    PropertyAfterChild,
    PropertyOutside,
    EndNodeOutside,
    EndInside,
    EndBeforeRoot,
    SecondRoot,
    /// The block ends before the end token.
    RunOut,
    NoCpus,
    SeveralCpus,
    NodeSpace,
    PropertySpace,
}

/// The reasons of each number, in the order of checking.
pub const REASONS: [(u32, &[Why]); 5] = [
    (
        31,
        &[
            Why::BlobShort,
            Why::BlobLong,
            Why::Magic,
            Why::TotalShort,
            Why::TotalBeyond,
            Why::Version,
            Why::Compatible,
        ],
    ),
    (
        32,
        &[
            Why::StructureOutside,
            Why::StringsOutside,
            Why::OffsetUneven,
            Why::SizeUneven,
        ],
    ),
    (
        33,
        &[
            Why::NoToken,
            Why::NodeNameLeaves,
            Why::PropertyLeaves,
            Why::NameOutside,
            Why::NameOpen,
            Why::AfterEnd,
            Why::PropertyAfterChild,
            Why::PropertyOutside,
            Why::EndNodeOutside,
            Why::EndInside,
            Why::EndBeforeRoot,
            Why::SecondRoot,
            Why::RunOut,
        ],
    ),
    (34, &[Why::NoCpus, Why::SeveralCpus]),
    (35, &[Why::NodeSpace, Why::PropertySpace]),
];

impl Why {
    pub fn number(self) -> u32 {
        let found = REASONS.iter().find(|(_, reasons)| reasons.contains(&self));
        found.expect("every reason has a number").0
    }
}
