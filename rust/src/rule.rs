// SPDX-License-Identifier: BSD-2-Clause OR GPL-2.0-or-later
//! The rules that the library refuses by.

use crate::texts;
use core::fmt;

/// The rule that is broken, or the demand on a call that is not met. Its value is its number; rules stand in the order in which
/// they are checked.
#[derive(Clone, Copy, Debug, PartialEq, Eq, Hash)]
#[non_exhaustive]
pub enum Rule {
    /// The blob does not have 40 to 65,536 bytes, or its header has another magic, total size or version.
    BlobHeader = 31,
    /// The structure or strings block lies outside the total size, or the structure block not on multiples of 4.
    BlobBlocks = 32,
    /// The token stream breaks the specification's structure, at the offset of the first token that does.
    BlobStructure = 33,
    /// The root has no child named cpus, or more than one.
    BlobCpus = 34,
    /// A lent table is too short or, for [`read_blob`](crate::read_blob), `/cpus` has more than 1,024 nodes or properties.
    TableSpace = 35,
    /// The board number is not 32, 64 or 5.
    BoardWidth = 1,
    /// The node words are not whole records, or not 1 to 1,024 of them.
    NodeTableSize = 2,
    /// The property words are not whole records, or too many.
    PropertyTableSize = 3,
    /// The pool is too long.
    PoolSize = 4,
    /// A node name is not 1 to 64 bytes of the pool.
    NodeNameRange = 5,
    /// A parent breaks depth-first order.
    NodeParentOrder = 6,
    /// The node, name or value of a property is out of range.
    PropertyRange = 7,
    /// A property name is repeated on its node.
    DuplicateProperty = 8,
    /// Record 0 is not named cpus.
    CpusNode = 9,
    /// `#address-cells` is missing, not four bytes, or not 1 or 2 (32-bit ARM and RISC-V: only 1).
    CpusAddressCells = 36,
    /// `#size-cells` is missing or not four zero bytes.
    CpusSizeCells = 37,
    /// There are not 1 to 256 cpu nodes.
    CpuCount = 10,
    /// `device_type` is not `"cpu"`.
    CpuDeviceType = 11,
    /// `reg` is missing, not four bytes for each address cell or, on ARM, has bits outside the affinity bits.
    CpuReg = 12,
    /// `reg` (MPIDR or hart id) is that of an earlier cpu node.
    DuplicateCpuReg = 13,
    /// There is no cpu-map.
    CpuMapMissing = 15,
    /// Another node is named cpu-map.
    CpuMapDuplicate = 16,
    /// A cpu node's `phandle` is missing, not usable or taken.
    CpuPhandle = 17,
    /// A topology name stands outside the map.
    TopologyOutsideMap = 18,
    /// A name below the map is no topology name.
    CpuMapName = 19,
    /// A kind of node is not allowed under its parent.
    CpuMapKind = 20,
    /// A number is not below the count of siblings, or an earlier sibling's.
    CpuMapOrder = 21,
    /// More than four clusters are nested.
    CpuMapDepth = 22,
    /// The map, a socket or a cluster has no children.
    CpuMapEmpty = 23,
    /// A leaf does not name a cpu node.
    CpuMapPhandle = 24,
    /// A leaf names a cpu of an earlier leaf.
    CpuMapCpuRepeated = 25,
    /// A cpu node is named by no leaf.
    CpuUnmapped = 26,
    /// The row buffer is too short.
    RowSpace = 27,
    /// The hash has more than 12 bits, too many for a table of slots.
    SlotTableBits = 38,
    /// The table of slots is too short for the hash.
    SlotTableSpace = 39,
    /// The list is empty, has more than 256 MPIDRs, or bytes that are not a multiple of eight.
    ListLength = 28,
    /// An MPIDR of the list has a bit outside 39..32 and 23..0.
    ListMpidr = 29,
    /// The positions of a plan do not rise strictly, lie outside 39..32 and 23..0, or do not tell the MPIDRs of the list apart.
    PlanPositions = 40,
    /// The asked MPIDR is not in the list.
    ListUnknown = 30,
    /// The answer is shorter than stated. Only [`calls`](crate::calls) can be told this.
    AnswerSpace = 49,
}

impl Rule {
    /// All rules, in the order in which they are checked.
    pub const ALL: [Rule; 40] = [
        Rule::BlobHeader,
        Rule::BlobBlocks,
        Rule::BlobStructure,
        Rule::BlobCpus,
        Rule::TableSpace,
        Rule::BoardWidth,
        Rule::NodeTableSize,
        Rule::PropertyTableSize,
        Rule::PoolSize,
        Rule::NodeNameRange,
        Rule::NodeParentOrder,
        Rule::PropertyRange,
        Rule::DuplicateProperty,
        Rule::CpusNode,
        Rule::CpusAddressCells,
        Rule::CpusSizeCells,
        Rule::CpuCount,
        Rule::CpuDeviceType,
        Rule::CpuReg,
        Rule::DuplicateCpuReg,
        Rule::CpuMapMissing,
        Rule::CpuMapDuplicate,
        Rule::CpuPhandle,
        Rule::TopologyOutsideMap,
        Rule::CpuMapName,
        Rule::CpuMapKind,
        Rule::CpuMapOrder,
        Rule::CpuMapDepth,
        Rule::CpuMapEmpty,
        Rule::CpuMapPhandle,
        Rule::CpuMapCpuRepeated,
        Rule::CpuUnmapped,
        Rule::RowSpace,
        Rule::SlotTableBits,
        Rule::SlotTableSpace,
        Rule::ListLength,
        Rule::ListMpidr,
        Rule::PlanPositions,
        Rule::ListUnknown,
        Rule::AnswerSpace,
    ];

    /// The rule with a number; none for 0, which is acceptance, and for what the library never tells.
    pub fn from_number(number: u32) -> Option<Self> {
        Self::ALL.into_iter().find(|rule| rule.number() == number)
    }

    /// The number that the library tells.
    pub const fn number(self) -> u32 {
        self as u32
    }

    /// A name that stays the same in later versions, as `cpu_map_depth`.
    pub fn check_name(self) -> &'static str {
        texts(self.number()).0
    }

    /// A sentence without a full stop, as `more than four clusters are nested`.
    pub fn sentence(self) -> &'static str {
        texts(self.number()).1
    }
}

impl fmt::Display for Rule {
    fn fmt(&self, f: &mut fmt::Formatter<'_>) -> fmt::Result {
        f.pad(self.sentence())
    }
}

#[cfg(test)]
mod tests {
    use super::*;
    use crate::header::enumerators;
    use std::format;
    use std::string::{String, ToString};
    use std::vec::Vec;

    /// CPU_MAP_DEPTH as CpuMapDepth.
    fn camel_case(name: &str) -> String {
        let word = |word: &str| word[..1].to_string() + &word[1..].to_lowercase();
        name.split('_').map(word).collect()
    }

    /// Each enumerator but 0 is a rule of the same name and number, in the same order, and no other rule is there.
    #[test]
    fn rules_of_the_header() {
        let mut there = enumerators();
        assert_eq!(there.remove(0).number, 0);
        let there: Vec<(u32, String)> = there
            .iter()
            .map(|one| (one.number, camel_case(one.name)))
            .collect();
        let here = Rule::ALL.map(|rule| (rule.number(), format!("{rule:?}")));
        assert_eq!(here[..], there);
    }

    #[test]
    fn from_number() {
        for number in (0..=300).chain([u32::MAX]) {
            let rule = Rule::ALL.iter().find(|rule| rule.number() == number);
            assert_eq!(Rule::from_number(number), rule.copied());
        }
        assert_eq!(Rule::from_number(24), Some(Rule::CpuMapPhandle));
    }

    /// The texts are known for exactly the header's numbers.
    #[test]
    fn check_names_of_the_header() {
        let there = enumerators();
        for number in (0..=300).chain([u32::MAX]) {
            let found = there.iter().find(|one| one.number == number);
            let name = found.map_or("unknown_number".to_string(), |one| one.name.to_lowercase());
            let (check, sentence) = texts(number);
            assert_eq!(check, name, "{number}");
            assert_eq!(sentence == "unknown number", found.is_none(), "{number}");
        }
        assert_eq!(Rule::CpuMapDepth.check_name(), "cpu_map_depth");
        let sentence = "more than four clusters are nested";
        assert_eq!(Rule::CpuMapDepth.to_string(), sentence);
    }
}
