// SPDX-License-Identifier: BSD-2-Clause OR GPL-2.0-or-later
//! What the place of a refusal counts.

use crate::Rule;

/// What the place of a refusal counts; its rule says so.
#[derive(Clone, Copy, Debug, PartialEq, Eq, Hash)]
pub enum Place {
    /// Nothing: the place is 0.
    Nothing,
    /// A node record.
    Node,
    /// A property record.
    Property,
    /// An MPIDR of a list.
    Mpidr,
    /// A byte of the blob.
    Offset,
}

impl Rule {
    /// What the place of a refusal with this rule counts.
    pub const fn place(self) -> Place {
        match self {
            Rule::BlobHeader
            | Rule::BlobBlocks
            | Rule::BlobCpus
            | Rule::TableSpace
            | Rule::BoardWidth
            | Rule::NodeTableSize
            | Rule::PropertyTableSize
            | Rule::PoolSize
            | Rule::CpusNode
            | Rule::CpusAddressCells
            | Rule::CpusSizeCells
            | Rule::CpuCount
            | Rule::CpuMapMissing
            | Rule::RowSpace
            | Rule::SlotTableBits
            | Rule::SlotTableSpace
            | Rule::ListLength
            | Rule::PlanPositions
            | Rule::ListUnknown
            | Rule::AnswerSpace => Place::Nothing,
            Rule::BlobStructure => Place::Offset,
            Rule::PropertyRange | Rule::DuplicateProperty => Place::Property,
            Rule::ListMpidr => Place::Mpidr,
            Rule::NodeNameRange
            | Rule::NodeParentOrder
            | Rule::CpuDeviceType
            | Rule::CpuReg
            | Rule::DuplicateCpuReg
            | Rule::CpuMapDuplicate
            | Rule::CpuPhandle
            | Rule::TopologyOutsideMap
            | Rule::CpuMapName
            | Rule::CpuMapKind
            | Rule::CpuMapOrder
            | Rule::CpuMapDepth
            | Rule::CpuMapEmpty
            | Rule::CpuMapPhandle
            | Rule::CpuMapCpuRepeated
            | Rule::CpuUnmapped => Place::Node,
        }
    }
}

#[cfg(test)]
mod tests {
    use super::*;
    use crate::header::enumerators;

    /// What stands behind the semicolon of each comment of the header.
    #[test]
    fn places_of_the_header() {
        for enumerator in enumerators() {
            let rule = match Rule::from_number(enumerator.number) {
                Some(rule) => rule,
                None => continue,
            };
            let (_, place) = enumerator.comment.split_once("; ").expect("a place");
            let place = place.split([',', ' ']).next();
            let expected = match place.expect("a word") {
                "0" | "nothing" => Place::Nothing,
                "record" => Place::Node,
                "property" => Place::Property,
                "index" => Place::Mpidr,
                "the" => Place::Offset,
                other => panic!("{other}"),
            };
            assert_eq!(rule.place(), expected, "{}", enumerator.name);
        }
    }
}
