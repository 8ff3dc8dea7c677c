// SPDX-License-Identifier: BSD-2-Clause OR GPL-2.0-or-later
//! The parts of the subtree that messages speak of: cpu nodes, the map and its leaves.

use crate::tables::Tables;

impl Tables {
    fn records(&self) -> impl Iterator<Item = u32> {
        0..self.node_count() as u32
    }

    fn has_children(&self, record: u32) -> bool {
        let next = record + 1;
        (next as usize) < self.node_count() && self.parent(next) == Some(record)
    }

    fn is_below(&self, record: u32, ancestor: u32) -> bool {
        let mut above = std::iter::successors(self.parent(record), |&record| self.parent(record));
        above.any(|record| record == ancestor)
    }

    /// The children of the cpus node named `cpu` or `cpu@...`.
    pub fn cpus(&self) -> impl Iterator<Item = u32> + '_ {
        let named = |name: &[u8]| name == b"cpu" || name.starts_with(b"cpu@");
        self.records()
            .filter(move |&record| self.parent(record) == Some(0) && named(self.name_bytes(record)))
    }

    /// The lowest child of the cpus node named `cpu-map`.
    pub fn map(&self) -> Option<u32> {
        self.records()
            .find(|&record| self.parent(record) == Some(0) && self.name_bytes(record) == b"cpu-map")
    }

    /// The records below the map that have no children: in a map whose names and kinds are sound, its cores and threads.
    pub fn leaves(&self) -> impl Iterator<Item = u32> + '_ {
        let map = self.map();
        let below = move |record| map.map_or(false, |map| self.is_below(record, map));
        self.records()
            .filter(move |&record| below(record) && !self.has_children(record))
    }
}

#[cfg(test)]
mod tests {
    use super::*;

    #[test]
    fn parts() {
        let nodes = [
            (0, "cpus"),
            (0, "cpu@0"),
            (1, "cpu"),
            (0, "cpux"),
            (3, "cpu-map"),
            (0, "cpu-map"),
            (5, "cluster0"),
            (6, "core0"),
            (7, "thread0"),
            (6, "core1"),
            (0, "cpu"),
            (0, "cpu-map"),
        ];
        let tables = Tables::of_nodes(&nodes);
        assert_eq!(tables.cpus().collect::<Vec<_>>(), [1, 10]);
        assert_eq!(tables.map(), Some(5));
        assert_eq!(tables.leaves().collect::<Vec<_>>(), [8, 9]);
        let bare = Tables::of_nodes(&nodes[..4]);
        assert_eq!((bare.map(), bare.leaves().count()), (None, 0));
    }
}
