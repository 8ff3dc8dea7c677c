// SPDX-License-Identifier: BSD-2-Clause OR GPL-2.0-or-later
//! The records of the /cpus subtree, and the names, paths and values that messages and output need.

use crate::escape;
use sunderwath::{NODE_WORDS, NONE, PROPERTY_WORDS};

/// Node words, property words and pool, as the library takes them. The pool is the blob.
#[derive(Debug, Default)]
pub struct Tables {
    pub nodes: Vec<u32>,
    pub props: Vec<u32>,
    pub pool: Vec<u8>,
}

impl Tables {
    pub fn lent(&self) -> sunderwath::Tables<'_> {
        sunderwath::Tables {
            nodes: &self.nodes,
            props: &self.props,
            pool: &self.pool,
        }
    }

    fn bytes(&self, offset: u32, length: u32) -> &[u8] {
        &self.pool[offset as usize..offset as usize + length as usize]
    }

    pub fn node_count(&self) -> usize {
        self.nodes.len() / NODE_WORDS
    }

    pub fn property_count(&self) -> usize {
        self.props.len() / PROPERTY_WORDS
    }

    pub fn parent(&self, record: u32) -> Option<u32> {
        let parent = self.nodes[NODE_WORDS * record as usize];
        (parent != NONE).then_some(parent)
    }

    /// The records with the same parent, the record itself among them.
    pub fn siblings(&self, record: u32) -> Vec<u32> {
        let parent = self.parent(record);
        let all = 0..self.node_count() as u32;
        all.filter(|&other| self.parent(other) == parent).collect()
    }

    pub fn name_bytes(&self, record: u32) -> &[u8] {
        let words = &self.nodes[NODE_WORDS * record as usize..];
        self.bytes(words[1], words[2])
    }

    pub fn name(&self, record: u32) -> String {
        escape::characters(self.name_bytes(record))
    }

    pub fn property_node(&self, property: u32) -> u32 {
        self.props[PROPERTY_WORDS * property as usize]
    }

    pub fn property_name_bytes(&self, property: u32) -> &[u8] {
        let words = &self.props[PROPERTY_WORDS * property as usize..];
        self.bytes(words[1], words[2])
    }

    pub fn property_name(&self, property: u32) -> String {
        escape::characters(self.property_name_bytes(property))
    }

    pub fn value(&self, property: u32) -> &[u8] {
        let words = &self.props[PROPERTY_WORDS * property as usize..];
        self.bytes(words[3], words[4])
    }

    /// The properties of a node.
    pub fn properties(&self, node: u32) -> impl Iterator<Item = u32> + '_ {
        let all = 0..self.property_count() as u32;
        all.filter(move |&property| self.property_node(property) == node)
    }

    /// The value of a property of a node, where the library's answer does not name its record.
    pub fn find_value(&self, node: u32, name: &str) -> Option<&[u8]> {
        let found = self
            .properties(node)
            .find(|&property| self.property_name_bytes(property) == name.as_bytes());
        found.map(|property| self.value(property))
    }

    /// The full path of a node, as in /cpus/cpu@0.
    pub fn path(&self, record: u32) -> String {
        let above = match self.parent(record) {
            Some(parent) => self.path(parent),
            None => String::new(),
        };
        format!("{above}/{}", self.name(record))
    }
}

#[cfg(test)]
impl Tables {
    /// Nodes alone, each with its parent; the first has none.
    pub fn of_nodes(nodes: &[(u32, &str)]) -> Self {
        let mut tables = Tables::default();
        for (record, (parent, name)) in nodes.iter().enumerate() {
            let parent = if record == 0 { NONE } else { *parent };
            let [offset, length] = tables.put(name.as_bytes());
            tables.nodes.extend([parent, offset, length]);
        }
        tables
    }

    /// With one property more.
    pub fn with(mut self, node: u32, name: &str, value: &[u8]) -> Self {
        let name = self.put(name.as_bytes());
        let value = self.put(value);
        self.props
            .extend([node, name[0], name[1], value[0], value[1]]);
        self
    }

    fn put(&mut self, bytes: &[u8]) -> [u32; 2] {
        let offset = self.pool.len() as u32;
        self.pool.extend_from_slice(bytes);
        [offset, bytes.len() as u32]
    }
}

#[cfg(test)]
mod tests {
    use super::*;

    #[test]
    fn siblings_have_the_same_parent() {
        let parents = [0, 0, 1, 1, 3, 1, 0];
        let tables = Tables::of_nodes(&parents.map(|parent| (parent, "x")));
        assert_eq!(tables.siblings(0), [0]);
        assert_eq!(tables.siblings(1), [1, 6]);
        assert_eq!(tables.siblings(3), [2, 3, 5]);
        assert_eq!(tables.siblings(4), [4]);
    }

    #[test]
    fn names_and_paths() {
        let tables = Tables::of_nodes(&[(0, "cpus"), (0, "cpu@0"), (1, "a\nb")]);
        let tables = tables.with(1, "cpu", &[7]);
        assert_eq!(tables.path(0), "/cpus");
        assert_eq!(tables.path(2), "/cpus/cpu@0/a\nb");
        assert_eq!(tables.property_name(0), "cpu");
        assert_eq!(tables.property_node(0), 1);
        assert_eq!((tables.node_count(), tables.property_count()), (3, 1));
    }

    #[test]
    fn values() {
        let tables = Tables::of_nodes(&[(0, "cpus"), (0, "cpu@0")]);
        let tables = tables.with(1, "reg", &[1]).with(0, "cpu", &[2]);
        let tables = tables.with(1, "cpu", &[3, 4]);
        assert_eq!(tables.properties(1).collect::<Vec<_>>(), [0, 2]);
        assert_eq!(tables.value(2), [3, 4]);
        assert_eq!(tables.find_value(1, "cpu"), Some(&[3, 4][..]));
        assert_eq!(tables.find_value(0, "reg"), None);
    }
}
