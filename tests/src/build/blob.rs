// SPDX-License-Identifier: BSD-2-Clause OR GPL-2.0-or-later
//! Writes a tree as a flattened devicetree (version 17), for readers of blobs.

use super::Node;

const MAGIC: u32 = 0xD00D_FEED;
const BEGIN_NODE: u32 = 1;
const END_NODE: u32 = 2;
const PROP: u32 = 3;
const END: u32 = 9;
const HEADER_BYTES: usize = 40;
const RESERVE_BYTES: usize = 16;

/// A length with the bytes up to the next cell.
pub(super) fn padded(length: usize) -> usize {
    (length + 3) / 4 * 4
}

struct Writer {
    structure: Vec<u8>,
    strings: Vec<u8>,
    names: Vec<(Vec<u8>, u32)>,
}

impl Writer {
    fn word(&mut self, word: u32) {
        self.structure.extend(word.to_be_bytes());
    }

    /// Bytes, then zeros up to the next cell.
    fn padded(&mut self, bytes: &[u8]) {
        self.structure.extend(bytes);
        let length = padded(self.structure.len());
        self.structure.resize(length, 0);
    }

    fn string(&mut self, name: &[u8]) -> u32 {
        if let Some((_, offset)) = self.names.iter().find(|(n, _)| n == name) {
            return *offset;
        }
        let offset = self.strings.len() as u32;
        self.strings.extend(name);
        self.strings.push(0);
        self.names.push((name.to_vec(), offset));
        offset
    }

    fn node(&mut self, node: &Node) {
        self.word(BEGIN_NODE);
        let mut name = node.name.clone();
        name.push(0);
        self.padded(&name);
        for (name, value) in &node.props {
            let offset = self.string(name);
            self.word(PROP);
            self.word(value.len() as u32);
            self.word(offset);
            self.padded(value);
        }
        for child in &node.children {
            self.node(child);
        }
        self.word(END_NODE);
    }
}

/// A blob whose root has the given cpus node as its only child.
pub fn write(cpus: &Node) -> Vec<u8> {
    write_root(&Node::new("").child(cpus.clone()))
}

pub fn write_root(root: &Node) -> Vec<u8> {
    let mut writer = Writer {
        structure: Vec::new(),
        strings: Vec::new(),
        names: Vec::new(),
    };
    writer.node(root);
    writer.word(END);
    join(&writer.structure, &writer.strings)
}

/// A blob with these two blocks.
pub fn join(structure: &[u8], strings: &[u8]) -> Vec<u8> {
    let structure_at = HEADER_BYTES + RESERVE_BYTES;
    let strings_at = structure_at + structure.len();
    let total = strings_at + strings.len();
    let header = [
        MAGIC,
        total as u32,
        structure_at as u32,
        strings_at as u32,
        HEADER_BYTES as u32,
        17,
        16,
        0,
        strings.len() as u32,
        structure.len() as u32,
    ];
    let mut blob: Vec<u8> = header.iter().flat_map(|w| w.to_be_bytes()).collect();
    blob.resize(structure_at, 0);
    blob.extend(structure);
    blob.extend(strings);
    blob
}
