// SPDX-License-Identifier: BSD-2-Clause OR GPL-2.0-or-later
//! Blobs for tests: how a list of items is laid out.

use super::blob::padded;
use super::flat::*;

/// Where the strings block is.
#[derive(Clone, Copy, Debug, PartialEq, Eq)]
pub enum Strings {
    Behind,
    Before,
    /// It is the whole blob, and names may be those of nodes.
    Everywhere,
}

#[derive(Clone, Copy, Debug, PartialEq, Eq)]
pub struct Form {
    /// What stands in padding and between blocks.
    pub padding: u8,
    pub strings: Strings,
    /// Names may be the ends of other names.
    pub share: bool,
    /// Bytes between the header and the first block, whole words.
    pub reserve: usize,
    /// The header's offset of the reservation map.
    pub map: u32,
    /// Bytes behind the total size.
    pub behind: usize,
}

impl Default for Form {
    fn default() -> Form {
        Form {
            padding: 0,
            strings: Strings::Behind,
            share: true,
            reserve: 16,
            map: 40,
            behind: 0,
        }
    }
}

impl Form {
    /// The offset of the structure block, if it is the first.
    pub fn structure(&self) -> usize {
        HEADER_BYTES + self.reserve
    }
}

struct Writer {
    padding: u8,
    structure: Vec<u8>,
    /// Where a name's offset has to stand, and the name.
    names: Vec<(usize, Vec<u8>)>,
}

impl Writer {
    fn word(&mut self, word: u32) {
        self.structure.extend(word.to_be_bytes());
    }

    fn padded(&mut self, bytes: &[u8]) {
        self.structure.extend(bytes);
        let length = padded(self.structure.len());
        self.structure.resize(length, self.padding);
    }

    fn item(&mut self, item: &Item) {
        match item {
            Item::Begin(name) => {
                self.word(BEGIN_NODE);
                self.padded(&[name, &[0][..]].concat());
            }
            Item::EndNode => self.word(END_NODE),
            Item::Prop(name, value) => {
                self.word(PROP);
                self.word(value.len() as u32);
                self.names.push((self.structure.len(), name.clone()));
                self.word(0);
                self.padded(value);
            }
            Item::Nop => self.word(NOP),
            Item::End => self.word(END),
            Item::Word(word) => self.word(*word),
        }
    }
}

fn find(bytes: &[u8], part: &[u8]) -> Option<usize> {
    bytes.windows(part.len()).position(|window| window == part)
}

/// Puts names into the strings, the longest first; gives the place of each.
fn place_names(names: &[(usize, Vec<u8>)], strings: &mut Vec<u8>, share: bool) -> Vec<usize> {
    let mut order: Vec<usize> = (0..names.len()).collect();
    order.sort_by_key(|&at| std::cmp::Reverse(names[at].1.len()));
    let mut places = vec![0; names.len()];
    for at in order {
        let name = [&names[at].1, &[0][..]].concat();
        let known = find(strings, &name).filter(|_| share);
        places[at] = known.unwrap_or(strings.len());
        if known.is_none() {
            strings.extend(name);
        }
    }
    places
}

/// The blob that a list of items and a form make.
pub fn write(list: &[Item], form: &Form) -> Vec<u8> {
    let mut writer = Writer {
        padding: form.padding,
        structure: Vec::new(),
        names: Vec::new(),
    };
    list.iter().for_each(|item| writer.item(item));
    let Writer {
        structure, names, ..
    } = writer;
    let mut blob = vec![form.padding; form.structure()];
    let (structure_at, strings, places);
    if form.strings == Strings::Before {
        let mut text = Vec::new();
        places = place_names(&names, &mut text, form.share);
        strings = (blob.len(), text.len());
        blob.extend(text);
        blob.resize(padded(blob.len()), form.padding);
        structure_at = blob.len();
        blob.extend(&structure);
    } else {
        structure_at = blob.len();
        blob.extend(&structure);
        let everywhere = form.strings == Strings::Everywhere;
        let mut text = blob.split_off(if everywhere { 0 } else { blob.len() });
        places = place_names(&names, &mut text, form.share);
        strings = (blob.len(), text.len());
        blob.extend(text);
    }
    for ((at, _), place) in names.iter().zip(places) {
        set_word(&mut blob, structure_at + at, place as u32);
    }
    write_header(
        &mut blob,
        form.map,
        (structure_at, structure.len()),
        strings,
    );
    blob.resize(blob.len() + form.behind, form.padding);
    blob
}

fn write_header(blob: &mut [u8], map: u32, structure: (usize, usize), strings: (usize, usize)) {
    let total = blob.len() as u32;
    let (structure_at, structure_size) = structure;
    let (strings_at, strings_size) = strings;
    let words = [
        0xD00D_FEED,
        total,
        structure_at as u32,
        strings_at as u32,
        map,
        17,
        16,
        0,
        strings_size as u32,
        structure_size as u32,
    ];
    for (at, word) in words.into_iter().enumerate() {
        set_word(blob, 4 * at, word);
    }
}
