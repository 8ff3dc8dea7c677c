// SPDX-License-Identifier: BSD-2-Clause OR GPL-2.0-or-later
//! What is lent to the blob call, and the mixture of blobs that it is compared
//! on: boards as blobs, sound and damaged in the tree, the tokens and the bytes.

use super::damage::{some_width, spoil_tree};
use super::flat::items;
use super::flat_form::write;
use super::flat_mix::{add_nops, any_case, some_form, spoil_bytes, spoil_items};
use super::flat_trees::around;
use super::shapes::{fill_up, valid_board};
use super::Node;
use crate::rng::Rng;
use crate::second::BYTES_ANSWER;

pub use sunderwath::ROW_BYTES;

/// What is lent beside a blob.
#[derive(Clone, Copy, Debug, PartialEq, Eq)]
pub struct Lent {
    pub width: u32,
    /// Bytes of the rows.
    pub rows: usize,
    /// Bytes of the answer.
    pub answer: usize,
    /// Bytes that the rows start behind a multiple of eight; the other parts
    /// start at other places.
    pub start: usize,
}

/// A width, room for all rows and an answer of the stated bytes.
impl Default for Lent {
    fn default() -> Lent {
        Lent {
            width: 64,
            rows: ROW_BYTES * 256,
            answer: BYTES_ANSWER,
            start: 0,
        }
    }
}

impl Lent {
    /// A line that the text form of blobs passes over.
    pub fn line(&self) -> String {
        let Lent { width, rows, .. } = self;
        format!("# lent {width} {rows} {} {}\n", self.answer, self.start)
    }

    /// The first such line of a text.
    pub fn of_text(text: &str) -> Option<Lent> {
        let line = text.lines().find_map(|line| line.strip_prefix("# lent "))?;
        let numbers: Option<Vec<usize>> = line.split(' ').map(|n| n.parse().ok()).collect();
        let [width, rows, answer, start]: [usize; 4] = numbers?.try_into().ok()?;
        Some(Lent {
            width: u32::try_from(width).ok()?,
            rows,
            answer,
            start,
        })
    }
}

/// A blob of any sort. Most are boards; one of four need not be a stream.
pub fn any_blob(rng: &mut Rng) -> (Vec<u8>, Lent) {
    let (width, blob, cpus) = match rng.below(4) {
        0 => (some_width(rng, 20), any_case(rng).blob, rng.below(4)),
        _ => board_blob(rng),
    };
    (blob, some_lent(rng, width, cpus))
}

/// What is lent for a blob of a width and about so many cpus. At times the width
/// is that of another board or of none.
pub fn some_lent(rng: &mut Rng, width: u32, cpus: usize) -> Lent {
    let width = match rng.below(12) {
        0 => some_width(rng, 2),
        _ => width,
    };
    Lent {
        width,
        rows: some_rows(rng, cpus),
        answer: some_answer(rng),
        start: rng.below(8),
    }
}

/// A board as a blob: its width, the blob, and about how many cpus it has.
fn board_blob(rng: &mut Rng) -> (u32, Vec<u8>, usize) {
    let most = *rng.pick(&[1, 2, 3, 4, 6, 8, 12]);
    let (width, mut cpus) = valid_board(rng, most);
    for _ in 0..*rng.pick(&[0, 1, 1, 1, 2, 3]) {
        spoil_tree(rng, &mut cpus);
    }
    if rng.one_in(12) {
        odd_names(rng, &mut cpus);
    }
    if rng.one_in(500) {
        fill_up(&mut cpus, rng.between(1022, 1027), rng.between(1022, 1027));
    }
    let count = cpus.children.len().saturating_sub(1);
    let root = match rng.one_in(2) {
        true => around(cpus),
        false => Node::new("").child(cpus),
    };
    (width, some_layout(rng, &root), count)
}

/// Names of lengths at the limits, of a node or of a property.
fn odd_names(rng: &mut Rng, root: &mut Node) {
    let record = rng.below(root.count());
    let node = root.at(record);
    match rng.below(4) {
        0 => node.name = vec![b'n'; *rng.pick(&[0, 1, 63, 64, 65, 200])],
        1 => node.props.push((Vec::new(), Vec::new())),
        _ => {
            let name = vec![b'p'; rng.between(30, 33)];
            node.props.push((name, Vec::new()));
        }
    }
}

fn some_layout(rng: &mut Rng, root: &Node) -> Vec<u8> {
    let mut list = items(root);
    if rng.one_in(24) {
        spoil_items(rng, &mut list);
    }
    if rng.one_in(3) {
        add_nops(rng, &mut list);
    }
    let mut blob = write(&list, &some_form(rng));
    if rng.one_in(24) {
        spoil_bytes(rng, &mut blob);
    }
    blob
}

/// Enough mostly, and at times about as many bytes as are needed.
fn some_rows(rng: &mut Rng, cpus: usize) -> usize {
    let need = ROW_BYTES * cpus;
    match rng.below(10) {
        0 => rng.below(need + 1),
        1 => need / 4,
        2 | 3 => (need + rng.below(11)).saturating_sub(5),
        4 => (need + rng.below(3 * ROW_BYTES)).saturating_sub(ROW_BYTES),
        _ => need + ROW_BYTES + rng.below(100),
    }
}

/// The stated bytes mostly, and at times more or fewer.
fn some_answer(rng: &mut Rng) -> usize {
    match rng.below(20) {
        0 => rng.below(16),
        1..=4 => rng.between(17, 40),
        _ => 16,
    }
}

#[cfg(test)]
mod tests {
    use super::*;

    #[test]
    fn the_line_reads_back() {
        let lent = Lent {
            width: u32::MAX,
            start: 7,
            ..Lent::default()
        };
        assert_eq!(
            Lent::of_text(&format!("# x\n{}# y\n", lent.line())),
            Some(lent)
        );
        assert_eq!(Lent::of_text("# lent 64 0 16\nnodes 0\n"), None);
    }
}
