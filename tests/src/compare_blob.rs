// SPDX-License-Identifier: BSD-2-Clause OR GPL-2.0-or-later
//! Compares read_blob with the second reader on one blob, with every byte that
//! is lent and the bytes around them, and with read_flat and read_tables.

use crate::answer::Answer;
use crate::build::flat_case::{shrink, write_text, FlatCase};
use crate::build::loader::Lent;
use crate::ffi;
use crate::lent::Part;
use crate::second::{self, Told, MOST_NODES, MOST_PROPERTIES};
use sunderwath::ROW_WORDS;

/// The three parts of a call.
struct Parts {
    blob: Part,
    rows: Part,
    answer: Part,
}

impl Parts {
    fn new(blob: &[u8], lent: Lent) -> Parts {
        Parts {
            blob: Part::of(blob, (lent.start + blob.len()) % 8),
            rows: Part::new(lent.rows, lent.start),
            answer: Part::new(lent.answer, (lent.start + lent.rows) % 8),
        }
    }

    fn difference(&self, wanted: &Parts) -> Option<String> {
        let of_answer = self.answer.difference("answer", &wanted.answer);
        of_answer
            .or_else(|| self.rows.difference("rows", &wanted.rows))
            .or_else(|| self.blob.difference("blob", &wanted.blob))
    }
}

/// What differs between the library and what is wanted of it.
fn library_differs(blob: &[u8], lent: Lent, told: &Told) -> Option<String> {
    let mut parts = Parts::new(blob, lent);
    let number = ffi::read_blob_into(
        lent.width,
        parts.blob.lent(),
        parts.rows.lent_mut(),
        parts.answer.lent_mut(),
    );
    let mut wanted = Parts::new(blob, lent);
    wanted.rows.write(&told.row_bytes());
    wanted.answer.write(&told.answer_bytes());
    let different = parts.difference(&wanted);
    if number == told.number() && different.is_none() {
        return None;
    }
    Some(format!(
        "library {number}, second reader {} {:?}\n{}",
        told.number(),
        told.words(),
        different.unwrap_or_default()
    ))
}

/// The answer and the rows of the library's calls on words.
fn by_tables(blob: &[u8], lent: Lent) -> (Answer, Vec<u32>) {
    let mut nodes = vec![0; 3 * MOST_NODES];
    let mut props = vec![0; 5 * MOST_PROPERTIES];
    let mut rows = vec![0; lent.rows / 4];
    let flat = ffi::read_flat(blob, &mut nodes, &mut props);
    if flat.number != 0 {
        let answer = Answer::refusal(flat.number, flat.place as usize);
        return (answer, Vec::new());
    }
    let nodes = &nodes[..3 * flat.nodes as usize];
    let props = &props[..5 * flat.props as usize];
    let answer = ffi::read_tables(lent.width, nodes, props, blob, &mut rows);
    rows.truncate(ROW_WORDS * answer.count as usize);
    (answer, rows)
}

/// The calls on words tell the same, if there is an answer.
fn tables_differ(blob: &[u8], lent: Lent, told: &Told) -> Option<String> {
    let answer = told.answer?;
    let (by_tables, rows) = by_tables(blob, lent);
    let same = answer == by_tables && rows == told.rows;
    (!same).then(|| format!("second reader {answer:?}\nread_flat, read_tables {by_tables:?}"))
}

fn second(blob: &[u8], lent: Lent) -> Told {
    second::read_blob(lent.width, blob, lent.rows, lent.answer)
}

fn differs(blob: &[u8], lent: Lent, told: &Told) -> Option<String> {
    library_differs(blob, lent, told).or_else(|| tables_differ(blob, lent, told))
}

/// What is told of a blob, or the report of a disagreement with a smaller blob
/// that can be replayed.
pub fn compare_blob(blob: &[u8], lent: Lent) -> Result<Told, String> {
    let told = second(blob, lent);
    if differs(blob, lent, &told).is_none() {
        return Ok(told);
    }
    let again = |case: &FlatCase| differs(&case.blob, lent, &second(&case.blob, lent));
    let case = FlatCase {
        blob: blob.to_vec(),
        nodes: 0,
        props: 0,
    };
    let small = shrink(&case, &|case| again(case).is_some());
    let what = again(&small).unwrap_or_default().replace('\n', "\n# ");
    Err(format!("# {what}\n{}{}", lent.line(), write_text(&small)))
}

/// What is told of a blob that both agree on.
pub fn agreed_blob(blob: &[u8], lent: Lent) -> Told {
    compare_blob(blob, lent).unwrap_or_else(|report| panic!("\n{report}"))
}
