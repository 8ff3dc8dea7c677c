// SPDX-License-Identifier: BSD-2-Clause OR GPL-2.0-or-later
//! Flattened devicetrees: read_flat and read_blob.

use crate::vector::{some_answer, Call, Ground, Part, Vector};
use sunderwath_tests::answer::{FLAT_ANSWER_WORDS, SHORT_ANSWER};
use sunderwath_tests::build::blob;
use sunderwath_tests::build::flat_case::FlatCase;
use sunderwath_tests::build::flat_damage::{truncated, versions, wrapping_blocks};
use sunderwath_tests::build::flat_faults::stream_faults;
use sunderwath_tests::build::flat_form::{write, Form};
use sunderwath_tests::build::flat_large;
use sunderwath_tests::build::flat_mix::any_case;
use sunderwath_tests::build::loader::{any_blob, some_lent, Lent, ROW_BYTES};
use sunderwath_tests::build::loader_faults::tree_faults;
use sunderwath_tests::build::shapes::valid_tree;
use sunderwath_tests::build::worked::whole_case;
use sunderwath_tests::rng::Rng;
use sunderwath_tests::second::{self, flat_answer, BYTES_ANSWER};
use sunderwath_tests::width::{ARM64, WIDTHS};

/// Blobs of each sort that are made at random.
const ANY_FLAT: usize = 3_000;
const ANY_BLOB: usize = 3_000;
const SOUND_OF_EACH: usize = 400;

pub fn vectors(rng: &mut Rng) -> Vec<Vector> {
    let mut list = Vec::new();
    for blob in fixed() {
        let case = roomy(&blob);
        list.push(read_flat(rng, &case));
        let lent = some_lent(rng, ARM64, 4);
        list.push(read_blob(rng, &blob, lent));
    }
    for fault in tree_faults() {
        let lent = some_lent(rng, fault.width, 4);
        list.push(read_blob(rng, &blob::write(&fault.cpus), lent));
    }
    for (blob, lent) in sound(rng) {
        list.push(read_blob(rng, &blob, lent));
    }
    for _ in 0..ANY_FLAT {
        let case = any_case(rng);
        list.push(read_flat(rng, &case));
    }
    for _ in 0..ANY_BLOB {
        let (blob, lent) = any_blob(rng);
        list.push(read_blob(rng, &blob, lent));
    }
    list
}

/// The largest blobs, each fault of a stream, and the whole case cut off at
/// every third byte, with other versions, and with blocks that wrap around.
fn fixed() -> Vec<Vec<u8>> {
    let whole = blob::write(&whole_case());
    let faults = stream_faults().into_iter();
    let mut list = flat_large::all();
    list.extend(faults.map(|fault| write(&fault.list, &Form::default())));
    list.extend(truncated(&whole).into_iter().step_by(3));
    list.extend(versions(&whole).into_iter().map(|(_, _, blob)| blob));
    list.extend(wrapping_blocks(&whole));
    list
}

/// Boards that are accepted if there is room, of all shapes and numbers.
fn sound(rng: &mut Rng) -> Vec<(Vec<u8>, Lent)> {
    let mut list = Vec::new();
    for width in WIDTHS {
        for at in 0..SOUND_OF_EACH {
            let most = if at < 10 { 120 } else { 12 };
            let root = valid_tree(rng, width, most);
            let rows = ROW_BYTES * root.children.len() + rng.below(60);
            let lent = Lent {
                width,
                rows,
                ..some_lent(rng, width, 0)
            };
            list.push((blob::write(&root), lent));
        }
    }
    list
}

/// Tables that are long enough for the records of a blob.
fn roomy(blob: &[u8]) -> FlatCase {
    let (nodes, props) = match second::flat_tables(blob) {
        Ok(tables) => (tables.nodes.len(), tables.props.len()),
        Err(_) => (0, 0),
    };
    FlatCase {
        blob: blob.to_vec(),
        nodes: nodes + 4,
        props: props + 6,
    }
}

fn read_flat(rng: &mut Rng, case: &FlatCase) -> Vector {
    let (ground, lent) = (Ground::some(rng), some_answer(rng, FLAT_ANSWER_WORDS));
    let read = second::read_flat(&case.blob, case.nodes, case.props);
    let answer = flat_answer(&read);
    let (number, words, tables) = match lent < FLAT_ANSWER_WORDS {
        true => (SHORT_ANSWER, Vec::new(), None),
        false => (answer.number, answer.words().to_vec(), read.ok()),
    };
    let tables = tables.unwrap_or_default();
    Vector {
        call: Call::ReadFlat,
        asked: 0,
        ground,
        parts: vec![
            Part::Bytes(case.blob.clone()),
            ground.words(case.nodes, &tables.nodes),
            ground.words(case.props, &tables.props),
            ground.words(lent, &words),
        ],
        number,
    }
}

fn read_blob(rng: &mut Rng, blob: &[u8], lent: Lent) -> Vector {
    let ground = Ground::some(rng);
    let answer = some_answer(rng, BYTES_ANSWER);
    let told = second::read_blob(lent.width, blob, lent.rows, answer);
    Vector {
        call: Call::ReadBlob,
        asked: u64::from(lent.width),
        ground,
        parts: vec![
            Part::Bytes(blob.to_vec()),
            ground.bytes(lent.rows, &told.row_bytes()),
            ground.bytes(answer, &told.answer_bytes()),
        ],
        number: told.number(),
    }
}
