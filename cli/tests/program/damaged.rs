// SPDX-License-Identifier: BSD-2-Clause OR GPL-2.0-or-later
//! Damaged blobs: the program always ends well, the reasons that it gives fit what the library tells, and cutting a blob
//! changes nothing about it.

use crate::builder::{patched, small, Builder, NOP};
use crate::run::{compiled, run_on_input};
use sunderwath_cli::fault::Fault;
use sunderwath_cli::flat::{self, Reading};
use sunderwath_cli::stream::Survey;
use sunderwath_cli::tables::Tables;
use sunderwath_cli::{cut, header, stream};

/// Damaged blobs are accepted or refused, never anything else.
#[test]
fn the_program_ends() {
    let bytes = compiled("two-sockets");
    for at in (0..bytes.len()).step_by(13) {
        let mut damaged = bytes.clone();
        damaged[at] ^= 0xFF;
        let output = run_on_input(&["-"], &damaged);
        assert!(
            matches!(output.status.code(), Some(0..=1)),
            "byte {at} changed"
        );
    }
}

fn surveyed(blob: &[u8]) -> Result<Survey, Fault> {
    header::blocks(blob).and_then(|blocks| stream::survey(blob, &blocks))
}

/// A node's parent and name.
type Node<'a> = (u32, &'a [u8]);
/// A property's node, name and value.
type Property<'a> = (u32, &'a [u8], &'a [u8]);

/// The records with the bytes that they speak of.
fn contents(tables: &Tables) -> (Vec<Node<'_>>, Vec<Property<'_>>) {
    let bytes = |at: u32, length: u32| &tables.pool[at as usize..(at + length) as usize];
    let nodes = tables.nodes.chunks(3);
    let props = tables.props.chunks(5);
    (
        nodes.map(|w| (w[0], bytes(w[1], w[2]))).collect(),
        props
            .map(|w| (w[0], bytes(w[1], w[2]), bytes(w[3], w[4])))
            .collect(),
    )
}

/// What the library tells of a blob is what following its stream tells, and what is told of the blob cut down to /cpus.
fn compare(blob: &[u8]) -> u32 {
    let read = flat::read(blob.to_vec());
    let walked = surveyed(&blob[..header::blob_length(blob)]);
    let cut = cut::cut(blob).and_then(|cut| flat::read(cut.blob));
    match (read, walked, cut) {
        (Ok(Reading { tables, note }), Ok(survey), Ok(cut)) => {
            assert!(note.is_none() && cut.note.is_none());
            assert_eq!(survey.cpus, 1);
            assert_eq!(contents(&tables), contents(&cut.tables));
            0
        }
        (Err(fault), Ok(survey), Err(cut)) => {
            assert_eq!((fault.rule.number(), &fault), (34, &cut));
            assert_eq!(fault.reason, format!("it has {}", survey.cpus));
            34
        }
        (Err(fault), Err(walked), Err(cut)) => {
            assert!(!fault.reason.is_empty());
            assert_eq!((&fault, &fault), (&walked, &cut));
            fault.rule.number()
        }
        (read, walked, cut) => panic!("{read:?}, {walked:?}, {cut:?}"),
    }
}

const WORDS: [u32; 13] = [
    0,
    1,
    2,
    3,
    4,
    5,
    8,
    9,
    16,
    0x0063_7075,
    0x7FFF_FFFF,
    0xFFFF_FFFC,
    u32::MAX,
];

/// Counts for each number how often it was told.
fn compare_all(blob: &[u8]) -> [u32; 36] {
    let mut told = [0; 36];
    for at in (0..blob.len() - 3).step_by(4) {
        for word in WORDS {
            told[compare(&patched(blob, at, word)) as usize] += 1;
        }
    }
    for length in 0..blob.len() {
        told[compare(&blob[..length]) as usize] += 1;
    }
    told
}

#[test]
fn every_word_changed() {
    let around = Builder::rooted().cell("x", 7).begin("y").cell("z", 1);
    let around = around.close().words(&[NOP]).cpus().begin("w").close();
    for blob in [small(), around.finish(), compiled("whole-case")] {
        assert_eq!(compare(&blob), 0);
        let told = compare_all(&blob);
        let missing = [0, 31, 32, 33, 34].iter().find(|&&n| told[n] == 0);
        assert_eq!(missing, None, "{told:?}");
    }
}

/// Token words swapped, so that nodes close early or late.
#[test]
fn every_two_words_swapped() {
    let board = Builder::rooted().begin("a").close().begin("cpus");
    let blob = board.cell("r", 2).begin("b").close().close().finish();
    for first in (56..blob.len() - 4).step_by(4) {
        for second in (first + 4..blob.len() - 3).step_by(4) {
            let mut swapped = blob.clone();
            for at in 0..4 {
                swapped.swap(first + at, second + at);
            }
            compare(&swapped);
        }
    }
}
