// SPDX-License-Identifier: BSD-2-Clause OR GPL-2.0-or-later
//! Time of a blob to rows, in turns: the blob call, the fast version with its
//! rows copied to bytes and, with the feature `fdt`, the reader over libfdt.

use sunderwath::ROW_WORDS;
use sunderwath_tests::build::shapes::regular_board_of;
use sunderwath_tests::build::{blob, FULL_ROOM};
use sunderwath_tests::second::{BYTES_ANSWER, MOST_NODES, MOST_PROPERTIES};
use sunderwath_tests::timing::{best_in_turns, black_box};
use sunderwath_tests::width::{ARM64, RISCV};
use sunderwath_tests::{fast, ffi};

const ROUNDS: usize = 25;

/// Each cpu of a regular board has six properties with its leaf, `/cpus` two.
const MOST_CPUS: usize = (MOST_PROPERTIES - 2) / 6;

/// What a reader is lent, and whether it has read the blob each time.
struct Lent {
    width: u32,
    nodes: Vec<u32>,
    props: Vec<u32>,
    words: Vec<u32>,
    rows: Vec<u8>,
    read: bool,
}

impl Lent {
    fn new(width: u32) -> Lent {
        Lent {
            width,
            nodes: vec![0; 3 * MOST_NODES],
            props: vec![0; 5 * MOST_PROPERTIES],
            words: vec![0; FULL_ROOM],
            rows: vec![0; 4 * FULL_ROOM],
            read: true,
        }
    }

    fn library(&mut self, blob: &[u8]) {
        let mut answer = [0; BYTES_ANSWER];
        let number = ffi::read_blob_into(self.width, blob, &mut self.rows, black_box(&mut answer));
        self.read &= number == 0;
    }

    fn fast(&mut self, blob: &[u8]) {
        let Lent { nodes, props, .. } = self;
        let answer = fast::read_blob(self.width, blob, nodes, props, &mut self.words);
        self.read &= answer.number == 0;
        self.copy_rows(ROW_WORDS * answer.count as usize);
    }

    /// Writes the first words of the rows as little-endian bytes.
    fn copy_rows(&mut self, words: usize) {
        let places = self.rows.chunks_exact_mut(4);
        for (place, word) in places.zip(&self.words[..words]) {
            place.copy_from_slice(&word.to_le_bytes());
        }
    }

    #[cfg(feature = "fdt")]
    fn libfdt(&mut self, blob: &[u8]) {
        let mut answer = [0; sunderwath_tests::answer::ANSWER_WORDS];
        if with_libfdt(self.width) {
            self.read &= sunderwath_tests::fdt::read(blob, false, &mut self.words, &mut answer);
        }
    }

    #[cfg(not(feature = "fdt"))]
    fn libfdt(&mut self, _: &[u8]) {}
}

/// The reader over libfdt knows ARM boards only.
fn with_libfdt(width: u32) -> bool {
    cfg!(feature = "fdt") && width != RISCV
}

/// Nanoseconds of the blob call, the fast version and the reader over libfdt,
/// which all write the same rows.
fn times(width: u32, blob: &[u8], calls: usize) -> Vec<f64> {
    let [mut ours, mut peer, mut libfdt] = [(); 3].map(|()| Lent::new(width));
    let times = best_in_turns(
        ROUNDS,
        calls,
        &mut [
            &mut || black_box(&mut ours).library(black_box(blob)),
            &mut || black_box(&mut peer).fast(black_box(blob)),
            &mut || black_box(&mut libfdt).libfdt(black_box(blob)),
        ],
    );
    assert!(ours.read && peer.read && libfdt.read, "each reads the blob");
    assert_eq!(ours.rows, peer.rows, "rows of the fast version");
    if with_libfdt(width) {
        libfdt.copy_rows(FULL_ROOM);
        assert_eq!(ours.rows, libfdt.rows, "rows of the reader over libfdt");
    }
    times
}

fn measure(width: u32, cpus: usize, calls: usize) {
    let blob = blob::write(&regular_board_of(width, cpus));
    let times = times(width, &blob, calls);
    let (ours, peers) = (times[0], &times[1..]);
    let name = match width {
        RISCV => format!("{cpus} harts, RISC-V"),
        _ => format!("{cpus} cpus"),
    };
    print!("{name:<22} {:>8} {:>12.2}", blob.len(), ours / 1000.0);
    for (at, peer) in peers.iter().enumerate() {
        match at == 0 || with_libfdt(width) {
            true => print!(" {:>12.2} {:>8.2}", peer / 1000.0, ours / peer),
            false => print!(" {:>12} {:>8}", "-", "-"),
        }
    }
    println!();
}

pub fn run() {
    println!(
        "blob to rows, microseconds, best of {ROUNDS} in turns; each ratio is blob call / peer"
    );
    println!(
        "fast: the rows copied to bytes; libfdt: few checks, rows of words, own table of phandles"
    );
    println!(
        "{:<22} {:>8} {:>12} {:>12} {:>8} {:>12} {:>8}",
        "board", "bytes", "blob call", "fast", "ratio", "libfdt", "ratio"
    );
    for (cpus, calls) in [(4, 1000), (16, 250), (64, 50), (128, 25), (MOST_CPUS, 15)] {
        measure(ARM64, cpus, calls);
    }
    for (harts, calls) in [(16, 250), (MOST_CPUS, 15)] {
        measure(RISCV, harts, calls);
    }
}
