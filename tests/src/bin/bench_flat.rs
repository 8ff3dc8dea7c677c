// SPDX-License-Identifier: BSD-2-Clause OR GPL-2.0-or-later
//! Time of a blob: into tables, and on into rows. The library, the fast version
//! and, with the feature `fdt`, a reader over libfdt.

use sunderwath_tests::answer::ANSWER_WORDS;
use sunderwath_tests::build::overlap::overlapping_names;
use sunderwath_tests::build::shapes::regular_board;
use sunderwath_tests::build::{blob, cell, Node, FULL_ROOM};
use sunderwath_tests::timing::{best_in_turns, black_box};
use sunderwath_tests::{fast, ffi};

const ROUNDS: usize = 25;
const WIDTH: u32 = 64;

/// What a reader is lent, and what it is told with.
struct Lent {
    nodes: Vec<u32>,
    props: Vec<u32>,
    rows: Vec<u32>,
    flat: fast::FlatAnswer,
    answer: [u32; ANSWER_WORDS],
}

impl Lent {
    fn new() -> Lent {
        Lent {
            nodes: vec![0; 3 * 1024],
            props: vec![0; 5 * 4096],
            rows: vec![0; FULL_ROOM],
            flat: [0; 4],
            answer: [0; ANSWER_WORDS],
        }
    }

    fn library_tables(&mut self, blob: &[u8]) {
        ffi::read_flat_into(blob, &mut self.nodes, &mut self.props, &mut self.flat);
    }

    fn library_rows(&mut self, blob: &[u8]) {
        self.library_tables(blob);
        let [_, _, nodes, props] = self.flat.map(|word| word as usize);
        ffi::read_tables_into(
            WIDTH,
            &self.nodes[..3 * nodes],
            &self.props[..5 * props],
            blob,
            &mut self.rows,
            &mut self.answer,
        );
    }

    fn fast_tables(&mut self, blob: &[u8]) {
        self.flat = fast::read_flat(blob, &mut self.nodes, &mut self.props);
    }

    fn fast_rows(&mut self, blob: &[u8]) {
        let Lent {
            nodes, props, rows, ..
        } = self;
        self.answer = fast::read_blob(WIDTH, blob, nodes, props, rows).words();
    }

    #[cfg(feature = "fdt")]
    fn libfdt_rows(&mut self, blob: &[u8]) {
        let whole = sunderwath_tests::fdt::read(blob, false, &mut self.rows, &mut self.answer);
        assert!(whole, "the reader over libfdt reads the board");
    }

    #[cfg(not(feature = "fdt"))]
    fn libfdt_rows(&mut self, _: &[u8]) {}
}

/// Times of blob to tables: library, fast.
fn tables(blob: &[u8], calls: usize) -> Vec<f64> {
    let (mut ours, mut peer) = (Lent::new(), Lent::new());
    let times = best_in_turns(
        ROUNDS,
        calls,
        &mut [
            &mut || black_box(&mut ours).library_tables(black_box(blob)),
            &mut || black_box(&mut peer).fast_tables(black_box(blob)),
        ],
    );
    assert_eq!(ours.flat[0], 0, "the blob is accepted");
    assert_eq!(ours.flat, peer.flat, "answer of the fast version");
    assert_eq!(ours.nodes, peer.nodes, "nodes of the fast version");
    assert_eq!(ours.props, peer.props, "properties of the fast version");
    times
}

/// Times of blob to rows: library, fast, libfdt.
fn rows(blob: &[u8], calls: usize) -> Vec<f64> {
    let [mut ours, mut peer, mut libfdt] = [(); 3].map(|()| Lent::new());
    let times = best_in_turns(
        ROUNDS,
        calls,
        &mut [
            &mut || black_box(&mut ours).library_rows(black_box(blob)),
            &mut || black_box(&mut peer).fast_rows(black_box(blob)),
            &mut || black_box(&mut libfdt).libfdt_rows(black_box(blob)),
        ],
    );
    assert_eq!(ours.answer[0], 0, "the board is accepted");
    let mut others = vec![peer];
    if cfg!(feature = "fdt") {
        others.push(libfdt);
    }
    for other in others {
        assert_eq!(ours.answer, other.answer, "answer of a peer");
        assert_eq!(ours.rows, other.rows, "rows of a peer");
    }
    times
}

/// The library's microseconds, then those of each peer with the ratio.
fn columns(times: &[f64]) -> String {
    let mut text = format!("{:>10.2}", times[0] / 1000.0);
    for peer in &times[1..] {
        text += &format!("{:>10.2}{:>7.2}", peer / 1000.0, times[0] / peer);
    }
    text
}

/// The board's `/cpus` before or behind many other nodes, as in the image of a
/// machine.
fn among_devices(cpus: usize, devices: u32, first: bool) -> Node {
    let device = |at: u32| {
        Node::new(format!("serial@{:x}", 0x900_0000 + 0x1000 * at))
            .with("compatible", b"arm,pl011\0arm,primecell\0")
            .with("reg", [cell(0), cell(0x900_0000 + 0x1000 * at)].concat())
            .with("interrupts", [cell(0), cell(at), cell(4)].concat())
            .with("status", b"okay\0")
    };
    let mut root = Node::new("");
    root.children = (0..devices).map(device).collect();
    let at = if first { 0 } else { root.children.len() };
    root.children.insert(at, regular_board(cpus));
    root
}

fn measure(name: &str, blob: &[u8], calls: usize) {
    let (to_tables, mut to_rows) = (tables(blob, calls), rows(blob, calls));
    to_rows.truncate(if cfg!(feature = "fdt") { 3 } else { 2 });
    let (left, right) = (columns(&to_tables), columns(&to_rows));
    println!("{name:<20}{:>8}{left}{right}", blob.len());
}

fn main() {
    println!("blob, microseconds, best of {ROUNDS} in turns; each ratio is library / peer");
    println!("libfdt: few checks, reads as far as the end of /cpus, own table of phandles");
    let heads = ["library", "fast", "ratio", "library", "fast", "ratio"];
    let [a, b, c, d, e, f] = heads;
    println!("{:<20}{:>8}{:>27}{:>44}", "", "", "to tables", "to rows");
    print!("{:<20}{:>8}{a:>10}{b:>10}{c:>7}", "blob", "bytes");
    println!("{d:>10}{e:>10}{f:>7}{:>10}{:>7}", "libfdt", "ratio");
    for (cpus, calls) in [(4, 2000), (16, 500), (64, 100), (256, 15)] {
        let blob = blob::write(&regular_board(cpus));
        measure(&format!("{cpus} cpus"), &blob, calls);
    }
    for (name, first) in [("16 cpus, then more", true), ("16 cpus at the end", false)] {
        let large = blob::write_root(&among_devices(16, 380, first));
        measure(name, &large, 100);
    }
    let blob = overlapping_names(2500, 30_000);
    let left = columns(&tables(&blob, 1));
    println!("{:<20}{:>8}{left}", "2,500 long names", blob.len());
}
