// SPDX-License-Identifier: BSD-2-Clause OR GPL-2.0-or-later
//! Rows and answers of read_blob of every length, from every start.

use sunderwath_tests::answer::NO_PROPERTY;
use sunderwath_tests::build::blob;
use sunderwath_tests::build::loader::{any_blob, Lent, ROW_BYTES};
use sunderwath_tests::build::worked::{cores, example_1, whole_case};
use sunderwath_tests::build::Node;
use sunderwath_tests::compare_blob::agreed_blob;
use sunderwath_tests::rng::Rng;

/// Boards of 1, 2, 5 and 16 cpus.
fn boards() -> [(usize, Node); 4] {
    [
        (1, cores(&[7])),
        (2, whole_case()),
        (5, cores(&[0, 1, 0x100, 0x1_0000, 0xFF_0000_0000])),
        (16, example_1()),
    ]
}

/// 27 for each number of bytes below 48 for each cpu, and for none above.
#[test]
fn every_length_of_rows() {
    for (cpus, root) in boards() {
        let blob = blob::write(&root);
        let need = ROW_BYTES * cpus;
        for rows in 0..=need + ROW_BYTES + 13 {
            let lent = Lent {
                rows,
                start: rows % 7,
                ..Lent::default()
            };
            let wanted = match rows < need {
                true => [27, 0, NO_PROPERTY, 0],
                false => [0, 0, NO_PROPERTY, cpus as u32],
            };
            assert_eq!(agreed_blob(&blob, lent).words(), Some(wanted));
        }
        println!("{cpus} cpus: rows of 0 to {} bytes", need + ROW_BYTES + 13);
    }
}

/// Rows, answer and blob from each byte of eight, with lengths around the room
/// that is needed.
#[test]
fn every_start() {
    for (cpus, root) in boards() {
        // The bytes behind the total size move the blob's start.
        for behind in 0..4 {
            let mut blob = blob::write(&root);
            blob.resize(blob.len() + behind, 0xEE);
            for start in 0..8 {
                for more in 0..=10 {
                    let lent = Lent {
                        rows: ROW_BYTES * cpus + more - 5,
                        answer: 16 + more,
                        start,
                        ..Lent::default()
                    };
                    let number = if more < 5 { 27 } else { 0 };
                    assert_eq!(agreed_blob(&blob, lent).number(), number);
                }
            }
        }
    }
}

/// Far more room than is needed: what stands behind the rows stays.
#[test]
fn much_room() {
    let blob = blob::write(&whole_case());
    for rows in [
        97,
        1000,
        ROW_BYTES * 256,
        ROW_BYTES * 256 + 1,
        70_001,
        1 << 20,
    ] {
        let lent = Lent {
            rows,
            answer: rows,
            ..Lent::default()
        };
        assert_eq!(agreed_blob(&blob, lent).number(), 0);
    }
}

/// Answers of every length up to 20 bytes: below 16 nothing is written at all,
/// from 16 on as many bytes as stated. Sound blobs and wild ones.
#[test]
fn every_length_of_answers() {
    const BLOBS: usize = 400;
    const SEED: u64 = 0xA25E;
    println!("{BLOBS} blobs, seed {SEED:#x}");
    let mut rng = Rng::new(SEED);
    let mut blobs: Vec<(Vec<u8>, Lent)> = (0..BLOBS).map(|_| any_blob(&mut rng)).collect();
    let sound = boards().map(|(_, root)| (blob::write(&root), Lent::default()));
    blobs.extend(sound);
    blobs.push((Vec::new(), Lent::default()));
    blobs.push((vec![0xD0; 70_000], Lent::default()));
    let mut short = 0;
    for (blob, lent) in &blobs {
        for answer in 0..=20 {
            let told = agreed_blob(blob, Lent { answer, ..*lent });
            assert_eq!(told.number() == 49, answer < 16);
            short += usize::from(answer < 16);
        }
    }
    println!("49 told {short} times");
}
