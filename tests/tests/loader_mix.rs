// SPDX-License-Identifier: BSD-2-Clause OR GPL-2.0-or-later
//! read_blob against the second reader on a mixture of blobs: the numbers told
//! are exactly those that a blob can bring about.

use std::collections::BTreeSet;
use sunderwath_tests::answer::{Answer, SHORT_ANSWER};
use sunderwath_tests::build::loader::any_blob;
use sunderwath_tests::compare_blob::agreed_blob;
use sunderwath_tests::counts::{blob_numbers, Counts};
use sunderwath_tests::rng::Rng;

const BLOBS: usize = 60_000;
const SEED: u64 = 0x10AD;

#[test]
fn any_blobs() {
    println!("{BLOBS} blobs, seed {SEED:#x}");
    let mut rng = Rng::new(SEED);
    let mut counts = Counts::default();
    for _ in 0..BLOBS {
        let (blob, lent) = any_blob(&mut rng);
        let told = agreed_blob(&blob, lent);
        let short = Answer::refusal(SHORT_ANSWER, 0);
        counts.add(&told.answer.unwrap_or(short));
    }
    println!("{}", counts.lines_of(blob_numbers()));
    let expected: BTreeSet<u32> = blob_numbers().chain([0]).collect();
    assert_eq!(counts.told(), expected);
    assert!(counts.second_places());
    assert!(counts.of(0) > BLOBS / 10, "accepted");
}
