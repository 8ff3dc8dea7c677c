// SPDX-License-Identifier: BSD-2-Clause OR GPL-2.0-or-later
//! Time of a list's hash for each MPIDR: the library and the fast version.

use sunderwath_tests::answer::ANSWER_WORDS;
use sunderwath_tests::rng::Rng;
use sunderwath_tests::timing::{best_ns, black_box};
use sunderwath_tests::{fast, ffi};

fn main() {
    let seed = 0xBE7C;
    let mut rng = Rng::new(seed);
    println!("list hash, seed {seed:#x}, ns per MPIDR, best of 15");
    println!(
        "{:>8} {:>10} {:>10} {:>8}",
        "length", "library", "fast", "ratio"
    );
    for length in [1, 16, 256] {
        let list: Vec<u64> = (0..length).map(|_| rng.wide() & 0xFF_00FF_FFFF).collect();
        let calls = 400_000 / (length + 8);
        let mut answer = [0; ANSWER_WORDS];
        let ours = best_ns(15, calls, || {
            ffi::list_hash_into(black_box(&list), black_box(&mut answer));
        });
        let peer = best_ns(15, calls, || {
            let words = fast::list_hash(black_box(&list)).words();
            black_box(&mut answer).copy_from_slice(&words);
        });
        let each = length as f64;
        println!(
            "{length:>8} {:>10.2} {:>10.2} {:>8.2}",
            ours / each,
            peer / each,
            ours / peer
        );
    }
}
