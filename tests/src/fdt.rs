// SPDX-License-Identifier: BSD-2-Clause OR GPL-2.0-or-later
//! The reader over libfdt (c/bench_fdt.c), a peer in the benchmarks.

use crate::answer::ANSWER_WORDS;

extern "C" {
    fn bench_fdt_read(
        blob: *const u8,
        through_libfdt: i32,
        rows: *mut u32,
        words: usize,
        answer: *mut u32,
    ) -> i32;
}

/// Reads a whole blob into rows, with phandles found by libfdt's search or in
/// a table of its own; whether it did.
pub fn read(
    blob: &[u8],
    by_search: bool,
    rows: &mut [u32],
    answer: &mut [u32; ANSWER_WORDS],
) -> bool {
    // SAFETY: the blob is whole, and both parts have the words given.
    let failed = unsafe {
        bench_fdt_read(
            blob.as_ptr(),
            i32::from(by_search),
            rows.as_mut_ptr(),
            rows.len(),
            answer.as_mut_ptr(),
        )
    };
    failed == 0
}
