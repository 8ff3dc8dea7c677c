// SPDX-License-Identifier: BSD-2-Clause OR GPL-2.0-or-later
//! A slice as arrays, as the standard library's as_chunks gives them, which
//! Debian's compiler does not have yet.

use std::slice::{from_raw_parts, from_raw_parts_mut};

/// The whole arrays, and what is left behind them.
pub fn chunks<T, const N: usize>(slice: &[T]) -> (&[[T; N]], &[T]) {
    let count = slice.len() / N;
    let (whole, rest) = slice.split_at(count * N);
    // SAFETY: an array of N has the alignment of its elements and the size of N
    // of them, and so many elements are there.
    let arrays = unsafe { from_raw_parts(whole.as_ptr().cast(), count) };
    (arrays, rest)
}

/// The whole arrays, to write.
pub fn chunks_mut<T, const N: usize>(slice: &mut [T]) -> &mut [[T; N]] {
    let count = slice.len() / N;
    // SAFETY: the same, and the slice is borrowed mutably.
    unsafe { from_raw_parts_mut(slice.as_mut_ptr().cast(), count) }
}
