// SPDX-License-Identifier: BSD-2-Clause OR GPL-2.0-or-later
//! The numbers in words, as include/sunderwath_text.c has them.

use crate::raw;
use core::{slice, str};

/// A text of the table.
///
/// # Safety
///
/// The pointer has to be one that `sunderwath_check_name` or `sunderwath_strerror` returned.
unsafe fn text(pointer: *const u8) -> &'static str {
    let mut length = 0;
    // SAFETY: both functions return constant data that ends in a zero byte, for every number; nothing behind it is read.
    let bytes = unsafe {
        while *pointer.add(length) != 0 {
            length += 1;
        }
        slice::from_raw_parts(pointer, length)
    };
    str::from_utf8(bytes).expect("the texts are ASCII")
}

/// Check name and sentence of any number, 0 too. The check name stays the same in later versions, as dtc's check names do; it is
/// `unknown_number` for a number that the library does not tell.
pub fn texts(number: u32) -> (&'static str, &'static str) {
    // SAFETY: both functions may be called with any number.
    unsafe {
        (
            text(raw::sunderwath_check_name(number)),
            text(raw::sunderwath_strerror(number)),
        )
    }
}
