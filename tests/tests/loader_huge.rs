// SPDX-License-Identifier: BSD-2-Clause OR GPL-2.0-or-later
//! The calls on bytes with parts whose length does not fit 32 bits: it is told
//! of as it is, and no more is touched than of shorter parts.

use std::alloc::{alloc_zeroed, Layout};
use sunderwath_tests::build::blob;
use sunderwath_tests::build::worked::whole_case;
use sunderwath_tests::ffi;
use sunderwath_tests::second::{list_bytes, read_blob};

const BEYOND: usize = 1 << 32;

/// Zero bytes, as many as 32 bits count and some more. The machine gives them
/// memory when they are touched; None where it does not even promise that.
fn zeros(more: usize) -> Option<Vec<u8>> {
    let length = BEYOND + more;
    let layout = Layout::array::<u8>(length).ok()?;
    // SAFETY: the layout is that of a vector of so many bytes, which is not
    // empty, and all of them are zero.
    let bytes = unsafe {
        let start = alloc_zeroed(layout);
        (!start.is_null()).then(|| Vec::from_raw_parts(start, length, length))
    };
    if bytes.is_none() {
        println!("no room for {length} bytes: not tried");
    }
    bytes
}

#[test]
fn long_rows() {
    let board = blob::write(&whole_case());
    let wanted = read_blob(64, &board, 96, 16);
    for more in [0, 5, 95] {
        let mut rows = match zeros(more) {
            Some(rows) => rows,
            None => return,
        };
        let mut answer = [0; 16];
        assert_eq!(ffi::read_blob_into(64, &board, &mut rows, &mut answer), 0);
        assert_eq!(answer, *wanted.answer_bytes());
        assert_eq!(rows[..96], wanted.row_bytes());
        assert!(rows[96..5000].iter().all(|&byte| byte == 0));
        assert!(rows[BEYOND - 1..].iter().all(|&byte| byte == 0));
    }
}

#[test]
fn long_answers() {
    let board = blob::write(&whole_case());
    let wanted = read_blob(64, &board, 96, 16).answer_bytes();
    for more in [0, 15] {
        let mut answer = match zeros(more) {
            Some(answer) => answer,
            None => return,
        };
        let mut rows = [0; 96];
        assert_eq!(ffi::read_blob_into(64, &board, &mut rows, &mut answer), 0);
        assert_eq!(answer[..16], wanted);
        assert_eq!(ffi::slot_into(5, &list_bytes(&[0, 5]), &mut answer), 0);
        assert_eq!(answer[12..16], [5, 0, 0, 0]);
        assert!(answer[16..5000].iter().all(|&byte| byte == 0));
    }
}

/// 31 and 28, whatever stands at the start.
#[test]
fn long_blobs_and_lists() {
    let board = blob::write(&whole_case());
    let mut bytes = match zeros((board.len() + 7) / 8 * 8) {
        Some(bytes) => bytes,
        None => return,
    };
    let mut answer = [0; 16];
    for length in [BEYOND + 8, BEYOND + 16, bytes.len()] {
        assert_eq!(ffi::slot_into(0, &bytes[..length], &mut answer), 28);
    }
    bytes[..board.len()].copy_from_slice(&board);
    for length in [BEYOND, BEYOND + board.len()] {
        let blob = &bytes[..length];
        assert_eq!(ffi::read_blob_into(64, blob, &mut [0; 96], &mut answer), 31);
    }
}
