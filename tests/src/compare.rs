// SPDX-License-Identifier: BSD-2-Clause OR GPL-2.0-or-later
//! Compares the readers on one board, with every word that is lent.

use crate::answer::Answer;
use crate::build::shrink::shrink;
use crate::build::{text, Board};
use crate::{fast, ffi, second};

/// Marks words that have to stay as they are.
const PATTERN: u32 = 0x5AFE_C0DE;

/// Words around the lent row buffer.
const GUARD: usize = 16;

/// The library's answer and the row buffer with the words around it.
pub fn library(board: &Board) -> (Answer, Vec<u32>) {
    let mut buffer = vec![PATTERN; board.room + 2 * GUARD];
    let rows = &mut buffer[GUARD..GUARD + board.room];
    let answer = ffi::read_tables(board.width, &board.nodes, &board.props, &board.pool, rows);
    (answer, buffer)
}

/// The second reader's tables for a board.
pub fn second_tables(board: &Board) -> second::Tables<'_> {
    let Board { width, room, .. } = *board;
    second::Tables::new(width, &board.nodes, &board.props, &board.pool, room)
}

/// What the second reader says of a board.
type Wanted = (Answer, Vec<u32>);

fn wanted(board: &Board) -> Wanted {
    second::read(&second_tables(board))
}

/// The library's answer and buffer against the second reader's.
fn library_differs(board: &Board, (wanted, rows): &Wanted) -> Option<String> {
    let (answer, buffer) = library(board);
    if answer != *wanted {
        return Some(format!("library {answer:?}\nsecond reader {wanted:?}"));
    }
    let mut expected = vec![PATTERN; board.room + 2 * GUARD];
    expected[GUARD..GUARD + rows.len()].copy_from_slice(rows);
    let at = (0..buffer.len()).find(|&at| buffer[at] != expected[at])?;
    Some(format!(
        "word {} of the rows: library {:#x}, second reader {:#x}",
        at as isize - GUARD as isize,
        buffer[at],
        expected[at]
    ))
}

/// The fast version against the second reader.
fn fast_differs(board: &Board, (wanted, rows): &Wanted) -> Option<String> {
    let Board {
        width,
        nodes,
        props,
        pool,
        room,
    } = board;
    let mut lent = vec![0; *room];
    let answer = fast::read_tables(*width, nodes, props, pool, &mut lent);
    let mut expected = vec![0; *room];
    expected[..rows.len()].copy_from_slice(rows);
    let same = answer == *wanted && lent == expected;
    (!same).then(|| format!("fast {answer:?}\nsecond reader {wanted:?}"))
}

/// What a disagreement says, with a smaller board that can be replayed.
fn report(board: &Board, differs: fn(&Board, &Wanted) -> Option<String>) -> String {
    let differs = |b: &Board| differs(b, &wanted(b));
    let small = shrink(board, &|b| differs(b).is_some());
    let what = differs(&small).unwrap_or_default();
    let board = text::write(&small);
    format!("{what}\nboard (long_run --replay FILE reads it):\n{board}")
}

/// The answer that all readers give, or the report of a disagreement.
pub fn compare(board: &Board) -> Result<Answer, String> {
    let told = wanted(board);
    if library_differs(board, &told).is_some() {
        return Err(report(board, library_differs));
    }
    if fast_differs(board, &told).is_some() {
        return Err(report(board, fast_differs));
    }
    Ok(told.0)
}
