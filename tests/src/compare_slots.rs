// SPDX-License-Identifier: BSD-2-Clause OR GPL-2.0-or-later
//! Compares the readers on one board that is read with a table from slots to
//! rows, with every word that is lent.

use crate::answer::Answer;
use crate::build::shrink::shrink;
use crate::build::{text, Board};
use crate::compare::second_tables;
use crate::ffi;
use crate::rng::Rng;
use crate::second::{self, ReadSlots, SLOT_NUMBERS};
use crate::width::RISCV;
use sunderwath::layout::{ROW_SLOT, ROW_WORDS};

const GAP: u32 = u32::MAX;

/// Words before and behind each lent buffer.
const GUARD: usize = 16;

/// What is lent beside a board's tables and the room for its rows.
#[derive(Clone, Copy, Debug, PartialEq, Eq)]
pub struct Lent {
    /// Entries of the table.
    pub entries: usize,
    /// The seed of what both buffers hold before. Bits 1 and 0 are the style of
    /// the table's words, bits 3 and 2 that of the rows'.
    pub seed: u64,
}

impl Lent {
    /// A line that the text form of boards passes over.
    fn line(&self) -> String {
        format!("# table {} {:x}\n", self.entries, self.seed)
    }

    /// The first such line of a text.
    pub fn of_text(text: &str) -> Option<Lent> {
        let words = text.lines().find_map(|line| line.strip_prefix("# table "));
        let (entries, seed) = words?.split_once(' ')?;
        Some(Lent {
            entries: entries.parse().ok()?,
            seed: u64::from_str_radix(seed, 16).ok()?,
        })
    }
}

/// GAP in each word, numbers as rows have them, or words of any value.
fn words_before(rng: &mut Rng, style: u64, count: usize) -> Vec<u32> {
    let word = |_| match style % 4 {
        0 => GAP,
        1 => rng.below(16) as u32,
        _ => rng.word(),
    };
    (0..count).map(word).collect()
}

/// Rows and table before the call, with the words around them.
fn buffers(board: &Board, lent: Lent) -> [Vec<u32>; 2] {
    let Lent { entries, seed } = lent;
    let mut rng = Rng::new(seed);
    [(board.room, seed >> 2), (entries, seed)]
        .map(|(words, style)| words_before(&mut rng, style, words + 2 * GUARD))
}

/// The lent part of a buffer.
fn inner(buffer: &[u32]) -> &[u32] {
    &buffer[GUARD..buffer.len() - GUARD]
}

fn inner_mut(buffer: &mut [u32]) -> &mut [u32] {
    let end = buffer.len() - GUARD;
    &mut buffer[GUARD..end]
}

/// What the library answers and leaves, with the words around both buffers.
pub fn library_slots(board: &Board, lent: Lent) -> ReadSlots {
    let [mut rows, mut table] = buffers(board, lent);
    let answer = ffi::read_tables_slots(
        board.width,
        &board.nodes,
        &board.props,
        &board.pool,
        inner_mut(&mut rows),
        inner_mut(&mut table),
    );
    ReadSlots {
        answer,
        rows,
        table,
    }
}

/// The same of the second reader.
fn second_slots(board: &Board, lent: Lent) -> ReadSlots {
    let [mut rows, mut table] = buffers(board, lent);
    let read = second::read_slots(&second_tables(board), inner(&rows), inner(&table));
    inner_mut(&mut rows).copy_from_slice(&read.rows);
    inner_mut(&mut table).copy_from_slice(&read.table);
    ReadSlots {
        rows,
        table,
        ..read
    }
}

/// Rows and table of an accepted board, without what stands behind them.
pub fn filled(read: &ReadSlots) -> (Vec<&[u32]>, &[u32]) {
    let rows = inner(&read.rows).chunks(ROW_WORDS);
    let table = &inner(&read.table)[..1 << read.answer.bits];
    (rows.take(read.answer.count as usize).collect(), table)
}

fn word_differs(what: &str, ours: &[u32], wanted: &[u32]) -> Option<String> {
    let at = (0..ours.len()).find(|&at| ours[at] != wanted[at])?;
    Some(format!(
        "word {} of the {what}: library {:#x}, second reader {:#x}",
        at as isize - GUARD as isize,
        ours[at],
        wanted[at]
    ))
}

/// The call without the table: the same words, but where only the table is what
/// is refused.
fn plain_differs(board: &Board, lent: Lent, read: &ReadSlots) -> Option<String> {
    let [mut rows, _] = buffers(board, lent);
    let lent_rows = inner_mut(&mut rows);
    let Board { width, nodes, .. } = board;
    let answer = ffi::read_tables(*width, nodes, &board.props, &board.pool, lent_rows);
    let same = match SLOT_NUMBERS.contains(&read.answer.number) {
        true => answer.number == 0,
        false => answer == read.answer && rows == read.rows,
    };
    (!same).then(|| format!("with a table {:?}\nwithout {answer:?}", read.answer))
}

/// W7 of an accepted RISC-V board: no row has a slot, and the one entry is GAP.
fn gaps_fail(read: &ReadSlots) -> Option<String> {
    let (rows, table) = filled(read);
    let words = rows.iter().map(|row| row[ROW_SLOT]).chain([table[0]]);
    let other = words.enumerate().find(|&(_, word)| word != GAP);
    let one_entry = table.len() == 1;
    (other.is_some() || !one_entry).then(|| format!("no GAP {other:x?}, entries {}", table.len()))
}

/// W5 of an accepted ARM board: each row is found from its slot, an entry that
/// isn't GAP names a row with that slot, and no row has the slot of a GAP.
fn facts_fail(width: u32, read: &ReadSlots) -> Option<String> {
    match (read.answer.number, width) {
        (0, RISCV) => return gaps_fail(read),
        (0, _) => {}
        _ => return None,
    }
    let (rows, table) = filled(read);
    let slot = |row: &&[u32]| row[ROW_SLOT];
    let lost = |&at: &usize| table.get(slot(&rows[at]) as usize) != Some(&(at as u32));
    if let Some(row) = (0..rows.len()).find(lost) {
        return Some(format!("row {row} is not found from its slot"));
    }
    let wrong = |&at: &usize| match table[at] {
        GAP => rows.iter().any(|row| slot(row) == at as u32),
        entry => rows.get(entry as usize).map(slot) != Some(at as u32),
    };
    let entry = (0..table.len()).find(wrong)?;
    Some(format!("entry {entry} is {:#x}", table[entry]))
}

/// The answer that the readers give, or what they differ in.
fn answer_of_both(board: &Board, lent: Lent) -> Result<Answer, String> {
    let ours = library_slots(board, lent);
    let wanted = second_slots(board, lent);
    if ours.answer != wanted.answer {
        let (ours, wanted) = (ours.answer, wanted.answer);
        return Err(format!("library {ours:?}\nsecond reader {wanted:?}"));
    }
    let different = word_differs("rows", &ours.rows, &wanted.rows)
        .or_else(|| word_differs("table", &ours.table, &wanted.table))
        .or_else(|| plain_differs(board, lent, &ours))
        .or_else(|| facts_fail(board.width, &ours));
    different.map_or(Ok(ours.answer), Err)
}

/// The same, with the report of a smaller board that can be replayed.
pub fn compare_slots(board: &Board, lent: Lent) -> Result<Answer, String> {
    let told = answer_of_both(board, lent);
    if told.is_ok() {
        return told;
    }
    let small = shrink(board, &|b| answer_of_both(b, lent).is_err());
    let what = answer_of_both(&small, lent).err().unwrap_or_default();
    let (lent, board) = (lent.line(), text::write(&small));
    Err(format!(
        "{what}\nboard (long_run --replay FILE reads it):\n{lent}{board}"
    ))
}

#[cfg(test)]
mod tests {
    use super::*;
    use crate::build::worked::{cores, harts, whole_case};

    const LENT: Lent = Lent {
        entries: 9,
        seed: 0xA,
    };

    /// What is left of the facts when entries of a sound table are changed.
    fn fails_with(board: &Board, changes: &[(usize, u32)]) -> bool {
        let mut read = second_slots(board, LENT);
        for &(entry, word) in changes {
            inner_mut(&mut read.table)[entry] = word;
        }
        facts_fail(board.width, &read).is_some()
    }

    #[test]
    fn facts_of_changed_tables() {
        let whole = Board::of(64, &whole_case());
        let with_gaps = Board::of(64, &cores(&[0, 5]));
        for board in [&whole, &with_gaps] {
            assert!(!fails_with(board, &[]));
            assert!(fails_with(board, &[(0, GAP)]));
            assert!(fails_with(board, &[(0, 2)]));
            // Behind the filled part any word may stand.
            assert!(!fails_with(board, &[(8, GAP)]));
        }
        assert!(fails_with(&whole, &[(0, 0), (1, 1)]));
        assert!(fails_with(&with_gaps, &[(7, 1)]));
        assert!(fails_with(&with_gaps, &[(7, 2)]));
    }

    #[test]
    fn facts_of_harts() {
        let board = Board::of(RISCV, &harts(&[0, u32::MAX]));
        assert!(!fails_with(&board, &[]));
        assert!(!fails_with(&board, &[(1, 0)]));
        assert!(fails_with(&board, &[(0, 0)]));
        let mut read = second_slots(&board, LENT);
        inner_mut(&mut read.rows)[ROW_WORDS + ROW_SLOT] = 0;
        assert!(facts_fail(RISCV, &read).is_some());
    }

    #[test]
    fn the_line_reads_back() {
        let board = Board::of(64, &whole_case());
        let content = LENT.line() + &text::write(&board);
        assert_eq!(Lent::of_text(&content), Some(LENT));
        assert_eq!(Lent::of_text(&text::write(&board)), None);
        assert_eq!(text::read(&content), Ok(board));
    }
}
