// SPDX-License-Identifier: BSD-2-Clause OR GPL-2.0-or-later
//! What the program `cases` reads, and what it has to write as the second
//! reader has it.

use crate::answer::Answer;
use crate::build::cases::{boards, lists, slot_boards, Case, List, SlotCase, NAMES};
use crate::build::Board;
use crate::compare::second_tables;
use crate::second::{self, Kind};
use std::fmt::{Display, Write};
use sunderwath::ROW_WORDS;

/// The kinds of cases.
const BOARD: u32 = 0;
const LIST: u32 = 1;
const NAME: u32 = 2;
const SLOTS: u32 = 3;

/// The longest text and the longest name that the program takes.
const TEXT_BYTES: usize = 96;

/// What each word of a row buffer is before a board is read.
const UNTOUCHED: u32 = 9;

/// The same of a table: no row has this number.
const NO_ROW: u32 = 777;

/// The rows that are lent to a board that is refused.
const REFUSED_ROWS: usize = 6;

/// The files stdin and stdout of the program. It writes numbers, and after each
/// the next text of its input.
#[derive(Default)]
pub struct Files {
    pub input: Vec<u8>,
    pub output: String,
    /// What is read before the next number is written.
    data: Vec<u8>,
}

/// The words lent for rows: a row more than is needed, or some for a refusal.
fn lent(board: &Board, answer: &Answer) -> usize {
    let rows = match answer.number {
        0 => answer.count as usize + 1,
        _ => REFUSED_ROWS,
    };
    board.room.min(rows * ROW_WORDS)
}

/// The number of cases, the cases, and the end of the last line.
pub fn files() -> Files {
    let (boards, tabled, lists) = (boards(), slot_boards(), lists());
    let asked: usize = lists.iter().map(|list| list.asked.len()).sum();
    let mut files = Files::default();
    files.start(boards.len() + tabled.len() + asked + NAMES.len());
    for list in &lists {
        list.asked.iter().for_each(|&mpidr| files.list(list, mpidr));
    }
    NAMES.iter().for_each(|name| files.name(name));
    boards.iter().for_each(|board| files.board(board));
    tabled.iter().for_each(|board| files.slots(board));
    files.text("\n");
    files
}

impl Files {
    fn start(&mut self, cases: usize) {
        self.input.extend((cases as u32).to_be_bytes());
        self.output = cases.to_string();
    }

    fn word(&mut self, word: u32) {
        self.data.extend(word.to_be_bytes());
    }

    fn words(&mut self, words: &[u32]) {
        self.word(words.len() as u32);
        words.iter().for_each(|&word| self.word(word));
    }

    fn bytes(&mut self, bytes: &[u8]) {
        self.word(bytes.len() as u32);
        self.data.extend(bytes);
    }

    fn mpidr(&mut self, mpidr: u64) {
        self.data.extend(mpidr.to_be_bytes());
    }

    /// The text after the last number stands before the data of the next.
    fn text(&mut self, text: &str) {
        assert!(text.len() <= TEXT_BYTES, "{text}");
        self.input.extend((text.len() as u32).to_be_bytes());
        self.input.extend(text.as_bytes());
        self.input.append(&mut self.data);
        self.output.push_str(text);
    }

    /// A text, and the number that is written after it.
    fn told(&mut self, text: &str, number: impl Display) {
        self.text(text);
        write!(self.output, "{number}").expect("a string takes it");
    }

    fn answer(&mut self, answer: &Answer, third: &str, hash: &Answer) {
        let [a, b, c, d] = hash.shifts;
        self.told(", place ", answer.place);
        self.told(third, answer.count);
        self.told(", mask ", hash.mask);
        self.told(", shifts ", a);
        [b, c, d].iter().for_each(|shift| self.told(" ", shift));
        self.told(", bits ", hash.bits);
    }

    /// Whether the list has a hash, and the slot of an MPIDR in it.
    fn list(&mut self, list: &List, mpidr: u64) {
        let hash = second::list_hash(&list.mpidrs);
        let slot = second::list_slot(mpidr, &list.mpidrs);
        self.word(LIST);
        self.word(list.mpidrs.len() as u32);
        list.mpidrs.iter().for_each(|&mpidr| self.mpidr(mpidr));
        self.mpidr(mpidr);
        self.told(&format!("\n{}: number ", list.label), hash.number);
        self.told(", place ", hash.place);
        self.told(&format!("; {mpidr:#x}: number "), slot.number);
        self.answer(&slot, ", slot ", &hash);
    }

    fn name(&mut self, (label, name): &(&str, &str)) {
        let (kind, number) = match second::topology_name(name.as_bytes()) {
            Some((Kind::Socket, number)) => (1, number),
            Some((Kind::Cluster, number)) => (2, number),
            Some((Kind::Core, number)) => (3, number),
            Some((Kind::Thread, number)) => (4, number),
            None => (0, 0),
        };
        self.word(NAME);
        self.bytes(name.as_bytes());
        self.told(&format!("\n{label}, {name}: kind "), kind);
        self.told(", number ", number);
    }

    /// The tables, the row buffer before it is read, and the width. Behind the
    /// answer stands the buffer: rows on lines of their own, or all that a
    /// refusal has to leave as it was.
    fn board(&mut self, (label, board): &Case) {
        let (answer, mut rows) = second::read(&second_tables(board));
        let accepted = answer.number == 0;
        let room = lent(board, &answer);
        self.word(BOARD);
        self.words(&board.nodes);
        self.words(&board.props);
        self.bytes(&board.pool);
        self.words(&vec![UNTOUCHED; room]);
        self.word(board.width);
        self.told(&format!("\n{label}: number "), answer.number);
        self.answer(&answer, ", count ", &answer);
        self.told(", second place ", answer.second);
        rows.resize(room, UNTOUCHED);
        for (at, word) in rows.iter().enumerate() {
            let starts = at == 0 || accepted && at % ROW_WORDS == 0;
            self.told(if starts { "\n " } else { " " }, word);
        }
    }

    /// The same with a table, which stands behind the rows on a line of its own.
    fn slots(&mut self, (label, board, entries): &SlotCase) {
        let (answer, _) = second::read(&second_tables(board));
        let room = lent(board, &answer);
        let (rows, table) = (vec![UNTOUCHED; room], vec![NO_ROW; *entries]);
        let mut tables = second_tables(board);
        tables.room = room;
        let read = second::read_slots(&tables, &rows, &table);
        self.word(SLOTS);
        self.words(&board.nodes);
        self.words(&board.props);
        self.bytes(&board.pool);
        self.words(&rows);
        self.words(&table);
        self.word(board.width);
        self.told(&format!("\n{label}: number "), read.answer.number);
        self.answer(&read.answer, ", count ", &read.answer);
        self.told(", second place ", read.answer.second);
        for (at, word) in read.rows.iter().enumerate() {
            let starts = at % ROW_WORDS == 0;
            self.told(if starts { "\n " } else { " " }, word);
        }
        for (at, word) in read.table.iter().enumerate() {
            self.told(if at == 0 { "\n  slots " } else { " " }, word);
        }
    }
}
