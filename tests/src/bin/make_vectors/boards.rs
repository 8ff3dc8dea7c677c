// SPDX-License-Identifier: BSD-2-Clause OR GPL-2.0-or-later
//! Boards as tables: check_tables, read_tables and read_tables_slots.

use crate::vector::{number, some_answer, unless_short, Call, Ground, Part, Vector};
use sunderwath_tests::answer::ANSWER_WORDS;
use sunderwath_tests::build::cases::{boards, slot_boards};
use sunderwath_tests::build::faults::{faults, with_faults};
use sunderwath_tests::build::mix::{any_board, damaged_tables, large_board};
use sunderwath_tests::build::property_faults;
use sunderwath_tests::build::shapes::valid_tree;
use sunderwath_tests::build::slots::{any_slot_board, lay_out, some_length};
use sunderwath_tests::build::{Board, FULL_ROOM};
use sunderwath_tests::rng::Rng;
use sunderwath_tests::second::{self, Tables};
use sunderwath_tests::width::WIDTHS;

const ROW_WORDS: usize = 12;

/// Boards of each sort that are made at random.
const ANY: usize = 3_000;
const ANY_SLOTS: usize = 3_000;
const SOUND_OF_EACH: usize = 600;
const LARGE: usize = 30;
const DAMAGED: usize = 2_000;

pub fn vectors(rng: &mut Rng) -> Vec<Vector> {
    let mut list = Vec::new();
    for board in fixed() {
        let board = with_room(rng, board);
        list.push(read_tables(rng, &board));
        list.push(read_slots(rng, &board));
        list.push(check_tables(rng, &board));
    }
    for (_, board, entries) in slot_boards() {
        let board = with_room(rng, board);
        list.push(read_slots_with(rng, &board, entries));
    }
    for board in sound(rng) {
        list.push(read_tables(rng, &board));
        list.push(read_slots(rng, &board));
    }
    for _ in 0..ANY {
        let board = any_board(rng);
        list.push(read_tables(rng, &board));
    }
    for _ in 0..ANY_SLOTS {
        let board = any_slot_board(rng);
        list.push(read_slots(rng, &board));
    }
    for _ in 0..LARGE {
        let board = large_board(rng);
        list.push(read_tables(rng, &board));
    }
    for _ in 0..DAMAGED {
        let board = damaged_tables(rng);
        list.push(check_tables(rng, &board));
    }
    list
}

/// The worked boards, what stands beside them, and each fault on each board.
fn fixed() -> Vec<Board> {
    let mut list: Vec<Board> = boards().into_iter().map(|(_, board)| board).collect();
    for width in WIDTHS {
        let all = faults(width);
        list.extend(all.iter().map(|fault| with_faults(width, &[fault])));
    }
    for fault in property_faults::faults() {
        let board = |&width: &u32| Board::of(width, &fault.tree());
        list.extend(fault.widths.iter().map(board));
    }
    list
}

/// Boards that are accepted, of all shapes: mostly small, a few of any size.
fn sound(rng: &mut Rng) -> Vec<Board> {
    let mut list = Vec::new();
    for width in WIDTHS {
        for at in 0..SOUND_OF_EACH {
            let most = if at < 10 { 256 } else { 12 };
            let root = valid_tree(rng, width, most);
            list.push(lay_out(rng, width, &root));
        }
    }
    list
}

/// Rows for the children of record 0 and some words more, where more than any
/// board needs are lent.
fn with_room(rng: &mut Rng, mut board: Board) -> Board {
    if board.room == FULL_ROOM {
        let children = board.nodes.chunks(3).filter(|node| node[0] == 0).count();
        board.room = ROW_WORDS * children.min(256) + rng.below(14);
    }
    board
}

fn tables(board: &Board) -> Tables<'_> {
    let Board { width, room, .. } = *board;
    Tables::new(width, &board.nodes, &board.props, &board.pool, room)
}

fn inputs(board: &Board) -> Vec<Part> {
    vec![
        Part::Words(board.nodes.clone()),
        Part::Words(board.props.clone()),
        Part::Bytes(board.pool.clone()),
    ]
}

fn check_tables(rng: &mut Rng, board: &Board) -> Vector {
    let (ground, lent) = (Ground::some(rng), some_answer(rng, ANSWER_WORDS));
    let Board { width, nodes, .. } = board;
    let check = || second::check_tables(*width, nodes, &board.props, &board.pool);
    let answer = unless_short(lent, check);
    let mut parts = inputs(board);
    parts.push(ground.answer(lent, answer.as_ref()));
    Vector {
        call: Call::CheckTables,
        asked: u64::from(board.width),
        ground,
        parts,
        number: number(answer.as_ref()),
    }
}

fn read_tables(rng: &mut Rng, board: &Board) -> Vector {
    let (ground, lent) = (Ground::some(rng), some_answer(rng, ANSWER_WORDS));
    let read = unless_short(lent, || second::read(&tables(board)));
    let answer = read.as_ref().map(|(answer, _)| answer);
    let rows = read.as_ref().map_or(&[][..], |(_, rows)| rows);
    let mut parts = inputs(board);
    parts.push(ground.words(board.room, rows));
    parts.push(ground.answer(lent, answer));
    Vector {
        call: Call::ReadTables,
        asked: u64::from(board.width),
        ground,
        parts,
        number: number(answer),
    }
}

/// With a table of a length that suits the board's bits.
fn read_slots(rng: &mut Rng, board: &Board) -> Vector {
    let (answer, _) = second::read(&tables(board));
    let entries = some_length(rng, answer.bits);
    read_slots_with(rng, board, entries)
}

fn read_slots_with(rng: &mut Rng, board: &Board, entries: usize) -> Vector {
    let (ground, lent) = (Ground::some(rng), some_answer(rng, ANSWER_WORDS));
    let rows = vec![ground.fill; board.room];
    let table = vec![ground.fill; entries];
    let read = unless_short(lent, || second::read_slots(&tables(board), &rows, &table));
    let answer = read.as_ref().map(|read| read.answer);
    let (rows, table) = read.map_or((rows, table), |read| (read.rows, read.table));
    let mut parts = inputs(board);
    parts.push(Part::WordsAfter(rows));
    parts.push(Part::WordsAfter(table));
    parts.push(ground.answer(lent, answer.as_ref()));
    Vector {
        call: Call::ReadTablesSlots,
        asked: u64::from(board.width),
        ground,
        parts,
        number: number(answer.as_ref()),
    }
}
