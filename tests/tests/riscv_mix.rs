// SPDX-License-Identifier: BSD-2-Clause OR GPL-2.0-or-later
//! Random RISC-V boards: hart ids of any 32 bits, and the same trees read as ARM
//! boards.

use std::collections::BTreeMap;
use sunderwath::layout::{ROW_SLOT, ROW_WORDS};
use sunderwath_tests::answer::Answer;
use sunderwath_tests::build::damage::spoil_tree;
use sunderwath_tests::build::shapes::{regular_board_of, valid_tree};
use sunderwath_tests::build::slots::lay_out;
use sunderwath_tests::build::{text, Board, Node};
use sunderwath_tests::compare::{compare, library};
use sunderwath_tests::compare_slots::{compare_slots, Lent};
use sunderwath_tests::counts::Counts;
use sunderwath_tests::rng::Rng;
use sunderwath_tests::width::{ARM32, ARM64, RISCV};

const GAP: u32 = u32::MAX;
const GUARD: usize = 16;

fn agreed(board: &Board) -> (Answer, Vec<u32>) {
    if let Err(report) = compare(board) {
        panic!("{report}");
    }
    let (answer, buffer) = library(board);
    let words = ROW_WORDS * answer.count as usize;
    (answer, buffer[GUARD..GUARD + words].to_vec())
}

fn with_table(board: &Board, entries: usize, seed: u64) -> u32 {
    let told = compare_slots(board, Lent { entries, seed });
    told.unwrap_or_else(|report| panic!("{report}")).number
}

/// The hart id of each cpu record, from the tree.
fn ids(root: &Node) -> BTreeMap<u32, u32> {
    let mut record = 1;
    let mut ids = BTreeMap::new();
    for child in &root.children {
        let is_cpu = child.name == b"cpu" || child.name.starts_with(b"cpu@");
        let reg = child.get("reg").and_then(|reg| reg.try_into().ok());
        if let (true, Some(reg)) = (is_cpu, reg) {
            ids.insert(record, u32::from_be_bytes(reg));
        }
        record += child.count() as u32;
    }
    ids
}

/// Sound boards of all shapes are accepted, with each hart id in one row.
#[test]
fn sound_boards() {
    const SEED: u64 = 0x4A27;
    const BOARDS: usize = 10_000;
    let mut rng = Rng::new(SEED);
    let (mut high, mut harts) = (0, 0);
    for at in 0..BOARDS {
        let most = if at % 500 == 0 { 256 } else { 16 };
        let root = valid_tree(&mut rng, RISCV, most);
        let board = lay_out(&mut rng, RISCV, &root);
        if board.pool.len() > 65536 || board.node_count() > 1024 {
            continue;
        }
        let (answer, rows) = agreed(&board);
        assert_eq!(
            (answer.number, answer.mask),
            (0, 0),
            "{}",
            text::write(&board)
        );
        assert_eq!((answer.shifts, answer.bits), ([0, 8, 16, 32], 0));
        let pairs = rows.chunks(ROW_WORDS).map(|row| (row[1], row[3]));
        assert_eq!(pairs.collect::<BTreeMap<_, _>>(), ids(&root));
        let others = |row: &[u32]| row[2] == 0 && row[ROW_SLOT] == GAP;
        assert!(rows.chunks(ROW_WORDS).all(others));
        high += rows
            .chunks(ROW_WORDS)
            .filter(|row| row[3] >> 24 != 0)
            .count();
        harts += answer.count as usize;
        let entries = rng.below(4);
        let number = with_table(&board, entries, rng.wide());
        assert_eq!(number, if entries == 0 { 39 } else { 0 });
    }
    println!("{BOARDS} boards, {harts} harts, {high} with bits above 23, seed {SEED:#x}");
    assert!(high > BOARDS && harts - high > BOARDS);
}

/// ARM boards of one cell read as RISC-V boards: the same rows without slots.
#[test]
fn the_same_board_with_slots_and_without() {
    const SEED: u64 = 0x5A3E;
    const BOARDS: usize = 4_000;
    let mut rng = Rng::new(SEED);
    let mut slots = 0;
    for at in 0..BOARDS {
        let most = if at % 500 == 0 { 256 } else { 12 };
        let root = valid_tree(&mut rng, ARM32, most);
        let mut board = lay_out(&mut rng, ARM64, &root);
        let (of_64, mut rows) = agreed(&board);
        board.width = ARM32;
        assert_eq!(agreed(&board), (of_64, rows.clone()));
        board.width = RISCV;
        let (answer, of_harts) = agreed(&board);
        let counts = [of_64, answer].map(|answer| (answer.number, answer.count));
        assert_eq!(counts[0], counts[1]);
        for row in rows.chunks_mut(ROW_WORDS) {
            slots += usize::from(row[ROW_SLOT] != GAP);
            row[ROW_SLOT] = GAP;
        }
        assert_eq!(rows, of_harts);
    }
    println!("{BOARDS} boards, {slots} slots, seed {SEED:#x}");
    assert!(slots > BOARDS);
}

/// Damaged trees tell the same as ARM boards of one cell, up to the bits of `reg`.
#[test]
fn the_same_refusals() {
    const SEED: u64 = 0xDA3A;
    const BOARDS: usize = 20_000;
    let mut rng = Rng::new(SEED);
    let (mut counts, mut of_bits) = (Counts::default(), 0);
    for _ in 0..BOARDS {
        let mut root = valid_tree(&mut rng, ARM32, 6);
        spoil_tree(&mut rng, &mut root);
        let mut board = lay_out(&mut rng, ARM32, &root);
        board.room = rng.below(8 * ROW_WORDS);
        let (of_arm, _) = agreed(&board);
        board.width = RISCV;
        let (answer, _) = agreed(&board);
        let outside = ids(&root).values().any(|id| id >> 24 != 0);
        if of_arm.number == 12 && outside {
            of_bits += 1;
        } else {
            let (told, wanted) = (answer.words(), of_arm.words());
            assert_eq!(told[..3], wanted[..3], "{}", text::write(&board));
            assert_eq!(told[10], wanted[10], "{}", text::write(&board));
        }
        counts.add(&answer);
    }
    println!("{BOARDS} boards, seed {SEED:#x}:\n{}", counts.lines());
    println!("{of_bits} boards of 12 by the bits of reg");
    assert!(of_bits > 20 && counts.of(0) > BOARDS / 10 && counts.second_places());
    assert!((8..=27).all(|number| number == 14 || counts.of(number) > 0));
}

/// The boards that the benchmarks read.
#[test]
fn regular_boards() {
    for cpus in [1, 4, 16, 256] {
        for width in [ARM32, ARM64, RISCV] {
            let board = Board::of(width, &regular_board_of(width, cpus));
            let (answer, rows) = agreed(&board);
            assert_eq!((answer.number, answer.count as usize), (0, cpus));
            let gaps = rows
                .chunks(ROW_WORDS)
                .filter(|row| row[ROW_SLOT] == GAP)
                .count();
            assert_eq!(gaps, if width == RISCV { cpus } else { 0 });
        }
    }
}
