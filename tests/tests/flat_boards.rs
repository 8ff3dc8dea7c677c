// SPDX-License-Identifier: BSD-2-Clause OR GPL-2.0-or-later
//! read_flat and then read_tables: the boards that dtc compiles, trees written
//! as tables and as blobs, and what read_tables may tell of a blob's tables.

use std::path::PathBuf;
use sunderwath_tests::answer::Answer;
use sunderwath_tests::build::damage::spoil_tree;
use sunderwath_tests::build::flat::{items, read_items, Item};
use sunderwath_tests::build::flat_form::{write, Form};
use sunderwath_tests::build::flat_large as large;
use sunderwath_tests::build::flat_mix::any_case;
use sunderwath_tests::build::flat_trees::around;
use sunderwath_tests::build::shapes::valid_board;
use sunderwath_tests::build::{blob, worked, Board, Node, FULL_ROOM};
use sunderwath_tests::compare::{compare, library};
use sunderwath_tests::compare_flat::{agreed_content, agreed_with_room, content};
use sunderwath_tests::counts::Counts;
use sunderwath_tests::dtc::{compiled, number_of, sources, LAYOUTS};
use sunderwath_tests::rng::Rng;
use sunderwath_tests::second::FlatTables;
use sunderwath_tests::width::{RISCV, WIDTHS};

/// The tables of a blob, with the blob as the pool.
fn board_of(blob: &[u8], width: u32) -> Board {
    let read = agreed_with_room(blob);
    let FlatTables { nodes, props } = read.expect("the blob is accepted");
    Board {
        width,
        nodes,
        props,
        pool: blob.to_vec(),
        room: FULL_ROOM,
    }
}

/// The answer and the rows of a board that all readers of tables agree on.
fn told(board: &Board) -> (Answer, Vec<u32>) {
    if let Err(report) = compare(board) {
        panic!("{report}");
    }
    library(board)
}

#[test]
fn boards_of_dtc() {
    let sources = sources();
    assert!(sources.len() >= 29);
    let mut blobs = 0;
    for source in &sources {
        let plain = compiled(source, &[]);
        let number = number_of(source);
        if (31..=35).contains(&number) {
            let told = agreed_with_room(&plain).map_err(|(why, _)| why.number());
            assert_eq!(told.err(), Some(number), "{}", source.display());
            continue;
        }
        let wanted = agreed_content(&plain);
        let (answer, rows) = told(&board_of(&plain, 64));
        assert_eq!(answer.number, number, "{}", source.display());
        for options in LAYOUTS {
            let blob = compiled(source, options);
            assert_eq!(agreed_content(&blob), wanted);
            assert_eq!(told(&board_of(&blob, 64)), (answer, rows.clone()));
            blobs += 1;
        }
        let list = read_items(&plain);
        for at in 0..list.len() {
            let (before, behind) = list.split_at(at);
            let more = [before, &[Item::Nop], behind].concat();
            assert_eq!(agreed_content(&write(&more, &Form::default())), wanted);
            blobs += 1;
        }
    }
    println!("{} boards, {blobs} other blobs of them", sources.len());
}

/// The worked boards as they are built here and as dtc compiles them.
#[test]
fn worked_boards_as_tables_and_as_blobs() {
    for (name, width, root) in [
        ("whole-case", 64, worked::whole_case()),
        ("example1", 64, worked::example_1()),
        ("example2", 32, worked::example_2()),
        ("example2", 64, worked::example_2()),
        ("example3", 64, worked::example_3()),
        ("example3-corrected", 64, worked::example_3_corrected()),
        ("example3", RISCV, worked::example_3()),
        ("example3-corrected", RISCV, worked::example_3_corrected()),
        (
            "example3-no-phandle",
            64,
            worked::example_3_without_phandle(),
        ),
    ] {
        let wanted = told(&Board::of(width, &root));
        assert_eq!(told(&board_of(&blob::write(&root), width)), wanted);
        let sources = sources();
        let stem = |path: &&PathBuf| path.file_stem().map_or(false, |stem| stem == name);
        let source = sources.iter().find(stem).expect("the board is there");
        assert_eq!(
            told(&board_of(&compiled(source, &[]), width)),
            wanted,
            "{name}"
        );
    }
}

/// Whether some name has a zero byte, which would end it in a blob.
fn zero_in_name(node: &Node) -> bool {
    let props = node.props.iter().map(|(name, _)| name);
    let mut names = props.chain([&node.name]);
    names.any(|name| name.contains(&0)) || node.children.iter().any(zero_in_name)
}

/// Sound and damaged trees give the same answer and rows as tables and as blobs.
#[test]
fn trees_as_tables_and_as_blobs() {
    const TREES: usize = 1500;
    const SEED: u64 = 0x7EE5;
    println!("{TREES} trees, seed {SEED:#x}");
    let mut rng = Rng::new(SEED);
    let (mut same, mut accepted) = (0, 0);
    for _ in 0..TREES {
        let (width, mut root) = valid_board(&mut rng, 9);
        for _ in 0..rng.below(3) {
            spoil_tree(&mut rng, &mut root);
        }
        if root.name != b"cpus" || zero_in_name(&root) {
            continue;
        }
        let board = Board::of(width, &root);
        let as_tables = content(&board.pool, &board.nodes, &board.props);
        let wanted = told(&board);
        let form = Form::default();
        for blob in [blob::write(&root), write(&items(&around(root)), &form)] {
            let read = board_of(&blob, width);
            assert_eq!(content(&read.pool, &read.nodes, &read.props), as_tables);
            assert_eq!(told(&read), wanted);
        }
        same += 1;
        accepted += usize::from(wanted.0.number == 0);
    }
    println!("{same} trees told the same, {accepted} of them accepted");
    assert!(same > TREES / 2 && accepted > TREES / 4);
}

/// What read_tables tells of tables that read_flat filled: never 2, 3, 4, 6 or 9,
/// and 5 or 7 only of a name's length.
fn follow_up(blob: &[u8], width: u32) -> Option<Answer> {
    agreed_with_room(blob).ok()?;
    let board = board_of(blob, width);
    if board.node_count() > 1024 || board.prop_count() > 4096 {
        return None;
    }
    let answer = library(&board).0;
    let place = answer.place as usize;
    let allowed = match answer.number {
        5 => !(1..=64).contains(&board.nodes[3 * place + 2]),
        7 => !(1..=31).contains(&board.props[5 * place + 2]),
        number => !matches!(number, 1 | 2 | 3 | 4 | 6 | 9),
    };
    assert!(allowed, "{answer:?}\n{blob:02x?}");
    Some(answer)
}

#[test]
fn what_is_left_to_read_tables() {
    const BLOBS: usize = 20_000;
    const SEED: u64 = 0x57E9;
    println!("{BLOBS} blobs, seed {SEED:#x}");
    let [mut rng, mut widths] = [SEED, !SEED].map(Rng::new);
    let mut counts = Counts::default();
    let blobs = (0..BLOBS).map(|_| any_case(&mut rng).blob);
    for blob in blobs.chain(large::all()) {
        if let Some(answer) = follow_up(&blob, *widths.pick(&WIDTHS)) {
            counts.add(&answer);
        }
    }
    println!("told by read_tables:\n{}", counts.lines());
    assert!([0, 5, 7, 8, 36, 37].iter().all(|&n| counts.of(n) > 0));
}
