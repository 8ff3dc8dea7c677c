// SPDX-License-Identifier: BSD-2-Clause OR GPL-2.0-or-later
//! check_tables against the second reader.

use sunderwath_tests::answer::{Answer, ANSWER_WORDS, SHORT_ANSWER};
use sunderwath_tests::build::damage::repeat;
use sunderwath_tests::build::mix::damaged_tables;
use sunderwath_tests::build::worked::whole_case;
use sunderwath_tests::build::{text, Board};
use sunderwath_tests::rng::Rng;
use sunderwath_tests::width::{UNKNOWN_WIDTHS, WIDTHS};
use sunderwath_tests::{fast, ffi, second};

const NONE: u32 = u32::MAX;
const NODE_NAME_LENGTH: usize = 2;
const PROP_NAME_LENGTH: usize = 2;

/// Compares all readers on rules 1 to 8.
fn compare(board: &Board) -> Answer {
    let Board {
        width,
        nodes,
        props,
        pool,
        ..
    } = board;
    let ours = ffi::check_tables(*width, nodes, props, pool);
    let other = second::check_tables(*width, nodes, props, pool);
    assert_eq!(ours, other, "check_tables of\n{}", text::write(board));
    let quick = fast::check_tables(*width, nodes, props, pool);
    assert_eq!(quick, other, "fast version of\n{}", text::write(board));
    ours
}

fn expect(board: &Board, number: u32, place: usize) {
    let answer = compare(board);
    assert_eq!(
        answer,
        Answer::refusal(number, place),
        "{}",
        text::write(board)
    );
}

fn base() -> Board {
    Board::of(64, &whole_case())
}

/// A board with so many children of record 0 and properties of record 0.
fn plain(records: usize, props: usize) -> Board {
    let mut board = base();
    board.nodes = vec![NONE, 0, 4];
    for _ in 1..records {
        board.nodes.extend([0, 0, 4]);
    }
    board.props.clear();
    board.pool = b"cpus".to_vec();
    for at in 0..props {
        let offset = board.pool.len() as u32;
        board.pool.extend(format!("{at:04}").bytes());
        board.props.extend([0, offset, 4, 0, 0]);
    }
    board
}

fn node(board: &mut Board, record: usize, word: usize) -> &mut u32 {
    &mut board.nodes[3 * record + word]
}

fn prop(board: &mut Board, at: usize, word: usize) -> &mut u32 {
    &mut board.props[5 * at + word]
}

#[test]
fn sound_tables() {
    expect(&base(), 0, 0);
    expect(&plain(1, 0), 0, 0);
    expect(&plain(9, 12), 0, 0);
}

#[test]
fn widths() {
    for width in UNKNOWN_WIDTHS.into_iter().chain([128, 0x8000_0020]) {
        let mut board = base();
        board.width = width;
        expect(&board, 1, 0);
    }
    for width in WIDTHS {
        let mut board = base();
        board.width = width;
        expect(&board, 0, 0);
    }
}

#[test]
fn table_sizes() {
    for (records, number) in [(1, 0), (2, 0), (1023, 0), (1024, 0), (1025, 2), (2000, 2)] {
        expect(&plain(records, 3), number, 0);
    }
    for (props, number) in [(0, 0), (1, 0), (4095, 0), (4096, 0), (4097, 3), (5000, 3)] {
        expect(&plain(2, props), number, 0);
    }
    for (bytes, number) in [(65535, 0), (65536, 0), (65537, 4), (70000, 4)] {
        let mut board = base();
        board.pool.resize(bytes, 0);
        expect(&board, number, 0);
    }
    let mut board = base();
    board.nodes.clear();
    expect(&board, 2, 0);
    board.props.clear();
    board.pool.clear();
    expect(&board, 2, 0);
}

#[test]
fn words_that_make_no_whole_records() {
    for extra in 1..3 {
        let mut board = base();
        board.nodes.extend(vec![0; extra]);
        expect(&board, 2, 0);
        board.nodes.truncate(extra);
        expect(&board, 2, 0);
    }
    for extra in 1..5 {
        let mut board = base();
        board.props.extend(vec![0; extra]);
        expect(&board, 3, 0);
        board.props.truncate(extra);
        expect(&board, 3, 0);
        let mut full = plain(1, 4096);
        full.props.extend(vec![0; extra]);
        expect(&full, 3, 0);
    }
    let mut full = plain(1024, 0);
    full.nodes.push(0);
    expect(&full, 2, 0);
}

#[test]
fn node_name_lengths_and_ranges() {
    let end = 200;
    for record in [0, 1, 6] {
        for (length, number) in [(0, 5), (1, 0), (64, 0), (65, 5), (NONE, 5)] {
            let mut board = base();
            board.pool.resize(end, b'a');
            *node(&mut board, record, 1) = 0;
            *node(&mut board, record, NODE_NAME_LENGTH) = length;
            let place = if number == 0 { 0 } else { record };
            expect(&board, number, place);
        }
        let last = end as u32;
        let ranges = [
            (last - 64, 64, 0),
            (last - 63, 64, 5),
            (last - 1, 1, 0),
            (last, 1, 5),
            (last, 0, 5),
            (last + 1, 1, 5),
            (NONE, 1, 5),
            (NONE - 62, 64, 5),
            (NONE - 63, 64, 5),
        ];
        for (offset, length, number) in ranges {
            let mut board = base();
            board.pool.resize(end, b'a');
            *node(&mut board, record, 1) = offset;
            *node(&mut board, record, NODE_NAME_LENGTH) = length;
            let place = if number == 0 { 0 } else { record };
            expect(&board, number, place);
        }
    }
}

#[test]
fn property_name_lengths_and_ranges() {
    let end = 200;
    let last = end as u32;
    for at in [0, 2, 7] {
        let names = [
            (0, 0, 7),
            (0, 1, 0),
            (0, 31, 0),
            (0, 32, 7),
            (0, NONE, 7),
            (last - 31, 31, 0),
            (last - 30, 31, 7),
            (last - 1, 1, 0),
            (last, 1, 7),
            (last, 0, 7),
            (NONE, 1, 7),
            (NONE - 30, 31, 7),
        ];
        for (offset, length, number) in names {
            let mut board = base();
            board.pool.resize(end, b'a');
            *prop(&mut board, at, 1) = offset;
            *prop(&mut board, at, PROP_NAME_LENGTH) = length;
            expect(&board, number, if number == 0 { 0 } else { at });
        }
        let values = [
            (0, 0, 0),
            (last, 0, 0),
            (last + 1, 0, 7),
            (0, last, 0),
            (0, last + 1, 7),
            (1, last, 7),
            (last - 1, 1, 0),
            (NONE, 0, 7),
            (NONE, 1, 7),
            (1, NONE, 7),
            (2, NONE, 7),
            (0, NONE, 7),
            (NONE, NONE, 7),
        ];
        for (offset, length, number) in values {
            let mut board = base();
            board.pool.resize(end, b'a');
            *prop(&mut board, at, 3) = offset;
            *prop(&mut board, at, 4) = length;
            expect(&board, number, if number == 0 { 0 } else { at });
        }
        for (owner, number) in [(6, 0), (7, 7), (8, 7), (NONE, 7)] {
            let mut board = base();
            *prop(&mut board, at, 0) = owner;
            *prop(&mut board, at, 1) = 1;
            expect(&board, number, if number == 0 { 0 } else { at });
        }
    }
}

#[test]
fn parents() {
    for parent in [0, 1, NONE - 1, 0x7FFF_FFFF] {
        let mut board = base();
        *node(&mut board, 0, 0) = parent;
        expect(&board, 6, 0);
    }
    // Records: 0, 1 below 0, 2 below 1, 3 and 4 below 2, 5 and 6 below 0.
    let allowed: [&[u32]; 7] = [
        &[],
        &[0],
        &[0, 1],
        &[0, 1, 2],
        &[0, 1, 2, 3],
        &[0, 1, 2, 4],
        &[0, 5],
    ];
    for (record, allowed) in allowed.iter().enumerate().skip(1) {
        for parent in (0..9).chain([NONE, NONE - 1, 0x8000_0000]) {
            let mut board = base();
            *node(&mut board, record, 0) = parent;
            let answer = compare(&board);
            if allowed.contains(&parent) {
                assert!(answer.number == 0 || answer.place as usize > record);
            } else {
                assert_eq!(answer, Answer::refusal(6, record));
            }
        }
    }
    // The deepest chain.
    let mut chain = plain(1024, 0);
    for record in 1..1024 {
        *node(&mut chain, record, 0) = record as u32 - 1;
    }
    expect(&chain, 0, 0);
    *node(&mut chain, 1023, 0) = 1023;
    expect(&chain, 6, 1023);
}

#[test]
fn repeated_properties() {
    for (earlier, later) in [(0, 1), (0, 11), (10, 11), (4, 7)] {
        let mut board = plain(2, 12);
        repeat(&mut board, earlier, later);
        expect(&board, 8, later);
        // The same name on another node is no repeat.
        *prop(&mut board, later, 0) = 1;
        expect(&board, 0, 0);
    }
    // Equal bytes at another offset are the same name; longer ones are not.
    let mut board = plain(1, 3);
    board.pool.extend(b"00000");
    *prop(&mut board, 2, 1) = 16;
    expect(&board, 8, 2);
    *prop(&mut board, 2, PROP_NAME_LENGTH) = 5;
    expect(&board, 0, 0);
    let mut full = plain(1, 4096);
    repeat(&mut full, 0, 4095);
    expect(&full, 8, 4095);
    repeat(&mut full, 4094, 4095);
    expect(&full, 8, 4095);
}

/// The lowest property that breaks either rule is told.
#[test]
fn repeats_and_ranges_in_one_stage() {
    let bad = |board: &mut Board, at: usize| *prop(board, at, 4) = NONE;
    let mut board = plain(2, 12);
    repeat(&mut board, 1, 3);
    bad(&mut board, 5);
    expect(&board, 8, 3);
    let mut board = plain(2, 12);
    repeat(&mut board, 1, 5);
    bad(&mut board, 3);
    expect(&board, 7, 3);
    // Both at one property: the smaller number.
    let mut board = plain(2, 12);
    repeat(&mut board, 1, 3);
    bad(&mut board, 3);
    expect(&board, 7, 3);
    // The earlier one of the pair is bad.
    let mut board = plain(2, 12);
    repeat(&mut board, 1, 3);
    bad(&mut board, 1);
    expect(&board, 7, 1);
    // Pairs (0, 9) and (1, 2): the later property of the pair decides.
    let mut board = plain(2, 12);
    repeat(&mut board, 0, 9);
    repeat(&mut board, 1, 2);
    expect(&board, 8, 2);
}

/// Every pair of faults of rules 1 to 8, in both orders of making them.
#[test]
fn pairs_of_faults() {
    type Fault = (u32, usize, fn(&mut Board));
    let faults: [Fault; 16] = [
        (1, 0, |b| b.width = 6),
        (2, 0, |b| b.nodes.push(0)),
        (3, 0, |b| b.props.push(0)),
        (4, 0, |b| b.pool.resize(65537, 0)),
        (5, 1, |b| b.nodes[3 + 2] = 0),
        (5, 6, |b| b.nodes[18 + 2] = 65),
        (6, 0, |b| b.nodes[0] = 0),
        (6, 2, |b| b.nodes[6] = 2),
        (6, 5, |b| b.nodes[15] = NONE),
        (7, 0, |b| b.props[2] = 0),
        (7, 4, |b| b.props[20] = 99),
        (7, 9, |b| b.props[45 + 3] = NONE),
        (8, 1, |b| repeat(b, 0, 1)),
        (8, 3, |b| repeat(b, 2, 3)),
        (8, 6, |b| repeat(b, 5, 6)),
        (8, 9, |b| repeat(b, 8, 9)),
    ];
    let stage = |number: u32| second::stage_of(number).expect("a rule");
    let mut pairs = 0;
    for (i, first) in faults.iter().enumerate() {
        for second in &faults[i + 1..] {
            let key = |f: &Fault| (stage(f.0), f.1, f.0);
            let told = if key(first) < key(second) {
                first
            } else {
                second
            };
            for order in [[first, second], [second, first]] {
                let mut board = plain(7, 12);
                order.iter().for_each(|fault| (fault.2)(&mut board));
                expect(&board, told.0, told.1);
                pairs += 1;
            }
        }
    }
    println!("{pairs} pairs of faults");
}

/// Each field of each record set to edge values.
#[test]
fn extreme_words() {
    let values = |pool: u32| [NONE, NONE - 1, 0x8000_0000, 0, pool, pool + 1];
    let mut count = 0;
    let sound = base();
    for value in values(sound.pool.len() as u32) {
        for at in 0..sound.nodes.len() {
            let mut board = sound.clone();
            board.nodes[at] = value;
            compare(&board);
        }
        for at in 0..sound.props.len() {
            let mut board = sound.clone();
            board.props[at] = value;
            compare(&board);
        }
        count += sound.nodes.len() + sound.props.len();
    }
    println!("{count} boards with one extreme word");
}

#[test]
fn answer_lengths() {
    const PATTERN: u32 = 0xDEAD_BEEF;
    let mut refused = base();
    refused.nodes[3] = 7;
    for board in [base(), refused] {
        let answer = compare(&board);
        for length in 0..=13 {
            let mut buffer = [PATTERN; 20];
            let lent = &mut buffer[4..4 + length];
            let number =
                ffi::check_tables_into(board.width, &board.nodes, &board.props, &board.pool, lent);
            let mut wanted = [PATTERN; 20];
            if length < ANSWER_WORDS {
                assert_eq!(number, SHORT_ANSWER);
            } else {
                wanted[4..4 + ANSWER_WORDS].copy_from_slice(&answer.words());
            }
            assert_eq!(buffer, wanted);
        }
    }
}

#[test]
fn random_damage() {
    let seed = 0x7AB1_E500;
    let mut rng = Rng::new(seed);
    let mut counts = [0u32; 9];
    let boards = 120_000;
    for _ in 0..boards {
        let board = damaged_tables(&mut rng);
        counts[compare(&board).number as usize] += 1;
    }
    println!("{boards} damaged tables, seed {seed:#x}, numbers 0 to 8: {counts:?}");
    assert!(counts.iter().all(|&count| count > 0));
}
