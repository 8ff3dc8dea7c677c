// SPDX-License-Identifier: BSD-2-Clause OR GPL-2.0-or-later
//! read_tables_slots against the second reader, read_tables and W5's facts.

use sunderwath::ROW_WORDS;
use sunderwath_tests::answer::{Answer, ANSWER_WORDS, NO_PROPERTY, SHORT_ANSWER};
use sunderwath_tests::build::faults::{self, with_faults, Change, Fault};
use sunderwath_tests::build::mix::large_board;
use sunderwath_tests::build::order::{self, reverse_siblings};
use sunderwath_tests::build::property_faults::{self, second_place};
use sunderwath_tests::build::shapes::regular_board;
use sunderwath_tests::build::slots::{any_slot_board, board_with_bits, lay_out, some_length};
use sunderwath_tests::build::slots::{mpidrs_with_bits, table_lengths};
use sunderwath_tests::build::worked::{self, cores, nested};
use sunderwath_tests::build::{text, Board, Node};
use sunderwath_tests::compare::second_tables;
use sunderwath_tests::compare_slots::{compare_slots, filled, library_slots, Lent};
use sunderwath_tests::counts::{slot_numbers, Counts};
use sunderwath_tests::ffi;
use sunderwath_tests::rng::Rng;
use sunderwath_tests::second;
use sunderwath_tests::width::{ARM64, RISCV};

const GAP: u32 = u32::MAX;
const PATTERN: u32 = 0xDEAD_BEEF;

/// Seeds of what the buffers hold before: any words in both; GAP in the table;
/// numbers of rows in it; GAP in the rows.
const BEFORE: [u64; 4] = [0b1010, 0b1000, 0b1001, 0b0010];

fn compared(board: &Board, lent: Lent) -> Answer {
    compare_slots(board, lent).unwrap_or_else(|report| panic!("{report}"))
}

/// The answer of all readers, whatever the buffers hold before.
fn agreed(board: &Board, entries: usize) -> Answer {
    let answers = BEFORE.map(|seed| compared(board, Lent { entries, seed }));
    assert_eq!(answers, [answers[0]; 4]);
    answers[0]
}

/// All eleven words: a refusal has nothing but number, place and second place.
fn expect(board: &Board, entries: usize, number: u32, place: usize) -> Answer {
    let answer = agreed(board, entries);
    let second = second_place(board, number, place);
    let wanted = Answer::refusal(number, place).of_property(second);
    assert_eq!(answer, wanted, "{entries}\n{}", text::write(board));
    answer
}

/// What is told of a sound board.
fn number_of(bits: u32, entries: usize) -> u32 {
    match bits {
        13.. => 38,
        _ if entries < 1 << bits => 39,
        _ => 0,
    }
}

/// A sound board with so many bits. Accepted answers have them, refusals not.
fn expect_sound(board: &Board, bits: u32, entries: usize) -> Answer {
    match number_of(bits, entries) {
        0 => {
            let answer = agreed(board, entries);
            let told = (answer.number, answer.place, answer.bits, answer.second);
            assert_eq!(told, (0, 0, bits, NO_PROPERTY), "{}", text::write(board));
            answer
        }
        number => expect(board, entries, number, 0),
    }
}

/// The filled part of a lent table of 5,000 entries.
fn table_of(width: u32, root: &Node) -> Vec<u32> {
    let board = Board::of(width, root);
    assert_eq!(agreed(&board, 5000).number, 0);
    let lent = Lent {
        entries: 5000,
        seed: 7,
    };
    filled(&library_slots(&board, lent)).1.to_vec()
}

fn call(board: &Board, rows: &mut [u32], table: &mut [u32], answer: &mut [u32]) -> u32 {
    let Board {
        width,
        nodes,
        props,
        pool,
        ..
    } = board;
    ffi::read_tables_slots_into(*width, nodes, props, pool, rows, table, answer)
}

/// Every word by hand, with two entries and a row more than are needed.
#[test]
fn whole_case() {
    let board = Board::of(64, &worked::whole_case());
    let mut rows = [PATTERN; 36];
    let mut table = [PATTERN; 4];
    let mut answer = [PATTERN; 13];
    let number = call(&board, &mut rows, &mut table, &mut answer);
    assert_eq!(number, 0);
    let words = [0, 0, 2, 0x100, 0, 0, 8, 15, 31, 1, GAP, PATTERN, PATTERN];
    assert_eq!(answer, words);
    let expected = [
        [3, 6, 0, 0x100, GAP, 0, GAP, GAP, GAP, 0, GAP, 1],
        [4, 5, 0, 0, GAP, 0, GAP, GAP, GAP, 1, GAP, 0],
        [PATTERN; ROW_WORDS],
    ];
    assert_eq!(rows[..], expected.concat());
    assert_eq!(table, [1, 0, PATTERN, PATTERN]);
    for entries in table_lengths(1) {
        expect_sound(&board, 1, entries);
    }
}

/// The worked boards, and the lists of the scope as boards.
#[test]
fn tables_by_hand() {
    let base = [0, 1, 2, 3, 4, GAP, GAP, GAP];
    let cases: [(u32, Node, &[u32]); 13] = [
        (64, worked::whole_case(), &[1, 0]),
        (64, order::cores_swapped(), &[1, 0]),
        (32, worked::lone_socket(), &[0, 1, 2, GAP]),
        (32, order::threads_swapped(), &[0, 1, 2, GAP]),
        (64, faults::base(ARM64), &base),
        (64, order::sockets_swapped(), &base),
        (64, property_faults::base(), &[1, 0]),
        // One cpu: no bits, one entry.
        (64, cores(&[0x7]), &[0]),
        (64, nested(4), &[0]),
        // H5, H7 with its gaps, and cores that do not stand in slot order.
        (64, cores(&[0xF00, 0xF01, 0xF02, 0xF03]), &[0, 1, 2, 3]),
        (64, cores(&[0, 5]), &[0, GAP, GAP, GAP, GAP, 1, GAP, GAP]),
        (64, cores(&[5, 0]), &[1, GAP, GAP, GAP, GAP, 0, GAP, GAP]),
        (64, cores(&[3, 1, 0, 2]), &[2, 1, 3, 0]),
    ];
    for (width, root, table) in cases {
        assert_eq!(table_of(width, &root), table);
    }
}

#[test]
fn larger_tables_by_hand() {
    let rising = |count: u32| (0..count).collect::<Vec<_>>();
    assert_eq!(table_of(64, &worked::example_1()), rising(16));
    assert_eq!(table_of(32, &worked::example_2()), rising(8));
    assert_eq!(table_of(64, &worked::example_2()), rising(8));
    assert_eq!(table_of(32, &order::clusters_swapped()), rising(8));
    assert_eq!(table_of(64, &regular_board(256)), rising(256));
    // Rows of the last leaf first, and so the last slot.
    let mut falling = worked::example_1();
    reverse_siblings(falling.at(1));
    let table: Vec<u32> = (0..16).rev().collect();
    assert_eq!(table_of(64, &falling), table);
    // H4: seven bits, and two slots of 128.
    let mut table = [GAP; 128];
    (table[1], table[64]) = (0, 1);
    assert_eq!(table_of(64, &cores(&[0x2, 0x80])), table);
}

/// The worked boards that are refused, with tables of any length.
#[test]
fn worked_refusals() {
    let core_2 = ["cpu-map", "socket0", "cluster0", "core2"];
    let cases: [(Node, u32, &[&str]); 6] = [
        (worked::example_3(), 24, &core_2),
        (worked::example_3_corrected(), 25, &core_2),
        (worked::example_3_without_phandle(), 17, &["cpu@4"]),
        (
            worked::cluster_beside_core(),
            20,
            &["cpu-map", "cluster0", "core1"],
        ),
        (worked::unmapped_cpu(), 26, &["cpu@2"]),
        (nested(5), 22, &["cpu-map"]),
    ];
    for (root, number, path) in cases {
        let at = root.find(path).expect("the path exists");
        let place = if number == 22 { at + 5 } else { at };
        for entries in [0, 1, 2, 4, 4096] {
            expect(&Board::of(64, &root), entries, number, place);
        }
    }
}

/// Boards of each number of bits, with tables of each length around it.
#[test]
fn lengths_of_tables() {
    const SEED: u64 = 0x7AB1E;
    let mut rng = Rng::new(SEED);
    let mut counts = Counts::default();
    let mut calls = 0;
    for bits in (0..=14).chain([16, 20, 24, 25, 31, 32]) {
        for most in [2, 5, 16, 64] {
            let (width, root) = board_with_bits(&mut rng, bits, most);
            let board = lay_out(&mut rng, width, &root);
            for entries in table_lengths(bits) {
                counts.add(&expect_sound(&board, bits, entries));
                calls += BEFORE.len();
            }
        }
    }
    let told = [0, 38, 39].map(|number| (number, counts.of(number)));
    println!("{calls} tables, seed {SEED:#x}; boards by number {told:?}");
}

/// Two MPIDRs whose hash has so many bits.
const AT_THE_LIMIT: [(u32, u64); 9] = [
    (11, 0x7FF),
    (11, 0x07_0000_0081),
    (12, 0xFFF),
    (12, 0x9_0081),
    (12, 0xFF_000F_0000),
    (13, 0x1FFF),
    (13, 0x11_0081),
    (13, 0xFF_001F_0000),
    (32, 0xFF_00FF_FFFF),
];

/// 12 bits are accepted with 4,096 entries and not with 4,095; 13 bits and the
/// 32 of H6 with no table.
#[test]
fn limit_of_bits() {
    const SEED: u64 = 0x1213;
    println!("lists of 11, 12 and 13 bits, seed {SEED:#x}");
    let mut rng = Rng::new(SEED);
    for (bits, other) in AT_THE_LIMIT {
        let board = Board::of(64, &cores(&[0, other]));
        for entries in [0, 1, 2047, 2048, 4095, 4096, 4097, 8191, 8192, 8193, 65536] {
            expect_sound(&board, bits, entries);
        }
    }
    let last = |other| *table_of(64, &cores(&[0, other])).last().expect("entries");
    assert_eq!([0x7FF, 0xFFF, 0xFF_000F_0000].map(last), [1; 3]);
    let table = table_of(64, &cores(&[0, 0x9_0081]));
    assert_eq!([table[0], table[0x981], table.len() as u32], [0, 1, 4096]);
    for (bits, cpus) in [(8, 256), (11, 256), (12, 256), (13, 256), (12, 3), (13, 3)] {
        let mpidrs = mpidrs_with_bits(&mut rng, bits, cpus, 2);
        let board = Board::of(64, &cores(&mpidrs));
        for entries in table_lengths(bits) {
            expect_sound(&board, bits, entries);
        }
    }
}

/// 27, then 38, then 39; and with all kept, acceptance.
#[test]
fn row_space_bits_table_space() {
    let few = Board::of(64, &cores(&[0, 0xFFF]));
    let many = Board::of(64, &cores(&[0, 0x1FFF]));
    for room in [0, 1, 12, 23] {
        for entries in [0, 1, 4095, 4096, 8192] {
            for board in [&few, &many] {
                let board = board.clone();
                expect(&Board { room, ..board }, entries, 27, 0);
            }
        }
    }
    for room in [24, 25, 36] {
        let [few, many] = [&few, &many].map(|board| Board {
            room,
            ..board.clone()
        });
        for entries in [0, 1, 4095, 4096, 8191, 8192] {
            expect(&many, entries, 38, 0);
            let number = if entries < 4096 { 39 } else { 0 };
            assert_eq!(expect_sound(&few, 12, entries).number, number);
        }
    }
}

/// A change that gives the board of the faults a hash of 13 bits.
fn many_bits() -> Fault {
    Fault {
        number: 38,
        place: 0,
        what: "a hash of 13 bits",
        change: Change::Tree(|r| r.at(22).set("reg", [0, 0, 0, 0, 0, 5, 0x80, 1])),
    }
}

/// 49 for each short answer, with nothing written.
fn short_answers(board: &Board, entries: usize, counts: &mut Counts) {
    for words in 0..ANSWER_WORDS {
        let mut rows = vec![PATTERN; board.room];
        let mut table = vec![PATTERN; entries];
        let mut answer = [PATTERN; ANSWER_WORDS];
        let number = call(board, &mut rows, &mut table, &mut answer[..words]);
        assert_eq!(number, SHORT_ANSWER);
        let mut lent = rows.iter().chain(&table).chain(&answer);
        assert!(lent.all(|&word| word == PATTERN));
        counts.add(&Answer::refusal(number, 0));
    }
}

/// Each number before 38 and 39, wherever these are broken too.
#[test]
fn every_earlier_number_first() {
    let mut counts = Counts::default();
    let many = many_bits();
    for fault in faults::faults(ARM64) {
        counts_with(&with_faults(ARM64, &[&fault]), &fault, &mut counts);
        counts_with(&with_faults(ARM64, &[&fault, &many]), &fault, &mut counts);
    }
    for fault in property_faults::faults() {
        let needed = fault.needed;
        for &width in fault.widths {
            let board = Board::of(width, &fault.tree());
            for entries in [0, 1, 2, 4096] {
                counts.add(&expect(&board, entries, needed.number, needed.record));
            }
        }
    }
    for entries in [0, 1, 7, 8, 9, 4096, 8192] {
        counts.add(&expect_sound(&with_faults(ARM64, &[]), 3, entries));
        counts.add(&expect_sound(&with_faults(ARM64, &[&many]), 13, entries));
    }
    println!("faults and tables:\n{}", counts.lines_of(slot_numbers()));
    assert!(counts.complete() && slot_numbers().all(|number| counts.of(number) > 0));
}

/// A fault is told whatever the table's length, and 49 before it.
fn counts_with(board: &Board, fault: &Fault, counts: &mut Counts) {
    for entries in [0, 1, 7, 8, 4096, 8192] {
        counts.add(&expect(board, entries, fault.number, fault.place));
    }
    short_answers(board, 8, counts);
}

/// The same on a RISC-V board, where 38 is never told and one entry is enough.
#[test]
fn every_earlier_number_first_on_harts() {
    let mut counts = Counts::default();
    for fault in faults::faults(RISCV) {
        counts_with(&with_faults(RISCV, &[&fault]), &fault, &mut counts);
    }
    for entries in [0, 1, 2, 4096] {
        counts.add(&expect_sound(&with_faults(RISCV, &[]), 0, entries));
    }
    let all = || slot_numbers().filter(|&number| number != 38);
    println!("faults of harts:\n{}", counts.lines_of(all()));
    assert!(all().all(|number| counts.of(number) > 0));
}

/// Answers of every length on boards of acceptance, 24, 27, 38 and 39.
#[test]
fn answer_lengths() {
    let board = |root: &Node| Board::of(64, root);
    let short = Board {
        room: 23,
        ..board(&worked::whole_case())
    };
    let cases = [
        (board(&worked::whole_case()), 5, 0),
        (board(&worked::example_3()), 5, 24),
        (short, 5, 27),
        (board(&cores(&[0, 0x1FFF])), 5, 38),
        (board(&worked::whole_case()), 1, 39),
    ];
    for (board, entries, number) in cases {
        let [before_rows, before] = [board.room, entries].map(|words| vec![PATTERN; words]);
        let wanted = second::read_slots(&second_tables(&board), &before_rows, &before);
        for words in 0..=ANSWER_WORDS + 2 {
            let [mut rows, mut table] = [&before_rows, &before].map(Vec::clone);
            let mut answer = [PATTERN; 20];
            let told = call(&board, &mut rows, &mut table, &mut answer[4..4 + words]);
            let mut wanted_answer = [PATTERN; 20];
            if words < ANSWER_WORDS {
                assert_eq!((told, &rows, &table), (SHORT_ANSWER, &before_rows, &before));
            } else {
                assert_eq!((told, &rows, &table), (number, &wanted.rows, &wanted.table));
                wanted_answer[4..4 + ANSWER_WORDS].copy_from_slice(&wanted.answer.words());
            }
            assert_eq!(answer, wanted_answer);
        }
    }
}

/// Sound boards of all shapes: what is told follows from bits and entries.
#[test]
fn sound_boards() {
    const SEED: u64 = 0x5107_50BD;
    const BOARDS: usize = 20_000;
    let mut rng = Rng::new(SEED);
    let mut counts = Counts::default();
    for at in 0..BOARDS {
        let high = rng.one_in(10);
        let bits = rng.below(if high { 33 } else { 14 }) as u32;
        let most = if at % 500 == 0 { 256 } else { 16 };
        let (width, root) = board_with_bits(&mut rng, bits, most);
        let board = lay_out(&mut rng, width, &root);
        if board.pool.len() > 65536 || board.node_count() > 1024 {
            continue;
        }
        let entries = some_length(&mut rng, bits);
        let seed = rng.wide();
        let answer = compared(&board, Lent { entries, seed });
        assert_eq!(answer.number, number_of(bits, entries));
        assert!(answer.number != 0 || answer.bits == bits);
        counts.add(&answer);
    }
    let told = [0, 38, 39].map(|number| (number, counts.of(number)));
    println!("{BOARDS} sound boards, seed {SEED:#x}; by number {told:?}");
    assert!(told.iter().all(|&(_, boards)| boards > 1000));
}

#[test]
fn mixed_boards() {
    const SEED: u64 = 0x5107_B0A2;
    const BOARDS: usize = 30_000;
    let mut rng = Rng::new(SEED);
    let mut counts = Counts::default();
    for at in 0..BOARDS {
        let board = match at % 2000 {
            0 => large_board(&mut rng),
            _ => any_slot_board(&mut rng),
        };
        let (told, _) = second::read(&second_tables(&board));
        let entries = some_length(&mut rng, told.bits);
        let seed = rng.wide();
        counts.add(&compared(&board, Lent { entries, seed }));
    }
    let all = || slot_numbers().filter(|&number| number != SHORT_ANSWER);
    let lines = counts.lines_of(all());
    println!("{BOARDS} mixed boards, seed {SEED:#x}:\n{lines}");
    assert!(counts.of(0) > 0 && counts.complete());
    assert!(all().all(|number| counts.of(number) > 0));
}
