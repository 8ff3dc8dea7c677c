// SPDX-License-Identifier: BSD-2-Clause OR GPL-2.0-or-later
//! RISC-V boards through read_tables and read_tables_slots, against the second
//! reader and by hand: hart ids, rows without slots, refusals, widths.

use sunderwath::ROW_WORDS;
use sunderwath_tests::answer::{Answer, NO_PROPERTY};
use sunderwath_tests::build::property_faults::second_place;
use sunderwath_tests::build::worked::{self, cores, cpu_node, harts, SPARSE_HARTS};
use sunderwath_tests::build::{cell, text, Board, Node};
use sunderwath_tests::compare::{compare, library};
use sunderwath_tests::compare_slots::{compare_slots, Lent};
use sunderwath_tests::ffi;
use sunderwath_tests::width::{ARM32, ARM64, RISCV, UNKNOWN_WIDTHS, WIDTHS};

const GAP: u32 = u32::MAX;
const GUARD: usize = 16;
const PATTERN: u32 = 0xDEAD_BEEF;

/// The only answer of an accepted board of so many harts.
fn accepted(count: usize) -> Answer {
    Answer {
        count: count as u32,
        mask: 0,
        shifts: [0, 8, 16, 32],
        bits: 0,
        ..Answer::default()
    }
}

/// The answer that all readers give without a table and with one entry or more;
/// with no entry an accepted board is 39.
fn agreed(board: &Board) -> Answer {
    let answer = compare(board).unwrap_or_else(|report| panic!("{report}"));
    for (entries, seed) in [(0, 2), (1, 10), (1, 9), (2, 10), (7, 8), (4096, 10)] {
        let lent = Lent { entries, seed };
        let with_table = compare_slots(board, lent).unwrap_or_else(|report| panic!("{report}"));
        let wanted = match (board.width, answer.number, entries) {
            (RISCV, 0, 0) => Answer::refusal(39, 0),
            (RISCV, ..) => answer,
            _ => continue,
        };
        assert_eq!(with_table, wanted, "{entries}\n{}", text::write(board));
    }
    answer
}

/// The rows of an accepted board.
fn rows_of(board: &Board) -> Vec<u32> {
    let count = agreed(board).count as usize;
    assert_eq!(agreed(board), accepted(count), "{}", text::write(board));
    library(board).1[GUARD..GUARD + ROW_WORDS * count].to_vec()
}

/// All eleven words of a refusal.
fn expect(board: &Board, number: u32, place: usize) {
    let second = second_place(board, number, place);
    let wanted = Answer::refusal(number, place).of_property(second);
    assert_eq!(agreed(board), wanted, "{}", text::write(board));
}

/// Words 2, 3 and 11 of the rows of one cluster of harts, in the order of these.
fn expect_harts(ids: &[u32]) {
    let rows = rows_of(&Board::of(RISCV, &harts(ids)));
    assert_eq!(rows.len(), ROW_WORDS * ids.len());
    for (row, &id) in rows.chunks(ROW_WORDS).zip(ids) {
        assert_eq!([row[2], row[3], row[11]], [0, id, GAP]);
    }
}

#[test]
fn example_3_in_three_forms() {
    let core_2 = ["cpu-map", "socket0", "cluster0", "core2"];
    let place = |root: &Node, path: &[&str]| root.find(path).expect("it is there");
    let printed = worked::example_3();
    let board = Board::of(RISCV, &printed);
    assert_eq!(board.property(place(&printed, &core_2), "cpu"), None);
    expect(&board, 24, place(&printed, &core_2));
    let corrected = worked::example_3_corrected();
    let board = Board::of(RISCV, &corrected);
    expect(&board, 25, place(&corrected, &core_2));
    let without = worked::example_3_without_phandle();
    expect(&Board::of(RISCV, &without), 17, place(&without, &["cpu@4"]));
}

/// Every word of every row.
#[test]
fn rows_by_hand() {
    let rows = rows_of(&Board::of(RISCV, &harts(&[u32::MAX, 0])));
    let expected = [
        [3, 5, 0, u32::MAX, GAP, 0, GAP, GAP, GAP, 0, GAP, GAP],
        [4, 6, 0, 0, GAP, 0, GAP, GAP, GAP, 1, GAP, GAP],
    ];
    assert_eq!(rows, expected.concat());
    let rows = rows_of(&Board::of(RISCV, &worked::whole_case()));
    let expected = [
        [3, 6, 0, 0x100, GAP, 0, GAP, GAP, GAP, 0, GAP, GAP],
        [4, 5, 0, 0, GAP, 0, GAP, GAP, GAP, 1, GAP, GAP],
    ];
    assert_eq!(rows, expected.concat());
    let mut threads = worked::lone_socket();
    threads.at(9).set("reg", cell(0x8000_0000));
    let rows = rows_of(&Board::of(RISCV, &threads));
    let expected = [
        [5, 8, 0, 0, 0, 0, GAP, GAP, GAP, 0, 0, GAP],
        [6, 9, 0, 0x8000_0000, 0, 0, GAP, GAP, GAP, 0, 1, GAP],
        [7, 10, 0, 2, 0, 0, GAP, GAP, GAP, 1, GAP, GAP],
    ];
    assert_eq!(rows, expected.concat());
}

/// What read_tables_slots leaves in rows, table and answer that are longer than
/// needed; so many entries of the table are lent, from word 1.
fn left_by(board: &Board, entries: usize) -> ([u32; 36], [u32; 8], [u32; 13]) {
    let (mut rows, mut table, mut answer) = ([PATTERN; 36], [PATTERN; 8], [PATTERN; 13]);
    let number = ffi::read_tables_slots_into(
        board.width,
        &board.nodes,
        &board.props,
        &board.pool,
        &mut rows,
        &mut table[1..1 + entries],
        &mut answer,
    );
    assert_eq!(number, answer[0]);
    (rows, table, answer)
}

/// All words of the answer, the rows and the table, and the words behind them.
#[test]
fn tables_by_hand() {
    const P: u32 = PATTERN;
    let board = Board::of(RISCV, &harts(&[0, 0x1FFF]));
    let answer = [39, 0, 0, 0, 0, 0, 0, 0, 0, 0, NO_PROPERTY, P, P];
    assert_eq!(left_by(&board, 0), ([P; 36], [P; 8], answer));
    let rows = [
        [3, 5, 0, 0, GAP, 0, GAP, GAP, GAP, 0, GAP, GAP],
        [4, 6, 0, 0x1FFF, GAP, 0, GAP, GAP, GAP, 1, GAP, GAP],
        [P; ROW_WORDS],
    ];
    let table = [P, GAP, P, P, P, P, P, P];
    let answer = [0, 0, 2, 0, 0, 0, 8, 16, 32, 0, NO_PROPERTY, P, P];
    for entries in 1..=7 {
        let (rows_left, table_left, answer_left) = left_by(&board, entries);
        assert_eq!(rows_left[..], rows.concat());
        assert_eq!((table_left, answer_left), (table, answer));
    }
}

/// Any of the 32 bits may be set; an MPIDR has none above 23.
#[test]
fn every_bit_of_a_hart_id() {
    for at in 0..32 {
        let bit = 1u32 << at;
        for ids in [[bit, 0], [0, bit], [bit, !bit], [u32::MAX, u32::MAX ^ bit]] {
            expect_harts(&ids);
            let root = harts(&ids);
            for width in [ARM32, ARM64] {
                let board = Board::of(width, &root);
                match ids.iter().position(|id| id >> 24 != 0) {
                    Some(hart) => expect(&board, 12, 5 + hart),
                    None => assert_eq!(agreed(&board).number, 0),
                }
            }
        }
    }
}

/// Gaps between the ids, and bits outside the affinity bits.
#[test]
fn sparse_harts() {
    expect_harts(&SPARSE_HARTS);
    expect_harts(&[9, 4, 2, 7]);
    expect_harts(&[0x1000, 0x40, 0x1, u32::MAX]);
    let root = harts(&SPARSE_HARTS);
    let first_outside = root.find(&["cpu@80000000"]).expect("it is there");
    for width in [ARM32, ARM64] {
        let board = Board::of(width, &root);
        assert!(board.property(first_outside, "reg").is_some());
        expect(&board, 12, first_outside);
    }
}

/// 256 harts, also where a hash of their ids had more than 12 bits: 38 is never
/// told, and one entry is enough.
#[test]
fn as_many_harts_as_allowed() {
    let kinds: [fn(u32) -> u32; 7] = [
        |at| at,
        |at| u32::MAX - at,
        |at| at << 24,
        |at| at << 24 | at << 16 | at << 8 | at,
        |at| at.wrapping_mul(0x9E37_79B9),
        |at| (at & 0xF) << 28 | at >> 4,
        |at| at * 0x1_0001,
    ];
    for kind in kinds {
        let ids: Vec<u32> = (0..256).map(kind).collect();
        expect_harts(&ids);
    }
    let ids: Vec<u32> = (0..257).collect();
    expect(&Board::of(RISCV, &harts(&ids)), 10, 0);
}

/// The later record is told, without a second place.
#[test]
fn equal_hart_ids() {
    for id in [0, 1, 0xFF_FFFF, 0x100_0000, 0x8000_0000, u32::MAX] {
        expect(&Board::of(RISCV, &harts(&[id, id])), 13, 6);
        expect(&Board::of(RISCV, &harts(&[id, 7, id, id])), 13, 9);
        expect(&Board::of(RISCV, &harts(&[7, 9, id, id, 9])), 13, 11);
        let board = Board::of(RISCV, &harts(&[id, id]));
        assert_eq!(agreed(&board).second, NO_PROPERTY);
    }
    let ids: Vec<u32> = (0..256).map(|at| at << 24).collect();
    for (earlier, later) in [(0, 1), (0, 255), (254, 255), (100, 101), (3, 200)] {
        let mut ids = ids.clone();
        ids[later] = ids[earlier];
        expect(&Board::of(RISCV, &harts(&ids)), 13, 259 + later);
    }
    // Ids that differ in one bit only are not equal.
    let ids: Vec<u32> = (0..32).map(|at| 1 << at).chain([0]).collect();
    expect_harts(&ids);
}

/// 12 for each length but four bytes, with the record of `reg`, and none where it
/// is missing.
#[test]
fn lengths_of_reg() {
    for record in [5, 6] {
        for length in 0..=12 {
            let mut root = harts(&[u32::MAX, 0x0100_0000]);
            root.at(record).set("reg", vec![0x5A; length]);
            let board = Board::of(RISCV, &root);
            match length {
                4 => assert_eq!(agreed(&board).number, 0),
                _ => expect(&board, 12, record),
            }
        }
        let mut root = harts(&[u32::MAX, 0]);
        root.at(record).remove("reg");
        let board = Board::of(RISCV, &root);
        expect(&board, 12, record);
        assert_eq!(agreed(&board).second, NO_PROPERTY);
    }
    // 12 at a record before 13 at a later one, and the other way round.
    let mut root = harts(&[3, 3, 4]);
    root.at(8).remove("reg");
    expect(&Board::of(RISCV, &root), 13, 7);
    let mut root = harts(&[4, 3, 3]);
    root.at(6).set("reg", [0; 8]);
    expect(&Board::of(RISCV, &root), 12, 6);
}

/// Exactly one address cell, whatever the length of `reg`.
#[test]
fn two_address_cells() {
    let two = cores(&[0, 1]);
    expect(&Board::of(RISCV, &two), 36, 0);
    assert_eq!(agreed(&Board::of(ARM64, &two)).number, 0);
    let mut short = harts(&[0, 1]);
    short.set("#address-cells", cell(2));
    expect(&Board::of(RISCV, &short), 36, 0);
    let mut long = cores(&[0, 1]);
    long.set("#address-cells", cell(1));
    expect(&Board::of(RISCV, &long), 12, 5);
    for cells in [0, 3, 5, 0x0100_0000, u32::MAX] {
        let mut root = harts(&[0, 1]);
        root.set("#address-cells", cell(cells));
        expect(&Board::of(RISCV, &root), 36, 0);
    }
    // Before 37, and before 10.
    let mut both = two.clone();
    both.set("#size-cells", cell(1));
    expect(&Board::of(RISCV, &both), 36, 0);
    both.children.clear();
    expect(&Board::of(RISCV, &both), 36, 0);
}

/// Every other number is 1, also where only some bits of a board's are right.
#[test]
fn widths() {
    let near = (0..32).flat_map(|at| {
        let bit = 1u32 << at;
        WIDTHS.map(|width| [width.wrapping_add(bit), width ^ bit])
    });
    let tried = near.flatten().chain(UNKNOWN_WIDTHS).chain(0..=130);
    let boards = [harts(&[0, 1]), harts(&[u32::MAX, 0]), worked::example_3()];
    for width in tried.filter(|width| !WIDTHS.contains(width)) {
        for root in &boards {
            expect(&Board::of(width, root), 1, 0);
        }
    }
    for width in WIDTHS {
        assert_eq!(agreed(&Board::of(width, &boards[0])).number, 0);
    }
}

/// Rules behind the cpu nodes are those of the other boards.
#[test]
fn unmapped_harts_and_rooms() {
    let mut root = harts(&[0, u32::MAX]);
    root.children.push(cpu_node(1, 0x8000_0000, 3));
    expect(&Board::of(RISCV, &root), 26, 7);
    for room in 0..=2 * ROW_WORDS + 2 {
        let board = Board::of(RISCV, &harts(&[0, u32::MAX]));
        let board = Board { room, ..board };
        if room < 2 * ROW_WORDS {
            expect(&board, 27, 0);
        } else {
            assert_eq!(agreed(&board), accepted(2));
        }
    }
}
