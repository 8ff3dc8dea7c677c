// SPDX-License-Identifier: BSD-2-Clause OR GPL-2.0-or-later
//! RISC-V boards through read_blob, against the second reader, by hand, and as
//! dtc compiles them.

use sunderwath::ROW_WORDS;
use sunderwath_tests::answer::NO_PROPERTY;
use sunderwath_tests::build::blob;
use sunderwath_tests::build::loader::{any_blob, Lent, ROW_BYTES};
use sunderwath_tests::build::property_faults::second_place;
use sunderwath_tests::build::shapes::valid_tree;
use sunderwath_tests::build::worked::{self, cores, harts, SPARSE_HARTS};
use sunderwath_tests::build::{Board, Node};
use sunderwath_tests::compare::library;
use sunderwath_tests::compare_blob::agreed_blob;
use sunderwath_tests::counts::{blob_numbers, Counts};
use sunderwath_tests::dtc::{compiled, names_riscv, riscv_number_of, sources, LAYOUTS};
use sunderwath_tests::ffi;
use sunderwath_tests::rng::Rng;
use sunderwath_tests::second::Told;
use sunderwath_tests::width::{ARM32, ARM64, RISCV, UNKNOWN_WIDTHS, WIDTHS};

const GAP: u32 = u32::MAX;

fn lent(width: u32) -> Lent {
    Lent {
        width,
        ..Lent::default()
    }
}

fn told(root: &Node) -> Told {
    agreed_blob(&blob::write(root), lent(RISCV))
}

/// The words of a refusal, with the record of the property that it speaks of.
fn expect(root: &Node, number: u32, place: usize) {
    let second = second_place(&Board::of(RISCV, root), number, place);
    let words = [number, place as u32, second, 0];
    assert_eq!(told(root).words(), Some(words));
}

/// Every byte, and those behind what is written.
#[test]
fn bytes_by_hand() {
    const OF_GAP: [u8; 4] = [0xFF; 4];
    let word = |low| [low, 0, 0, 0];
    let row = |leaf, hart, core| {
        let start = [word(leaf), word(leaf + 2), word(0), hart];
        let path = [OF_GAP, word(0), OF_GAP, OF_GAP, OF_GAP, word(core), OF_GAP];
        [&start[..], &path, &[OF_GAP]].concat().concat()
    };
    let rows = [row(3, [0x78, 0x56, 0x34, 0x92], 0), row(4, word(0), 1)];
    let mut lent = ([0xA5; 100], [0xA5; 19]);
    let blob = blob::write(&harts(&[0x9234_5678, 0]));
    let number = ffi::read_blob_into(RISCV, &blob, &mut lent.0, &mut lent.1);
    assert_eq!(number, 0);
    assert_eq!(lent.0[..96], *rows.concat());
    let answer = [word(0), word(0), OF_GAP, word(2)];
    assert_eq!(lent.1[..16], *answer.concat());
    assert_eq!(
        (&lent.0[96..], &lent.1[16..]),
        (&[0xA5; 4][..], &[0xA5; 3][..])
    );
}

#[test]
fn example_3_in_three_forms() {
    expect(&worked::example_3(), 24, 6);
    expect(&worked::example_3_corrected(), 25, 6);
    expect(&worked::example_3_without_phandle(), 17, 11);
}

#[test]
fn hart_ids() {
    for ids in [
        &SPARSE_HARTS[..],
        &[u32::MAX, 0],
        &[0x8000_0000],
        &[3, 2, 1, 0],
    ] {
        let told = told(&harts(ids));
        assert_eq!(told.words(), Some([0, 0, NO_PROPERTY, ids.len() as u32]));
        for (row, &id) in told.rows.chunks(ROW_WORDS).zip(ids) {
            assert_eq!([row[2], row[3], row[11]], [0, id, GAP]);
        }
    }
    let sparse = harts(&SPARSE_HARTS);
    for width in [ARM32, ARM64] {
        let told = agreed_blob(&blob::write(&sparse), lent(width));
        let second = second_place(&Board::of(width, &sparse), 12, 10);
        assert_eq!(told.words(), Some([12, 10, second, 0]));
    }
}

#[test]
fn refusals() {
    expect(&harts(&[7, 0x0100_0007, 7]), 13, 8);
    expect(&harts(&[u32::MAX, u32::MAX]), 13, 6);
    expect(&cores(&[0, 1]), 36, 0);
    for length in [0, 3, 5, 8] {
        let mut root = harts(&[0, u32::MAX]);
        root.at(6).set("reg", vec![0xFF; length]);
        expect(&root, 12, 6);
    }
    let mut root = harts(&[0, u32::MAX]);
    root.at(5).remove("reg");
    expect(&root, 12, 5);
    for rows in [0, 95] {
        let lent = Lent {
            rows,
            ..lent(RISCV)
        };
        let told = agreed_blob(&blob::write(&harts(&[0, u32::MAX])), lent);
        assert_eq!(told.words(), Some([27, 0, NO_PROPERTY, 0]));
    }
}

/// 255 harts are as many as 1,024 properties allow.
#[test]
fn as_many_harts_as_allowed() {
    let ids: Vec<u32> = (0..255).map(|at| u32::MAX - (at << 23)).collect();
    let rows = 255 * ROW_BYTES;
    for (rows, number) in [(rows, 0), (rows - 1, 27)] {
        let lent = Lent {
            rows,
            ..lent(RISCV)
        };
        let told = agreed_blob(&blob::write(&harts(&ids)), lent);
        assert_eq!(told.number(), number);
        assert!(told.rows.chunks(ROW_WORDS).all(|row| row[11] == GAP));
    }
}

#[test]
fn widths() {
    let blob = blob::write(&harts(&[0, u32::MAX]));
    for at in 0..32 {
        let width = RISCV.wrapping_add(1 << at);
        assert_eq!(agreed_blob(&blob, lent(width)).number(), 1, "{width}");
    }
    for width in UNKNOWN_WIDTHS {
        assert_eq!(agreed_blob(&blob, lent(width)).number(), 1, "{width}");
    }
}

/// What is told of a blob is what is told of its tables.
#[test]
fn blobs_and_tables() {
    const SEED: u64 = 0xB1AB;
    const BOARDS: usize = 2_000;
    println!("{BOARDS} boards, seed {SEED:#x}");
    let mut rng = Rng::new(SEED);
    for _ in 0..BOARDS {
        let root = valid_tree(&mut rng, RISCV, 12);
        let (answer, rows) = library(&Board::of(RISCV, &root));
        let told = told(&root);
        assert_eq!(told.words(), Some([0, 0, NO_PROPERTY, answer.count]));
        assert_eq!(told.rows, rows[16..16 + told.rows.len()]);
    }
}

/// The mixture of blobs, all read as RISC-V boards.
#[test]
fn mixed_blobs() {
    const SEED: u64 = 0x5B10;
    const BLOBS: usize = 20_000;
    let mut rng = Rng::new(SEED);
    let mut counts = Counts::default();
    for _ in 0..BLOBS {
        let (blob, lent) = any_blob(&mut rng);
        let told = agreed_blob(
            &blob,
            Lent {
                width: RISCV,
                ..lent
            },
        );
        if let Some(answer) = told.answer {
            counts.add(&answer);
        }
    }
    let all = || blob_numbers().filter(|number| ![1, 49].contains(number));
    println!("{BLOBS} blobs, seed {SEED:#x}:\n{}", counts.lines_of(all()));
    assert!(counts.of(0) > 0 && all().all(|number| counts.of(number) > 0));
    assert!(counts.second_places());
}

/// The RISC-V boards of `boards/`, in every layout; no source of one is missing.
#[test]
fn boards_of_dtc() {
    let mut harts = 0;
    for source in sources() {
        let number = riscv_number_of(&source);
        assert_eq!(
            number.is_some(),
            names_riscv(&source),
            "{}",
            source.display()
        );
        let number = match number {
            Some(number) => number,
            None => continue,
        };
        let wanted = agreed_blob(&compiled(&source, &[]), lent(RISCV));
        assert_eq!(wanted.number(), number, "{}", source.display());
        for options in LAYOUTS {
            let blob = compiled(&source, options);
            assert_eq!(agreed_blob(&blob, lent(RISCV)), wanted);
        }
        assert!(wanted
            .rows
            .chunks(ROW_WORDS)
            .all(|row| row[2] == 0 && row[11] == GAP));
        harts += wanted.rows.len() / ROW_WORDS;
    }
    println!("{harts} harts of boards that are accepted");
    assert!(harts > 10);
}

/// Every board of `boards/` on each width: the readers agree.
#[test]
fn all_boards_on_all_widths() {
    for source in sources() {
        let blob = compiled(&source, &[]);
        for width in WIDTHS {
            agreed_blob(&blob, lent(width));
        }
    }
}
