// SPDX-License-Identifier: BSD-2-Clause OR GPL-2.0-or-later
//! read_blob against the second reader: blobs of every layout, and blobs with
//! damage at every place.

use sunderwath_tests::build::flat::*;
use sunderwath_tests::build::flat_damage as damage;
use sunderwath_tests::build::flat_faults::stream_faults;
use sunderwath_tests::build::flat_form::{write, Form, Strings};
use sunderwath_tests::build::flat_large as large;
use sunderwath_tests::build::flat_trees::{around, sample, small};
use sunderwath_tests::build::loader::Lent;
use sunderwath_tests::build::worked::{example_1, whole_case};
use sunderwath_tests::build::Node;
use sunderwath_tests::compare_blob::agreed_blob;
use sunderwath_tests::counts::{blob_numbers, Counts};
use sunderwath_tests::ffi;
use sunderwath_tests::width::{ARM64, RISCV, WIDTHS};

fn plain(root: &Node) -> Vec<u8> {
    write(&items(root), &Form::default())
}

/// Compares each blob, on parts that start at other places, and counts.
fn count(blobs: &[Vec<u8>], counts: &mut Counts) {
    for (at, blob) in blobs.iter().enumerate() {
        let lent = Lent {
            width: [7, ARM64, RISCV][at % 3],
            rows: 96 + at % 9,
            answer: 16 + at % 5,
            start: at % 8,
        };
        let told = agreed_blob(blob, lent);
        let answer = told.answer.expect("the answer is long enough");
        counts.add(&answer);
        let of_blob = (31..=35).contains(&answer.number);
        assert!(of_blob || WIDTHS.contains(&lent.width) || answer.number == 1);
    }
}

/// All sorts of layouts.
fn forms() -> Vec<Form> {
    let mut list = Vec::new();
    for strings in [Strings::Behind, Strings::Before, Strings::Everywhere] {
        for (padding, share) in [(0, true), (1, false), (0xFF, true), (b'x', false)] {
            list.push(Form {
                padding,
                strings,
                share,
                reserve: 4 * (padding as usize % 5),
                map: u32::from(padding) << 24 | 3,
                behind: padding as usize % 7,
            });
        }
    }
    list
}

/// The whole case of the scope paper, each byte by hand.
#[test]
fn bytes_by_hand() {
    const GAP: [u8; 4] = [0xFF; 4];
    let word = |low| [low, 0, 0, 0];
    let row = |leaf, cpu, mpidr, core, slot| {
        let path = [GAP, word(0), GAP, GAP, GAP, word(core), GAP];
        let start = [word(leaf), word(cpu), word(0), mpidr];
        [&start[..], &path, &[word(slot)]].concat().concat()
    };
    let rows = [row(3, 6, [0, 1, 0, 0], 0, 1), row(4, 5, word(0), 1, 0)];
    let mut lent = ([0xA5; 97], [0xA5; 17]);
    let blob = plain(&Node::new("").child(whole_case()));
    let number = ffi::read_blob_into(64, &blob, &mut lent.0, &mut lent.1);
    assert_eq!(number, 0);
    assert_eq!(lent.0[..96], *rows.concat());
    let answer = [word(0), word(0), GAP, word(2)];
    assert_eq!(lent.1[..16], *answer.concat());
    assert_eq!((lent.0[96], lent.1[16]), (0xA5, 0xA5));
}

/// However a tree is laid out, its rows are the same.
#[test]
fn forms_and_nops_change_nothing() {
    let mut blobs = 0;
    for root in [sample(), around(example_1())] {
        let list = items(&root);
        let wanted = agreed_blob(&plain(&root), Lent::default());
        assert_eq!(wanted.number(), 0);
        let mut others: Vec<_> = forms().iter().map(|form| write(&list, form)).collect();
        for at in 0..list.len() {
            let (before, behind) = list.split_at(at);
            let nops = [before, &[Item::Nop, Item::Nop], behind].concat();
            others.push(write(&nops, &Form::default()));
        }
        for (at, blob) in others.iter().enumerate() {
            let start = at % 8;
            let lent = Lent {
                start,
                ..Lent::default()
            };
            assert_eq!(agreed_blob(blob, lent), wanted);
            blobs += 1;
        }
    }
    println!("{blobs} blobs have the rows of their trees laid out plainly");
}

/// Every truncation, size, offset, word, byte, bit and item of some samples.
#[test]
fn damage_at_every_place() {
    let mut counts = Counts::default();
    let forms = forms();
    for (root, form) in [
        (small(), forms[5]),
        (small(), forms[10]),
        (sample(), Form::default()),
    ] {
        let list = items(&root);
        let blob = write(&list, &form);
        for kind in [
            damage::truncated,
            damage::smaller_totals,
            damage::other_sizes,
            damage::other_offsets,
            damage::wrapping_blocks,
            damage::other_words,
            damage::other_bits,
            damage::other_bytes,
        ] {
            count(&kind(&blob), &mut counts);
        }
        let versions = damage::versions(&blob).into_iter().map(|(_, _, blob)| blob);
        count(&versions.collect::<Vec<_>>(), &mut counts);
        let lists = damage::other_items(&list);
        let blobs: Vec<_> = lists.iter().map(|list| write(list, &form)).collect();
        count(&blobs, &mut counts);
    }
    println!(
        "damage at every place:\n{}",
        counts.lines_of(blob_numbers())
    );
    assert!((31..=34).all(|number| counts.of(number) > 0));
}

/// Every word of the header replaced by many.
#[test]
fn other_headers() {
    let blob = plain(&sample());
    let mut blobs = Vec::new();
    for at in (0..HEADER_BYTES).step_by(4) {
        let near = word(&blob, at);
        let some = [0, 4, 16, 17, 18, 39, 40, 41, blob.len() as u32, 65_536];
        let around = (near.saturating_sub(9)..near).chain(near + 1..near.saturating_add(9));
        let large = [0x7FFF_FFFF, 0x8000_0000, u32::MAX - 3, u32::MAX];
        for word in around.chain(some).chain(large) {
            blobs.push(damage::with_word(&blob, at, word));
        }
    }
    let mut counts = Counts::default();
    count(&blobs, &mut counts);
    println!("other headers:\n{}", counts.lines_of(blob_numbers()));
    assert!([0, 31, 32, 33].iter().all(|&number| counts.of(number) > 0));
}

/// 33 for each of its reasons: the place counts from the blob's start.
#[test]
fn broken_streams() {
    let faults = stream_faults();
    for (at, fault) in faults.iter().enumerate() {
        let form = Form {
            reserve: 4 * (at % 9),
            ..Form::default()
        };
        let blob = write(&fault.list, &form);
        let place = word(&blob, STRUCTURE_AT) as usize + offset_of(&fault.list, fault.at);
        for width in [ARM64, RISCV, 7] {
            let lent = Lent {
                width,
                start: at % 8,
                ..Lent::default()
            };
            let wanted = [33, place as u32, u32::MAX, 0];
            assert_eq!(agreed_blob(&blob, lent).words(), Some(wanted));
        }
    }
    println!("{} broken streams", faults.len());
}

#[test]
fn large_blobs() {
    let mut counts = Counts::default();
    count(&large::all(), &mut counts);
    println!("large blobs:\n{}", counts.lines_of(blob_numbers()));
    assert!([0, 1, 31, 33, 35]
        .iter()
        .all(|&number| counts.of(number) > 0));
    for (bytes, number) in [(large::MOST, 0), (large::MOST + 1, 31)] {
        let blob = large::of_length(bytes, true);
        assert_eq!(agreed_blob(&blob, Lent::default()).number(), number);
    }
}
