// SPDX-License-Identifier: BSD-2-Clause OR GPL-2.0-or-later
//! read_flat against the second reader: layouts, lengths, damage, large blobs.

use sunderwath_tests::answer::FLAT_ANSWER_WORDS;
use sunderwath_tests::build::flat::*;
use sunderwath_tests::build::flat_case::FlatCase;
use sunderwath_tests::build::flat_damage as damage;
use sunderwath_tests::build::flat_form::{write, Form, Strings};
use sunderwath_tests::build::flat_large as large;
use sunderwath_tests::build::flat_mix::any_case;
use sunderwath_tests::build::flat_trees::{around, sample, small};
use sunderwath_tests::build::worked::example_1;
use sunderwath_tests::build::Node;
use sunderwath_tests::compare_flat::*;
use sunderwath_tests::rng::Rng;
use sunderwath_tests::second::{flat_tables, FlatTables, Why, REASONS};

fn plain(root: &Node) -> Vec<u8> {
    write(&items(root), &Form::default())
}

/// Compares each blob with enough room, and counts the reasons.
fn count_reasons(blobs: &[Vec<u8>], counts: &mut Counts) {
    for blob in blobs {
        let fault = agreed_with_room(blob).err();
        *counts.entry(fault.map(|fault| fault.0)).or_default() += 1;
    }
}

/// All sorts of layouts.
fn forms() -> Vec<Form> {
    let mut list = Vec::new();
    for strings in [Strings::Behind, Strings::Before, Strings::Everywhere] {
        for share in [false, true] {
            for padding in [0, 1, 0xFF, b'x'] {
                let (reserve, behind) = (4 * (padding as usize % 5), padding as usize % 7);
                list.push(Form {
                    padding,
                    strings,
                    share,
                    reserve,
                    map: u32::from(padding) << 24 | 3,
                    behind,
                });
            }
        }
    }
    list
}

/// The tables of a blob with all words by hand.
#[test]
fn words_by_hand() {
    let blob = plain(&small());
    // 56 "/", 64 "/cpus", 76 `g`, 88 "/cpus/a", 96 `reg`, 112 ends; strings 128.
    let tables = FlatTables {
        nodes: vec![u32::MAX, 68, 4, 0, 92, 1],
        props: vec![0, 130, 1, 88, 0, 1, 128, 3, 108, 3],
    };
    assert_eq!(blob.len(), 132);
    assert_eq!(agreed(&blob, 6, 10), Ok(tables));
}

/// However a tree is laid out, its tables say the same.
#[test]
fn forms_and_nops_change_nothing() {
    let mut blobs = 0;
    for root in [small(), sample(), around(example_1())] {
        let list = items(&root);
        let wanted = agreed_content(&plain(&root));
        for form in forms() {
            assert_eq!(agreed_content(&write(&list, &form)), wanted);
            blobs += 1;
        }
        let everywhere = list.iter().flat_map(|i| [Item::Nop, Item::Nop, i.clone()]);
        let mut lists = vec![everywhere.collect::<Vec<_>>()];
        for at in 0..list.len() {
            let (before, behind) = list.split_at(at);
            lists.push([before, &[Item::Nop], behind].concat());
        }
        for list in lists {
            assert_eq!(agreed_content(&write(&list, &Form::default())), wanted);
            blobs += 1;
        }
    }
    println!("{blobs} blobs say the same as their trees laid out plainly");
}

/// Tables one word short, exact, longer and empty.
#[test]
fn lengths_of_tables() {
    for root in [small(), sample(), Node::new("").child(Node::new("cpus"))] {
        let blob = plain(&root);
        let tables = flat_tables(&blob).expect("it is accepted");
        let (n, p) = (tables.nodes.len(), tables.props.len());
        for nodes in [0, 1, n - 3, n - 1, n, n + 1, n + 3, 10 * n] {
            for props in [0, p.saturating_sub(5), p.saturating_sub(1), p, p + 1, 9 * p] {
                let wanted = match (nodes < n, props < p) {
                    (true, _) => Err((Why::NodeSpace, 0)),
                    (_, true) => Err((Why::PropertySpace, 0)),
                    _ => Ok(tables.clone()),
                };
                assert_eq!(agreed(&blob, nodes, props), wanted);
            }
        }
    }
}

/// 49 is told of every answer that is too short, before anything else.
#[test]
fn short_answers() {
    let blob = plain(&sample());
    let mut cases = 0;
    for bytes in 0..=blob.len() {
        for (nodes, props) in [(0, 0), (500, 500)] {
            let blob = blob[..bytes].to_vec();
            let case = FlatCase { blob, nodes, props };
            for words in 0..FLAT_ANSWER_WORDS {
                assert!(short_answer_stays(&case, words));
                cases += 1;
            }
        }
    }
    println!("49 told {cases} times");
}

/// Every truncation, size, offset, word, byte, bit and item of some samples.
#[test]
fn damage_at_every_place() {
    let mut counts = Counts::new();
    let forms = forms();
    for (root, form) in [
        (small(), Form::default()),
        (small(), forms[10]),
        (small(), forms[22]),
        (sample(), forms[3]),
    ] {
        let list = items(&root);
        let blob = write(&list, &form);
        for kind in [
            damage::truncated,
            damage::smaller_totals,
            damage::other_sizes,
            damage::other_offsets,
            damage::wrapping_blocks,
            damage::other_words,
            damage::other_bits,
            damage::other_bytes,
        ] {
            count_reasons(&kind(&blob), &mut counts);
        }
        let lists = damage::other_items(&list);
        let blobs: Vec<_> = lists.iter().map(|list| write(list, &form)).collect();
        count_reasons(&blobs, &mut counts);
    }
    println!("{} blobs: {counts:?}", counts.values().sum::<usize>());
}

#[test]
fn large_blobs() {
    let mut counts = Counts::new();
    count_reasons(&large::all(), &mut counts);
    println!("{counts:?}");
    let deep = agreed_with_room(&large::nested(true)).expect("it is accepted");
    assert_eq!(deep.nodes.len(), 3 * 5456);
    let many = agreed_with_room(&large::properties()).expect("it is accepted");
    assert_eq!(many.props.len(), 5 * 5455);
    for bytes in [large::MOST, large::MOST + 1] {
        let read = agreed_with_room(&large::of_length(bytes, true));
        assert_eq!(read.is_ok(), bytes == large::MOST);
    }
}

/// Blobs of all sorts; every reason of every number is there.
#[test]
fn any_blobs() {
    const BLOBS: usize = 40_000;
    const SEED: u64 = 0xF1A7;
    println!("{BLOBS} blobs, seed {SEED:#x}");
    let mut rng = Rng::new(SEED);
    let mut counts = Counts::new();
    for _ in 0..BLOBS {
        let case = any_case(&mut rng);
        let fault = agreed(&case.blob, case.nodes, case.props).err();
        *counts.entry(fault.map(|fault| fault.0)).or_default() += 1;
    }
    println!("{counts:?}");
    assert!(counts[&None] > BLOBS / 10, "accepted");
    let refused: usize = counts.iter().filter(|c| c.0.is_some()).map(|c| c.1).sum();
    assert!(refused >= 20_000);
    for why in REASONS.iter().flat_map(|(_, reasons)| *reasons) {
        assert!(counts.contains_key(&Some(*why)), "{why:?} was not told");
    }
}
