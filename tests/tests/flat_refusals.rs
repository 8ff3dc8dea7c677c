// SPDX-License-Identifier: BSD-2-Clause OR GPL-2.0-or-later
//! What read_flat refuses, with number and place by hand, and compared with the
//! second reader.

use sunderwath_tests::build::flat::*;
use sunderwath_tests::build::flat_damage::{versions, with_word, wrapping_blocks};
use sunderwath_tests::build::flat_faults::stream_faults;
use sunderwath_tests::build::flat_form::{write, Form, Strings};
use sunderwath_tests::build::flat_large as large;
use sunderwath_tests::build::flat_trees::{sample, small, NOT_CPUS};
use sunderwath_tests::build::worked::whole_case;
use sunderwath_tests::build::Node;
use sunderwath_tests::compare_flat::{agreed, agreed_with_room};
use sunderwath_tests::second::{Why, REASONS};

fn expect(blob: &[u8], why: Why, place: usize) {
    assert_eq!(agreed_with_room(blob), Err((why, place)), "{blob:02x?}");
}

fn plain(root: &Node) -> Vec<u8> {
    write(&items(root), &Form::default())
}

#[test]
fn headers() {
    let blob = plain(&sample());
    let set = |at, word| with_word(&blob, at, word);
    let total = blob.len() as u32;
    for length in 0..HEADER_BYTES {
        expect(&blob[..length], Why::BlobShort, 0);
    }
    expect(&blob[..HEADER_BYTES], Why::TotalBeyond, 0);
    expect(&large::of_length(large::MOST + 1, false), Why::BlobLong, 0);
    for magic in [0, 0xEDFE_0DD0, 0xD00D_FEEC, u32::MAX] {
        expect(&set(MAGIC_AT, magic), Why::Magic, 0);
    }
    expect(&set(TOTAL_AT, 39), Why::TotalShort, 0);
    expect(&set(TOTAL_AT, total + 1), Why::TotalBeyond, 0);
    for (version, compatible, blob) in versions(&blob) {
        let fault = agreed_with_room(&blob).err().map(|fault| fault.0);
        let wanted = match (version < 17, compatible > 17) {
            (true, _) => Some(Why::Version),
            (_, true) => Some(Why::Compatible),
            _ => None,
        };
        assert_eq!(fault, wanted, "{version} {compatible}");
    }
}

#[test]
fn blocks() {
    let blob = plain(&sample());
    let set = |at, word| with_word(&blob, at, word);
    let total = blob.len() as u32;
    expect(&set(TOTAL_AT, 40), Why::StructureOutside, 0);
    expect(&set(TOTAL_AT, total - 1), Why::StringsOutside, 0);
    expect(&set(STRUCTURE_AT, 57), Why::OffsetUneven, 0);
    let size = word(&blob, STRUCTURE_SIZE_AT);
    for less in 1..4 {
        expect(&set(STRUCTURE_SIZE_AT, size - less), Why::SizeUneven, 0);
    }
    for blob in wrapping_blocks(&blob) {
        let fault = agreed_with_room(&blob).expect_err("the block is outside");
        assert_eq!(fault.0.number(), 32);
    }
    // No structure at all, and no strings at the very end and behind it.
    expect(&set(STRUCTURE_SIZE_AT, 0), Why::RunOut, 56);
    let none = with_word(&set(STRINGS_SIZE_AT, 0), STRINGS_AT, total);
    expect(&none, Why::NameOutside, 64);
    let behind = with_word(&none, STRINGS_AT, total + 1);
    expect(&behind, Why::StringsOutside, 0);
}

/// 31 is told before 32, that before 33, that before 34, and 35 is the last.
#[test]
fn order_of_numbers() {
    type Spoil = fn(&mut [u8]);
    let faults: [(u32, Spoil); 4] = [
        (31, |blob| set_word(blob, MAGIC_AT, 0)),
        (32, |blob| set_word(blob, STRUCTURE_AT, 58)),
        // The end token of `small`, and the first letters of "cpus".
        (33, |blob| set_word(blob, 124, 0)),
        (34, |blob| blob[68] = b'x'),
    ];
    for set in 0..1 << faults.len() {
        let mut blob = plain(&small());
        let chosen = (0..faults.len()).filter(|bit| set >> bit & 1 == 1);
        let chosen: Vec<usize> = chosen.collect();
        chosen.iter().for_each(|&at| faults[at].1(&mut blob));
        let wanted = chosen.first().map_or(35, |&at| faults[at].0);
        let told = agreed(&blob, 5, 9).err().map(|fault| fault.0.number());
        assert_eq!(told, Some(wanted));
    }
}

/// Number 33 for each of its reasons, where it is told, in several forms.
#[test]
fn broken_streams() {
    let faults = stream_faults();
    let reasons = REASONS.iter().find(|(number, _)| *number == 33);
    for why in reasons.expect("33 has reasons").1 {
        let hit = faults.iter().any(|fault| fault.why == *why);
        assert!(hit || *why == Why::NameOpen, "{why:?}");
    }
    for fault in &faults {
        for (padding, reserve, strings) in [
            (0, 0, Strings::Behind),
            (0, 16, Strings::Before),
            (0xFF, 24, Strings::Behind),
            (0xFF, 4, Strings::Before),
        ] {
            let form = Form {
                padding,
                reserve,
                strings,
                ..Form::default()
            };
            let blob = write(&fault.list, &form);
            let start = word(&blob, STRUCTURE_AT) as usize;
            expect(&blob, fault.why, start + offset_of(&fault.list, fault.at));
        }
    }
    println!("{} broken streams, 4 forms each", faults.len());
}

/// The last name of the strings block, without its zero byte.
#[test]
fn open_names() {
    let blob = plain(&small());
    let size = word(&blob, STRINGS_SIZE_AT);
    let cut = with_word(&blob, STRINGS_SIZE_AT, size - 1);
    expect(&cut, Why::NameOpen, 76);
    let last = [&blob[..blob.len() - 1], b"x"].concat();
    expect(&last, Why::NameOpen, 76);
    let more = [&last, &[0; 4][..]].concat();
    expect(&more, Why::NameOpen, 76);
}

/// Number 34: what is and what is not a child of the root named `cpus`.
#[test]
fn children_of_the_root() {
    let with = |children: Vec<Node>| Node {
        children,
        ..Node::new("cpus")
    };
    let cpus = || Node::new("cpus");
    let nodes = |root: Node| agreed_with_room(&plain(&root)).map(|t| t.nodes.len() / 3);
    expect(&plain(&with(vec![])), Why::NoCpus, 0);
    let deeper = with(vec![Node::new("a").child(whole_case()).child(whole_case())]);
    expect(&plain(&deeper), Why::NoCpus, 0);
    for name in NOT_CPUS {
        let other = || Node::new(name);
        expect(&plain(&with(vec![other()])), Why::NoCpus, 0);
        assert_eq!(nodes(with(vec![cpus().child(other())])), Ok(2));
        assert_eq!(nodes(with(vec![cpus().child(cpus())])), Ok(2));
        assert_eq!(nodes(with(vec![other(), cpus(), other()])), Ok(1));
        for list in [
            vec![cpus(), cpus()],
            vec![cpus(), other(), cpus()],
            vec![other(), cpus().child(cpus()), cpus()],
            vec![cpus(), cpus(), cpus()],
        ] {
            expect(&plain(&with(list)), Why::SeveralCpus, 0);
        }
    }
}
