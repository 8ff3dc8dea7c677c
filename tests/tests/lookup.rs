// SPDX-License-Identifier: BSD-2-Clause OR GPL-2.0-or-later
//! find_property (W4) against the second reader and against answers by hand.

use std::cmp::Ordering;
use sunderwath_tests::answer::Answer;
use sunderwath_tests::build::lookup::{add, any_lookup, some_question, table, Way, WAYS};
use sunderwath_tests::build::mix::damaged_tables;
use sunderwath_tests::build::worked::whole_case;
use sunderwath_tests::build::{text, Board};
use sunderwath_tests::compare::second_tables;
use sunderwath_tests::rng::Rng;
use sunderwath_tests::second::Standing;
use sunderwath_tests::{fast, ffi, second};

const NONE: u32 = u32::MAX;

/// What W4 fixes, or None where the answer is free.
fn fixed(board: &Board, node: u32, name: &[u8]) -> Option<u32> {
    second::fixed_lookup(&second_tables(board), node, name)
}

/// A question in words, for a report.
fn asked(board: &Board, node: u32, name: &[u8]) -> String {
    let name = name.escape_ascii();
    format!("'{name}' of node {node} in\n{}", text::write(board))
}

/// The answer of all readers, which is the fixed one where there is one.
fn ask(board: &Board, node: u32, name: &[u8]) -> u32 {
    let Board { props, pool, .. } = board;
    let asked = || asked(board, node, name);
    let ours = ffi::find_property(props, pool, node, name);
    if let Some(fixed) = fixed(board, node, name) {
        assert_eq!(ours, fixed, "library and W4, {}", asked());
    }
    let other = second::find_property(props, pool, node, name);
    assert_eq!(ours, other, "library and second reader, {}", asked());
    let quick = fast::find_property(props, pool, node, name);
    assert_eq!(quick, other, "fast version, {}", asked());
    ours
}

fn expect_both(board: &Board, node: u32, name: &[u8], wanted: u32, by_w4: Option<u32>) {
    let answers = (ask(board, node, name), fixed(board, node, name));
    assert_eq!(answers, (wanted, by_w4), "{}", asked(board, node, name));
}

/// An answer that W4 fixes.
fn expect(board: &Board, node: u32, name: &str, wanted: u32) {
    expect_both(board, node, name.as_bytes(), wanted, Some(wanted));
}

/// An answer that the papers leave free: the lowest property of the node with
/// that name whose name lies inside the pool.
fn expect_free(board: &Board, node: u32, name: &str, wanted: u32) {
    expect_both(board, node, name.as_bytes(), wanted, None);
}

#[test]
fn the_whole_case() {
    let board = Board::of(64, &whole_case());
    expect(&board, 0, "#address-cells", 0);
    expect(&board, 0, "#size-cells", 1);
    expect(&board, 3, "cpu", 2);
    expect(&board, 4, "cpu", 3);
    expect(&board, 6, "phandle", 9);
    expect(&board, 6, "phandl", NONE);
    expect(&board, 6, "phandles", NONE);
    expect(&board, 1, "cpu", NONE);
    // Nodes that are no records have no properties.
    expect(&board, 7, "cpu", NONE);
    expect(&board, NONE, "cpu", NONE);
}

#[test]
fn no_records_and_no_pool() {
    let mut board = table(1, &[]);
    expect(&board, 0, "reg", NONE);
    expect(&board, 0, "", NONE);
    board.pool.clear();
    expect(&board, 0, "reg", NONE);
    board.props = vec![0, 0, 3, 0, 0];
    expect_free(&board, 0, "reg", NONE);
    board.props = vec![0; 5];
    expect_free(&board, 0, "reg", NONE);
    expect_free(&board, 0, "", 0);
}

#[test]
fn the_last_record_is_found() {
    for count in [1, 2, 3, 10, 4000, 4096] {
        let mut board = table(2, &[]);
        for at in 1..count {
            add(&mut board, (at % 2) as u32, &format!("n{at:04}"), 1);
        }
        expect(&board, 1, "last", NONE);
        add(&mut board, 1, "last", 1);
        expect(&board, 1, "last", count as u32 - 1);
        expect(&board, 0, "last", NONE);
    }
}

#[test]
fn other_nodes_are_passed_over() {
    let mut board = table(4, &[(0, "reg", 4), (2, "reg", 4), (3, "reg", 4)]);
    expect(&board, 1, "reg", NONE);
    add(&mut board, 1, "reg", 4);
    add(&mut board, 0, "cpu", 4);
    expect(&board, 1, "reg", 3);
    expect(&board, 3, "reg", 2);
    expect(&board, 1, "cpu", NONE);
    // The same name at the same place in the pool.
    board.props[5 * 3 + 1] = board.props[1];
    expect(&board, 1, "reg", 3);
}

#[test]
fn other_names_are_passed_over() {
    let close = ["Phandle", "phandlE", "phaNdle", "phandl", "phandles", "p"];
    let props = close.map(|name| (0, name, 0));
    let mut board = table(1, &props);
    expect(&board, 0, "phandle", NONE);
    for (at, name) in close.iter().enumerate() {
        expect(&board, 0, name, at as u32);
    }
    add(&mut board, 0, "phandle", 0);
    expect(&board, 0, "phandle", close.len() as u32);
    for name in ["ph", "phandlf", "qhandle", "PHANDLE"] {
        expect(&board, 0, name, NONE);
    }
}

const LONGEST: &str = "a-name-of-thirty-one-bytes-long";

/// Sound records on four nodes, none of them repeated.
const PROPS: [(u32, &str, usize); 10] = [
    (0, "#address-cells", 4),
    (1, "reg", 4),
    (2, "reg", 8),
    (1, "rag", 4),
    (3, "cpu", 0),
    (1, "cpu", 1),
    (2, "re", 0),
    (1, "c", 0),
    (0, LONGEST, 12),
    (3, "reg", 0),
];

/// How many questions were asked where the lowest broken record stands after the
/// match, is the match, and stands before it.
#[derive(Default)]
struct Asked {
    after: usize,
    at: usize,
    before: usize,
}

impl Asked {
    fn count(&mut self, broken: usize, matching: usize) {
        let count = match broken.cmp(&matching) {
            Ordering::Greater => &mut self.after,
            Ordering::Equal => &mut self.at,
            Ordering::Less => &mut self.before,
        };
        *count += 1;
    }

    fn print(&self, what: &str) {
        let Asked { after, at, before } = self;
        println!("{what}: after the match {after}, the match {at}, before it {before}");
        assert!(*after > 0 && *at > 0 && *before > 0);
    }
}

/// Breaks records of the sound table and asks for all properties that it had. A
/// match stays one unless its node word or its name was changed.
fn ask_all(asked: &mut Asked, more: usize, faults: &[(usize, &Way)]) {
    let mut board = table(4, &PROPS);
    board.pool.extend(vec![b'a'; more]);
    for (at, way) in faults {
        way.apply(&mut board, *at);
    }
    let places = faults.iter().map(|fault| fault.0);
    let lowest = places.min().expect("a fault");
    let told = ffi::check_tables(64, &board.nodes, &board.props, &board.pool);
    assert_eq!(told, Answer::refusal(7, lowest), "{faults:?}");
    for (at, &(node, name, _)) in PROPS.iter().enumerate() {
        let mut own = faults.iter().filter(|fault| fault.0 == at);
        let lost = own.any(|fault| !fault.1.keeps_name);
        if lowest > at {
            expect(&board, node, name, at as u32);
        } else {
            expect_free(&board, node, name, if lost { NONE } else { at as u32 });
        }
        asked.count(lowest, at);
    }
    expect_free(&board, 1, "rug", NONE);
}

#[test]
fn the_sound_table() {
    let board = table(4, &PROPS);
    assert_eq!(LONGEST.len(), 31);
    for (at, &(node, name, _)) in PROPS.iter().enumerate() {
        expect(&board, node, name, at as u32);
    }
    expect(&board, 1, "rug", NONE);
}

/// Each way in each record, at the end of the pool and with bytes behind.
#[test]
fn one_record_broken() {
    let mut asked = Asked::default();
    for more in [0, 40] {
        for way in &WAYS {
            for at in 0..PROPS.len() {
                ask_all(&mut asked, more, &[(at, way)]);
            }
        }
    }
    asked.print("one record broken");
}

/// Each pair of ways in each pair of records.
#[test]
fn two_records_broken() {
    let mut asked = Asked::default();
    for (first, second) in WAYS.iter().flat_map(|a| WAYS.iter().map(move |b| (a, b))) {
        for later in 1..PROPS.len() {
            for earlier in 0..later {
                let faults = [(later, second), (earlier, first)];
                ask_all(&mut asked, 40, &faults);
            }
        }
    }
    asked.print("two records broken");
}

/// Each set of records, each record of it in its own way and all ways in turn.
#[test]
fn any_records_broken() {
    let mut asked = Asked::default();
    for set in 1..1 << PROPS.len() {
        for first in 0..WAYS.len() {
            let chosen = (0..PROPS.len()).filter(|at| set >> at & 1 == 1);
            let faults: Vec<_> = chosen
                .map(|at| (at, &WAYS[(first + 5 * at) % WAYS.len()]))
                .collect();
            ask_all(&mut asked, 40, &faults);
        }
    }
    asked.print("any records broken");
}

/// Records, the answer that W4 fixes, and the answer.
type Case<'a> = (&'a [[u32; 5]], Option<u32>, u32);

/// `reg` of node 1 is asked; there are two nodes, and the pool is `regcpu`.
#[test]
fn broken_records_by_hand() {
    let sound = [1, 0, 3, 0, 6];
    let lost = [NONE; 5];
    let cases: [Case; 14] = [
        (&[sound], Some(0), 0),
        (&[sound, lost], Some(0), 0),
        (&[sound, [1, 0, 4, 7, 0]], Some(0), 0),
        (&[[1, 3, 3, 0, 0], sound, lost, sound], Some(1), 1),
        (&[[0, 0, 3, 6, 0], [1, 0, 2, 0, 0]], Some(NONE), NONE),
        // The match itself is broken.
        (&[[1, 0, 3, 0, 7]], None, 0),
        (&[[1, 0, 3, 7, 0], sound], None, 0),
        (&[[1, 4, 3, 0, 0]], None, NONE),
        // A record before it is.
        (&[lost, sound], None, 1),
        (&[[1, 4, 3, 0, 0], sound], None, 1),
        (&[[1, 0, 0, 0, 0], sound], None, 1),
        (&[[2, 0, 3, 0, 0], sound], None, 1),
        // No record matches, and one is broken.
        (&[[2, 0, 3, 0, 0]], None, NONE),
        (&[lost], None, NONE),
    ];
    for (records, by_w4, wanted) in cases {
        let mut board = table(2, &[]);
        board.pool = b"regcpu".to_vec();
        board.props = records.concat();
        expect_both(&board, 1, b"reg", wanted, by_w4);
    }
}

/// The pool ends with the asked name but for its last byte, and a broken record
/// goes one byte too far to have it.
#[test]
fn a_name_that_the_pool_cuts() {
    let mut board = table(2, &[(0, "cpu", 4), (1, "phandle", 4), (1, "reg", 4)]);
    board.pool.extend(b"phandl");
    let end = board.pool.len() as u32;
    board.props[5] = 0;
    board.props[1] = end - 6;
    board.props[2] = 6;
    expect(&board, 0, "phandl", 0);
    board.props[2] = 7;
    expect_free(&board, 0, "phandle", 1);
    expect_free(&board, 0, "phandl", NONE);
    board.props[5] = 1;
    expect_free(&board, 0, "phandle", NONE);
    board.pool.push(b'e');
    expect(&board, 0, "phandle", 0);
}

/// Rule 8 is broken: the lowest is answered.
#[test]
fn repeated_names() {
    let names = ["a", "reg", "b", "c", "reg", "d", "e", "reg", "f"];
    let sound = table(1, &names.map(|name| (0, name, 2)));
    expect(&sound, 0, "reg", 1);
    for way in &WAYS {
        let broken = |places: &[usize]| {
            let mut board = sound.clone();
            places.iter().for_each(|&at| way.apply(&mut board, at));
            board
        };
        let or = |other| if way.keeps_name { 1 } else { other };
        expect_free(&broken(&[1]), 0, "reg", or(4));
        expect_free(&broken(&[1, 4]), 0, "reg", or(7));
        expect_free(&broken(&[1, 4, 7]), 0, "reg", or(NONE));
        expect_free(&broken(&[0]), 0, "reg", 1);
        for later in [&[4][..], &[7], &[4, 7], &[3, 4, 5, 6, 7, 8]] {
            expect(&broken(later), 0, "reg", 1);
        }
    }
    expect(&table(1, &[(0, "reg", 0); 9]), 0, "reg", 0);
}

/// No property that keeps rule 7 has such a name, so it is missing; a record that
/// breaks rule 7 may have it.
#[test]
fn names_that_no_property_may_have() {
    let long = "p".repeat(40);
    let mut board = table(1, &[(0, "reg", 4), (0, LONGEST, 0)]);
    board.pool.extend(long.bytes());
    let names = ["", &long[..32], &long[..]];
    for name in names {
        expect(&board, 0, name, NONE);
    }
    let end = board.pool.len() as u32;
    for name in names {
        let length = name.len() as u32;
        for (behind, wanted) in [(0, 2), (1, NONE)] {
            let mut board = board.clone();
            let words = [0, end - length + behind, length, 0, 0];
            board.props.extend(words);
            expect_free(&board, 0, name, wanted);
            expect(&board, 0, LONGEST, 1);
        }
    }
}

/// A node word that is no record is as good as any other for the call.
#[test]
fn nodes_that_are_no_records() {
    for node in [2, 3, 0x8000_0000, NONE] {
        let mut board = table(2, &[(0, "reg", 4), (1, "reg", 4)]);
        expect(&board, node, "reg", NONE);
        add(&mut board, node, "reg", 4);
        expect_free(&board, node, "reg", 2);
        expect(&board, 1, "reg", 1);
        expect_free(&board, 1, "cpu", NONE);
    }
}

/// Words behind the last whole record are no record.
#[test]
fn words_that_make_no_whole_record() {
    let sound = table(4, &PROPS);
    for cut in 1..5 {
        let mut board = sound.clone();
        board.props.truncate(sound.props.len() - cut);
        for (at, &(node, name, _)) in PROPS[..9].iter().enumerate() {
            expect(&board, node, name, at as u32);
        }
        expect(&board, 3, "reg", NONE);
        board.props = sound.props[..5 - cut].to_vec();
        expect(&board, 0, "#address-cells", NONE);
        board.props = sound.props.clone();
        board.props.extend(vec![NONE; cut]);
        expect(&board, 3, "reg", 9);
    }
}

/// Tables that rules 3 and 4 refuse are searched to their end.
#[test]
fn more_than_a_board_may_have() {
    let mut board = table(1, &[]);
    board.pool.resize(70_000, 0);
    for at in 0..5000 {
        add(&mut board, 0, &format!("n{at:04}"), 0);
    }
    for at in [0, 1, 4095, 4096, 4097, 4998, 4999] {
        expect(&board, 0, &format!("n{at:04}"), at);
    }
    expect(&board, 0, "n5000", NONE);
    for way in &WAYS {
        let mut broken = board.clone();
        way.apply(&mut broken, 4999);
        expect(&broken, 0, "n4998", 4998);
        expect_free(&broken, 0, "n5000", NONE);
        way.apply(&mut broken, 0);
        expect_free(&broken, 0, "n4998", 4998);
    }
}

/// How the random tables stand to their questions.
#[derive(Default)]
struct Tally {
    standings: [usize; 6],
    repeated: usize,
    cut: usize,
    empty: usize,
    long: usize,
}

impl Tally {
    /// Asks, and counts the question.
    fn ask(&mut self, board: &Board, node: u32, name: &[u8]) {
        let tables = second_tables(board);
        let answer = ask(board, node, name);
        let standing = Standing::of(&tables, node, name);
        let by_w4 = match standing {
            Standing::SoundWithMatch | Standing::BrokenOnlyAfter => Some(answer),
            Standing::SoundWithout => Some(NONE),
            Standing::BrokenAt | Standing::BrokenBefore | Standing::BrokenWithout => None,
        };
        assert_eq!(fixed(board, node, name), by_w4, "{}", text::write(board));
        let of_name = |&p: &usize| tables.prop_node(p) == node && tables.prop_name(p) == Some(name);
        let matches = (0..tables.prop_count()).filter(of_name).count();
        self.standings[standing as usize] += 1;
        self.repeated += usize::from(matches > 1);
        self.cut += usize::from(!tables.whole_props());
        self.empty += usize::from(name.is_empty());
        self.long += usize::from(name.len() > 31);
    }

    /// Prints the counts, none of which is 0.
    fn print(&self, what: &str) {
        println!("{what}:");
        for standing in Standing::ALL {
            let count = self.standings[standing as usize];
            println!("  {standing:?} {count}");
            assert!(count > 0);
        }
        let counts = [
            ("with two matches or more", self.repeated),
            ("in words that make no whole records", self.cut),
            ("for a name of no bytes", self.empty),
            ("for a name of 32 bytes or more", self.long),
        ];
        for (what, count) in counts {
            println!("  {what} {count}");
            assert!(count > 0);
        }
    }
}

#[test]
fn random_tables() {
    let seed = 0x1004_0B04;
    let mut rng = Rng::new(seed);
    let mut tally = Tally::default();
    let tables = 400_000;
    for _ in 0..tables {
        let (board, (node, name)) = any_lookup(&mut rng);
        tally.ask(&board, node, &name);
    }
    tally.print(&format!("{tables} tables, a question each, seed {seed:#x}"));
}

#[test]
fn random_boards() {
    let seed = 0xF17D;
    let mut rng = Rng::new(seed);
    let mut tally = Tally::default();
    let boards = 60_000;
    for _ in 0..boards {
        let board = damaged_tables(&mut rng);
        let node = rng.below(board.node_count() + 2) as u32;
        let listed = some_question(&mut rng, &board);
        let names = ["cpu", "reg", "phandle", "device_type"];
        let fixed = rng.pick(&names).as_bytes();
        for (node, name) in [(node, fixed), (node, &listed.1), (listed.0, &listed.1)] {
            tally.ask(&board, node, name);
        }
    }
    tally.print(&format!(
        "{boards} damaged boards, three questions each, seed {seed:#x}"
    ));
}
