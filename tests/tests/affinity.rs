// SPDX-License-Identifier: BSD-2-Clause OR GPL-2.0-or-later
//! list_hash and list_slot against the second reader.

use sunderwath_tests::answer::{Answer, ANSWER_WORDS, SHORT_ANSWER};
use sunderwath_tests::rng::Rng;
use sunderwath_tests::{fast, ffi, second};

/// Document 000, example 1.
const EXAMPLE_1: [u64; 16] = [
    0x0,
    0x1,
    0x100,
    0x101,
    0x10000,
    0x10001,
    0x10100,
    0x10101,
    0x1_0000_0000,
    0x1_0000_0001,
    0x1_0000_0100,
    0x1_0000_0101,
    0x1_0001_0000,
    0x1_0001_0001,
    0x1_0001_0100,
    0x1_0001_0101,
];

/// Document 000, example 2.
const EXAMPLE_2: [u64; 8] = [0x0, 0x1, 0x2, 0x3, 0x100, 0x101, 0x102, 0x103];

/// Name, list, mask, shifts, bits and slots of a worked case.
type Case<'a> = (&'a str, &'a [u64], u64, [u32; 4], u32, &'a [u32]);

const CASES: [Case; 7] = [
    ("H1", &[0], 0, [0, 8, 16, 32], 0, &[0]),
    (
        "H2",
        &EXAMPLE_1,
        0x1_0001_0101,
        [0, 7, 14, 29],
        4,
        &[0, 1, 2, 3, 4, 5, 6, 7, 8, 9, 10, 11, 12, 13, 14, 15],
    ),
    (
        "H3",
        &EXAMPLE_2,
        0x103,
        [0, 6, 13, 29],
        3,
        &[0, 1, 2, 3, 4, 5, 6, 7],
    ),
    ("H4", &[0x2, 0x80], 0x82, [1, 1, 9, 25], 7, &[1, 64]),
    (
        "H5",
        &[0xF00, 0xF01, 0xF02, 0xF03],
        0x3,
        [0, 6, 14, 30],
        2,
        &[0, 1, 2, 3],
    ),
    (
        "H6",
        &[0x0, 0xFF_00FF_FFFF],
        0xFF_00FF_FFFF,
        [0, 0, 0, 8],
        32,
        &[0, 0xFFFF_FFFF],
    ),
    ("H7", &[0x0, 0x5], 0x5, [0, 5, 13, 29], 3, &[0, 5]),
];

/// Patterns with single bits, level edges, whole levels and bad bits.
const PATTERNS: [u64; 18] = [
    0x0,
    0x1,
    0x2,
    0x5,
    0x80,
    0xFF,
    0x100,
    0x8000,
    0x1_0000,
    0x80_0000,
    0xFF_FFFF,
    0x1_0000_0000,
    0x80_0000_0000,
    0xFF_00FF_FFFF,
    0x100_0000,
    0x8000_0000,
    0x100_0000_0000,
    0x8000_0000_0000_0000,
];

/// Compares both readers and the fast version; prints the list to replay.
fn compare_hash(list: &[u64]) -> Answer {
    let ours = ffi::list_hash(list);
    let other = second::list_hash(list);
    assert_eq!(ours, other, "list_hash of {list:#x?}");
    assert_eq!(fast::list_hash(list), other, "fast list_hash of {list:#x?}");
    ours
}

fn compare_slot(mpidr: u64, list: &[u64]) -> Answer {
    let ours = ffi::list_slot(mpidr, list);
    let other = second::list_slot(mpidr, list);
    assert_eq!(ours, other, "list_slot of {mpidr:#x} in {list:#x?}");
    let quick = fast::list_slot(mpidr, list);
    assert_eq!(quick, other, "fast list_slot of {mpidr:#x} in {list:#x?}");
    ours
}

/// Compares the hash and the slots of all members and of some strangers.
fn compare_all(list: &[u64], strangers: &[u64]) -> Answer {
    let answer = compare_hash(list);
    for &mpidr in list.iter().take(8).chain(strangers) {
        compare_slot(mpidr, list);
    }
    answer
}

#[test]
fn worked_cases() {
    for (name, list, mask, shifts, bits, slots) in CASES {
        let expected = Answer {
            mask,
            shifts,
            bits,
            ..Answer::default()
        };
        assert_eq!(compare_hash(list), expected, "{name}");
        for (&mpidr, &slot) in list.iter().zip(slots) {
            let answer = compare_slot(mpidr, list);
            let expected = Answer {
                count: slot,
                ..Answer::default()
            };
            assert_eq!(answer, expected, "{name}: slot of {mpidr:#x}");
        }
        println!("{name}: as in the paper");
    }
}

#[test]
fn refusals() {
    assert_eq!(compare_hash(&[]), Answer::refusal(28, 0));
    assert_eq!(compare_slot(0, &[]), Answer::refusal(28, 0));
    assert_eq!(compare_hash(&[0, 1, 1 << 24]), Answer::refusal(29, 2));
    assert_eq!(
        compare_slot(0, &[0, 1 << 40, 1 << 63]),
        Answer::refusal(29, 1)
    );
    assert_eq!(compare_slot(2, &[0, 1]), Answer::refusal(30, 0));
    // An asked MPIDR with a bit outside the affinity bits is in no sound list.
    assert_eq!(compare_slot(1 << 31, &[0, 1]), Answer::refusal(30, 0));
    // 29 comes before 30.
    assert_eq!(compare_slot(7, &[1 << 31]), Answer::refusal(29, 0));
    // It would fall on the slot of a listed MPIDR.
    assert_eq!(compare_slot(0xF01, &[0x0, 0x1]), Answer::refusal(30, 0));
}

#[test]
fn lists_of_up_to_three() {
    let mut count = 0;
    compare_all(&[], &PATTERNS);
    for a in PATTERNS {
        compare_all(&[a], &PATTERNS);
        for b in PATTERNS {
            compare_all(&[a, b], &PATTERNS);
            for c in PATTERNS {
                compare_all(&[a, b, c], &PATTERNS);
                count += 1;
            }
        }
    }
    println!("all lists of up to three patterns, {count} of three");
}

#[test]
fn lists_at_the_limit() {
    let seed = 0x1057_0000;
    let mut rng = Rng::new(seed);
    for length in [255, 256, 257, 258, 1000] {
        for _ in 0..20 {
            let list: Vec<u64> = (0..length).map(|_| affinity(&mut rng)).collect();
            let answer = compare_all(&list, &[0, 1 << 63]);
            assert_eq!(answer.number == 28, length > 256);
            let mut bad = list.clone();
            bad[length - 1] |= 1 << 24;
            let answer = compare_all(&bad, &[list[0]]);
            let expected = if length > 256 {
                Answer::refusal(28, 0)
            } else {
                Answer::refusal(29, length - 1)
            };
            assert_eq!(answer, expected);
        }
    }
    println!("lists of 255 to 1000, seed {seed:#x}");
}

fn affinity(rng: &mut Rng) -> u64 {
    rng.wide() & 0xFF_00FF_FFFF
}

/// A list with repeats, in which some bits are alike and some entries are bad.
fn random_list(rng: &mut Rng) -> Vec<u64> {
    let longest = *rng.pick(&[1, 2, 4, 8, 16, 48]);
    let length = rng.between(1, longest);
    let base = affinity(rng);
    let vary = affinity(rng) & if rng.one_in(2) { rng.wide() } else { u64::MAX };
    let vary = vary & if rng.one_in(2) { rng.wide() } else { u64::MAX };
    let mut list: Vec<u64> = Vec::new();
    for _ in 0..length {
        if !list.is_empty() && rng.one_in(5) {
            let again = *rng.pick(&list);
            list.push(again);
        } else {
            list.push(base & !vary | affinity(rng) & vary);
        }
    }
    if rng.one_in(6) {
        for _ in 0..rng.between(1, 3) {
            let at = rng.below(length);
            list[at] |= 1 << rng.below(64);
        }
    }
    list
}

#[test]
fn random_lists() {
    let seed = 0x5EED_0001;
    let mut rng = Rng::new(seed);
    let mut counts = [0u32; 31];
    for _ in 0..150_000 {
        let list = random_list(&mut rng);
        let near = list[0] ^ 1 << rng.below(64);
        counts[compare_hash(&list).number as usize] += 1;
        let strangers = [near, affinity(&mut rng), *rng.pick(&list)];
        for mpidr in strangers {
            counts[compare_slot(mpidr, &list).number as usize] += 1;
        }
    }
    println!(
        "150000 random lists, seed {seed:#x}: accepted {}, 29 {}, 30 {}",
        counts[0], counts[29], counts[30]
    );
    assert!(counts[0] > 0 && counts[29] > 0 && counts[30] > 0);
}

/// Answers of 0 to 13 words inside a larger part filled with a pattern.
#[test]
fn answer_lengths() {
    const PATTERN: u32 = 0xDEAD_BEEF;
    let lists: [&[u64]; 4] = [&[], &EXAMPLE_1, &[0, 1 << 24], &[0x2, 0x80]];
    for list in lists {
        for length in 0..=13 {
            for ask_slot in [false, true] {
                let mut buffer = [PATTERN; 20];
                let lent = &mut buffer[4..4 + length];
                let (number, expected) = if ask_slot {
                    let number = ffi::list_slot_into(0x80, list, lent);
                    (number, second::list_slot(0x80, list))
                } else {
                    let number = ffi::list_hash_into(list, lent);
                    (number, second::list_hash(list))
                };
                let mut wanted = [PATTERN; 20];
                if length < ANSWER_WORDS {
                    assert_eq!(number, SHORT_ANSWER);
                } else {
                    assert_eq!(number, expected.number);
                    wanted[4..4 + ANSWER_WORDS].copy_from_slice(&expected.words());
                }
                assert_eq!(buffer, wanted, "answer of {length} words");
            }
        }
    }
    println!("answers of 0 to 13 words");
}
