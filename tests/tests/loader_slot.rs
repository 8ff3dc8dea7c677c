// SPDX-License-Identifier: BSD-2-Clause OR GPL-2.0-or-later
//! The slot call on bytes against the second reader and list_slot.

use sunderwath_tests::answer::NO_PROPERTY;
use sunderwath_tests::compare_list::agreed_slot;
use sunderwath_tests::ffi;
use sunderwath_tests::rng::Rng;
use sunderwath_tests::second::{list_bytes, BYTES_ANSWER};

/// A bit that no MPIDR has.
const OUTSIDE: u64 = 1 << 24;

/// Number, place, second place and slot for an answer of the stated bytes.
fn told(mpidr: u64, list: &[u8]) -> [u32; 4] {
    let told = agreed_slot(mpidr, list, BYTES_ANSWER, list.len() % 8);
    told.words().expect("the answer is long enough")
}

fn refusal(number: u32, place: u32) -> [u32; 4] {
    [number, place, NO_PROPERTY, 0]
}

fn slot(slot: u32) -> [u32; 4] {
    [0, 0, NO_PROPERTY, slot]
}

fn affinity(rng: &mut Rng) -> u64 {
    rng.wide() & 0xFF_00FF_FFFF
}

/// Some cases with all bytes by hand.
#[test]
fn bytes_by_hand() {
    let list = [
        [0x02, 0, 0, 0, 0, 0, 0, 0],
        [0x80, 0, 0, 0, 0x01, 0, 0, 0],
        [0x02, 0, 0, 0, 0, 0, 0, 0],
    ];
    let mut answer = [0xA5; 17];
    // The mask is 0x1_0000_0082: six places between its ones of level 0, then
    // the one of level 3.
    let number = ffi::slot_into(0x1_0000_0080, &list.concat(), &mut answer);
    assert_eq!(number, 0);
    let wanted = [
        0, 0, 0, 0, 0, 0, 0, 0, 0xFF, 0xFF, 0xFF, 0xFF, 0xC0, 0, 0, 0, 0xA5,
    ];
    assert_eq!(answer, wanted);
    let number = ffi::slot_into(0x80, &list.concat(), &mut answer);
    assert_eq!(number, 30);
    let wanted = [
        30, 0, 0, 0, 0, 0, 0, 0, 0xFF, 0xFF, 0xFF, 0xFF, 0, 0, 0, 0, 0xA5,
    ];
    assert_eq!(answer, wanted);
    let bad = [list[0], list[1], [0, 0, 0, 0, 0, 1, 0, 0]];
    let number = ffi::slot_into(2, &bad.concat(), &mut answer);
    assert_eq!(number, 29);
    let wanted = [
        29, 0, 0, 0, 2, 0, 0, 0, 0xFF, 0xFF, 0xFF, 0xFF, 0, 0, 0, 0, 0xA5,
    ];
    assert_eq!(answer, wanted);
}

/// The worked cases of the scope paper.
#[test]
fn worked_cases() {
    let four = [0xF00, 0xF01, 0xF02, 0xF03];
    let cases: [(&[u64], &[u32]); 5] = [
        (&[0], &[0]),
        (&[0x2, 0x80], &[1, 64]),
        (&four, &[0, 1, 2, 3]),
        (&[0, 0xFF_00FF_FFFF], &[0, 0xFFFF_FFFF]),
        (&[0, 5], &[0, 5]),
    ];
    for (list, slots) in cases {
        for (&mpidr, &wanted) in list.iter().zip(slots) {
            assert_eq!(told(mpidr, &list_bytes(list)), slot(wanted));
        }
    }
}

/// Every length in bytes up to 40, and around that of 256 MPIDRs: 28 exactly
/// where it is no multiple of eight, none or too many. The bytes are sound,
/// unsound or all zero.
#[test]
fn every_length_of_lists() {
    const SEED: u64 = 0x1E57;
    let mut rng = Rng::new(SEED);
    let sound: Vec<u64> = (0..300).map(|_| affinity(&mut rng)).collect();
    let unsound: Vec<u64> = sound.iter().map(|mpidr| mpidr | OUTSIDE).collect();
    for list in [&sound, &unsound, &vec![0; 300]] {
        let bytes = list_bytes(list);
        for length in (0..=40).chain(2040..=2064).chain([2400]) {
            let whole = length % 8 == 0 && (8..=2048).contains(&length);
            for mpidr in [list[0], list[0] | OUTSIDE, 1 << 63] {
                let told = told(mpidr, &bytes[..length]);
                assert_eq!(told == refusal(28, 0), !whole, "{length} bytes");
            }
        }
    }
    println!("lists of 0 to 40 and 2,040 to 2,064 bytes, seed {SEED:#x}");
}

/// 28 before 29, 29 before 30, and the lowest index is told.
#[test]
fn order_of_numbers() {
    for at in 0..5 {
        let mut list = [0, 1, 2, 3, 4];
        list[at] |= OUTSIDE;
        list[4] |= 1 << 40;
        let bytes = list_bytes(&list);
        assert_eq!(told(77, &bytes), refusal(29, at as u32));
        assert_eq!(told(list[at], &bytes), refusal(29, at as u32));
        for cut in 1..8 {
            assert_eq!(told(0, &bytes[..40 - cut]), refusal(28, 0));
        }
    }
    for bit in 0..64 {
        let inside = bit < 24 || (32..40).contains(&bit);
        let bytes = list_bytes(&[0, 1 << bit]);
        let wanted = if inside { slot(1) } else { refusal(29, 1) };
        assert_eq!(told(1 << bit, &bytes), wanted);
        // An asked MPIDR that no sound list can hold is unknown.
        let wanted = if bit == 3 { slot(1) } else { refusal(30, 0) };
        assert_eq!(told(1 << bit, &list_bytes(&[0, 8])), wanted);
    }
}

/// 0, repeats, and MPIDRs that would fall on the slot of a listed one.
#[test]
fn repeats_and_strangers() {
    let repeated = list_bytes(&[5, 5, 0, 5, 0]);
    assert_eq!(told(0, &repeated), slot(0));
    assert_eq!(told(5, &repeated), slot(5));
    assert_eq!(told(1, &repeated), refusal(30, 0));
    assert_eq!(told(0, &[0; 2048]), slot(0));
    assert_eq!(told(0, &[0; 2056]), refusal(28, 0));
    assert_eq!(told(1, &[0; 2048]), refusal(30, 0));
    let upper = list_bytes(&[0x1_0000_0005, 0x5]);
    assert_eq!(told(0x1_0000_0005, &upper), slot(1));
    assert_eq!(told(0x5, &upper), slot(0));
    assert_eq!(told(0x2_0000_0005, &upper), refusal(30, 0));
    assert_eq!(told(0x1_0000_0000, &upper), refusal(30, 0));
}

/// The last of 256, in every place of the list.
#[test]
fn full_lists() {
    let all: Vec<u64> = (0..256).map(|at| (at & 0xF) << 8 | at >> 4).collect();
    let bytes = list_bytes(&all);
    for (at, &mpidr) in all.iter().enumerate() {
        let wanted = (at & 0xF) << 4 | at >> 4;
        assert_eq!(told(mpidr, &bytes), slot(wanted as u32));
    }
}

/// Answers of every length from every start, for lists of all sorts.
#[test]
fn every_length_of_answers() {
    let lists = [
        Vec::new(),
        vec![1, 2, 3],
        list_bytes(&[0, 5]),
        list_bytes(&[OUTSIDE, 5]),
        list_bytes(&[7; 257]),
    ];
    for list in &lists {
        for answer in (0..=20).chain([100]) {
            for start in 0..8 {
                for mpidr in [0, 5, 6, u64::MAX] {
                    let told = agreed_slot(mpidr, list, answer, start);
                    assert_eq!(told.number() == 49, answer < BYTES_ANSWER);
                }
            }
        }
    }
}

/// Lists with repeats, alike bits and bad entries, cut at any byte at times.
#[test]
fn random_lists() {
    const LISTS: usize = 60_000;
    const SEED: u64 = 0x51E7;
    let mut rng = Rng::new(SEED);
    let mut counts = [0; 50];
    for _ in 0..LISTS {
        let vary = affinity(&mut rng) & rng.wide();
        let base = affinity(&mut rng) & !vary;
        let longest = *rng.pick(&[1, 2, 4, 16, 40]);
        let length = rng.between(1, longest);
        let member = |_| base | affinity(&mut rng) & vary & 0xF0F_F0F0_F0F0;
        let mut list: Vec<u64> = (0..length).map(member).collect();
        if rng.one_in(5) {
            list[rng.below(length)] |= 1 << rng.below(64);
        }
        let asked = *rng.pick(&list) ^ u64::from(rng.one_in(4)) << rng.below(64);
        let mut bytes = list_bytes(&list);
        if rng.one_in(6) {
            bytes.truncate(rng.below(bytes.len()));
        }
        let answer = if rng.one_in(9) { rng.below(30) } else { 16 };
        let told = agreed_slot(asked, &bytes, answer, rng.below(8));
        counts[told.number() as usize] += 1;
    }
    let told: Vec<(usize, usize)> = counts.into_iter().enumerate().filter(|c| c.1 > 0).collect();
    println!("{LISTS} lists, seed {SEED:#x}: {told:?}");
    let numbers: Vec<usize> = told.iter().map(|count| count.0).collect();
    assert_eq!(numbers, [0, 28, 29, 30, 49]);
}
