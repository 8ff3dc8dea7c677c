// SPDX-License-Identifier: BSD-2-Clause OR GPL-2.0-or-later
//! Compares the slot call on bytes with the second reader on one list, with
//! every byte that is lent and the bytes around them, and with list_slot.

use crate::ffi;
use crate::lent::Part;
use crate::second::{self, Told};

/// What is told of an MPIDR and a list of bytes that both agree on, for an
/// answer of so many bytes. The parts start where `start` says.
pub fn agreed_slot(mpidr: u64, list: &[u8], answer_n: usize, start: usize) -> Told {
    let told = second::slot(mpidr, list, answer_n);
    let lent = Part::of(list, start);
    let mut answer = Part::new(answer_n, (start + list.len()) % 8);
    let mut wanted = answer.clone();
    wanted.write(&told.answer_bytes());
    let number = ffi::slot_into(mpidr, lent.lent(), answer.lent_mut());
    let question = || format!("{mpidr:#x} in {list:02x?}, answer of {answer_n} bytes");
    assert_eq!(number, told.number(), "number given back: {}", question());
    assert_eq!(answer.difference("answer", &wanted), None, "{}", question());
    assert_eq!(lent.difference("list", &Part::of(list, start)), None);
    if let (Some(words), true) = (told.words(), list.len() % 8 == 0) {
        assert_eq!(words, by_words(mpidr, list), "list_slot of {}", question());
    }
    told
}

/// Number, place, second place and slot of the library's call on words.
fn by_words(mpidr: u64, list: &[u8]) -> [u32; 4] {
    let mpidr_of = |bytes: &[u8]| u64::from_le_bytes(bytes.try_into().expect("eight bytes"));
    let list: Vec<u64> = list.chunks_exact(8).map(mpidr_of).collect();
    let answer = ffi::list_slot(mpidr, &list);
    [answer.number, answer.place, answer.second, answer.count]
}
