// SPDX-License-Identifier: BSD-2-Clause OR GPL-2.0-or-later
//! read_blob on the boards of `boards/` as dtc compiles them, and on the worked
//! boards as they are built here.

use sunderwath_tests::build::loader::Lent;
use sunderwath_tests::build::{blob, order, worked, Node};
use sunderwath_tests::compare_blob::agreed_blob;
use sunderwath_tests::dtc::{compiled, number_of, sources, LAYOUTS};

/// Each board tells its number, and the same rows in every layout.
#[test]
fn boards_of_dtc() {
    let sources = sources();
    assert!(sources.len() >= 29);
    let mut accepted = 0;
    for source in &sources {
        let wanted = agreed_blob(&compiled(source, &[]), Lent::default());
        assert_eq!(wanted.number(), number_of(source), "{}", source.display());
        accepted += usize::from(wanted.number() == 0);
        for (at, options) in LAYOUTS.into_iter().enumerate() {
            let lent = Lent {
                start: 1 + at,
                ..Lent::default()
            };
            assert_eq!(agreed_blob(&compiled(source, options), lent), wanted);
        }
    }
    println!("{} boards, {accepted} accepted", sources.len());
}

/// The worked boards and those with siblings out of order.
#[test]
fn worked_boards() {
    let boards: [(u32, Node, u32, u32); 10] = [
        (64, worked::whole_case(), 0, 2),
        (64, worked::example_1(), 0, 16),
        (32, worked::example_2(), 0, 8),
        (64, worked::lone_socket(), 0, 3),
        (64, worked::nested(4), 0, 1),
        (64, order::cores_swapped(), 0, 2),
        (64, order::sockets_swapped(), 0, 5),
        (64, worked::nested(5), 22, 0),
        (32, worked::example_1(), 36, 0),
        (64, worked::example_3(), 24, 0),
    ];
    for (width, root, number, count) in boards {
        let lent = Lent {
            width,
            ..Lent::default()
        };
        let told = agreed_blob(&blob::write(&root), lent);
        let answer = told.answer.expect("the answer is long enough");
        assert_eq!((answer.number, answer.count), (number, count));
    }
}
