// SPDX-License-Identifier: BSD-2-Clause OR GPL-2.0-or-later
//! Writes what the program `cases` reads, and prints what it has to write.
//!
//! make_cases FILE

use std::process::exit;
use sunderwath_tests::cases;

fn main() {
    let mut arguments = std::env::args().skip(1);
    let file = match (arguments.next(), arguments.next()) {
        (Some(file), None) => file,
        _ => {
            eprintln!("usage: make_cases FILE");
            exit(2);
        }
    };
    let files = cases::files();
    if let Err(error) = std::fs::write(&file, files.input) {
        eprintln!("{file}: {error}");
        exit(1);
    }
    print!("{}", files.output);
}
