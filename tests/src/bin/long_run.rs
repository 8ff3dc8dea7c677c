// SPDX-License-Identifier: BSD-2-Clause OR GPL-2.0-or-later
//! Compares the readers on a million boards and more, or runs one again. Each
//! board is read with a table from slots to rows too.
//!
//! long_run [--boards N] [--seed S]
//! long_run --replay FILE

use std::process::exit;
use std::time::Instant;
use sunderwath_tests::answer::{Answer, SHORT_ANSWER};
use sunderwath_tests::build::mix::{any_board, large_board};
use sunderwath_tests::build::slots::{some_length, table_lengths};
use sunderwath_tests::build::{text, Board};
use sunderwath_tests::compare::{compare, library, second_tables};
use sunderwath_tests::compare_slots::{compare_slots, Lent};
use sunderwath_tests::counts::{slot_numbers, Counts};
use sunderwath_tests::rng::Rng;
use sunderwath_tests::second;
use sunderwath_tests::width::RISCV;

struct Options {
    boards: u64,
    seed: u64,
    replay: Option<String>,
}

fn number(text: &str) -> Option<u64> {
    match text.strip_prefix("0x") {
        Some(hex) => u64::from_str_radix(hex, 16).ok(),
        None => text.parse().ok(),
    }
}

fn options() -> Option<Options> {
    let mut options = Options {
        boards: 1_000_000,
        seed: 0x10_4652,
        replay: None,
    };
    let mut arguments = std::env::args().skip(1);
    while let Some(argument) = arguments.next() {
        let value = arguments.next()?;
        match argument.as_str() {
            "--boards" => options.boards = number(&value)?,
            "--seed" => options.seed = number(&value)?,
            "--replay" => options.replay = Some(value),
            _ => return None,
        }
    }
    Some(options)
}

/// The tables that a file speaks of, or such as suit the bits.
fn tables(content: &str, bits: u32) -> Vec<Lent> {
    let suited = |entries| Lent { entries, seed: 10 };
    match Lent::of_text(content) {
        Some(lent) => vec![lent],
        None => table_lengths(bits).into_iter().map(suited).collect(),
    }
}

fn replay(file: &str) -> Result<(), String> {
    let content = std::fs::read_to_string(file).map_err(|e| format!("{file}: {e}"))?;
    let board = text::read(&content).map_err(|e| format!("{file}: {e}"))?;
    println!("library       {:?}", library(&board).0);
    println!("second reader {:?}", second::read(&second_tables(&board)).0);
    let answer = compare(&board)?;
    println!("the readers agree on {}", answer.number);
    for lent in tables(&content, answer.bits) {
        let number = compare_slots(&board, lent)?.number;
        println!("with a table of {}: on {number}", lent.entries);
    }
    Ok(())
}

/// The answers of one board: as it is, and with a table of some length.
fn both(board: &Board, tables: &mut Rng) -> Result<[Answer; 2], String> {
    let told = compare(board)?;
    let entries = some_length(tables, told.bits);
    let seed = tables.wide();
    Ok([told, compare_slots(board, Lent { entries, seed })?])
}

fn run(options: &Options) -> Result<(), String> {
    let mut rng = Rng::new(options.seed);
    let mut tables = Rng::new(!options.seed);
    let mut counts = [(); 3].map(|()| Counts::default());
    let start = Instant::now();
    println!("{} boards, seed {:#x}", options.boards, options.seed);
    for at in 0..options.boards {
        let board = if at % 2000 == 1999 {
            large_board(&mut rng)
        } else {
            any_board(&mut rng)
        };
        let told = both(&board, &mut tables).map_err(|report| format!("board {at}:\n{report}"))?;
        counts[0].add(&told[0]);
        counts[1].add(&told[1]);
        if board.width == RISCV {
            counts[2].add(&told[1]);
        }
        if (at + 1) % 250_000 == 0 {
            println!("{} boards after {:?}", at + 1, start.elapsed());
        }
    }
    println!("{}", counts[0].lines());
    let with_tables = || slot_numbers().filter(|&number| number != SHORT_ANSWER);
    println!("with tables:\n{}", counts[1].lines_of(with_tables()));
    println!("RISC-V boards:\n{}", counts[2].lines_of(with_tables()));
    println!("no disagreement on {} boards", options.boards);
    Ok(())
}

fn main() {
    let options = options().unwrap_or_else(|| {
        eprintln!("usage: long_run [--boards N] [--seed S] | --replay FILE");
        exit(2)
    });
    let outcome = match &options.replay {
        Some(file) => replay(file),
        None => run(&options),
    };
    if let Err(report) = outcome {
        eprintln!("{report}");
        exit(1);
    }
}
