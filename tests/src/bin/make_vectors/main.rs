// SPDX-License-Identifier: BSD-2-Clause OR GPL-2.0-or-later
//! Writes what the archives of all processors are compared on: calls of the
//! library with all that is lent to them (the file `vectors`), and what the
//! second reader says of each (the file `expected`). tests/c/vectors.c makes
//! these calls.
//!
//! make_vectors FOLDER
//! make_vectors --at OFFSET    which call a byte of `expected` belongs to

mod blobs;
mod boards;
mod file;
mod lists;
mod lookups;
mod plans;
mod tally;
mod vector;
mod whose;

use file::files;
use std::path::Path;
use std::process::exit;
use sunderwath_tests::rng::Rng;
use tally::Tally;
use vector::{Call, Vector};

const SEED: u64 = 0x7A26_E750;

fn vectors() -> Vec<Vector> {
    let mut rng = Rng::new(SEED);
    let mut list = lists::vectors(&mut rng);
    list.extend(lookups::vectors(&mut rng));
    list.extend(boards::vectors(&mut rng));
    list.extend(blobs::vectors(&mut rng));
    list.extend(plans::vectors(&mut rng));
    list
}

/// Calls of some sorts.
fn sum(tally: &Tally, calls: &[Call]) -> usize {
    calls.iter().map(|&call| tally.calls(call)).sum()
}

/// One line that says what is compared.
fn summary(tally: &Tally) -> String {
    use Call::*;
    let boards = sum(tally, &[ReadTables, ReadTablesSlots, ReadBlob]);
    let (read, filled) = (sum(tally, &[ReadBlob]), sum(tally, &[ReadFlat]));
    let lists = sum(tally, &[ListHash, ListSlot, Slot]);
    let plans = sum(tally, &[PlanCheck, PlanSlot, PlanMake]);
    let others = sum(tally, &[CheckTables, FindProperty]);
    let boards = format!("{boards} boards ({read} of them blobs), {filled} blobs to tables");
    format!("{boards}, {lists} lists, {plans} plans, {others} checks and lookups")
}

fn write(folder: &Path) -> Result<(), String> {
    let list = vectors();
    let tally = Tally::of(&list);
    println!("seed {SEED:#x}\n{}{}", tally.lines(), summary(&tally));
    let faults = tally.faults();
    if !faults.is_empty() {
        return Err(faults.join("\n"));
    }
    let files = files(&list);
    for (name, bytes) in [("vectors", &files.vectors), ("expected", &files.expected)] {
        let file = folder.join(name);
        std::fs::write(&file, bytes).map_err(|e| format!("{}: {e}", file.display()))?;
    }
    Ok(())
}

fn main() {
    let arguments: Vec<String> = std::env::args().skip(1).collect();
    let words: Vec<&str> = arguments.iter().map(String::as_str).collect();
    let outcome = match words.as_slice() {
        ["--at", offset] => match offset.parse() {
            Ok(offset) => whose::tell(&vectors(), offset),
            Err(_) => Err(format!("no offset: {offset}")),
        },
        [folder] => write(Path::new(folder)),
        _ => {
            eprintln!("usage: make_vectors FOLDER | --at OFFSET");
            exit(2);
        }
    };
    if let Err(report) = outcome {
        eprintln!("make_vectors: {report}");
        exit(1);
    }
}
