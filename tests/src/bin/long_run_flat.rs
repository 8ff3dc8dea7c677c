// SPDX-License-Identifier: BSD-2-Clause OR GPL-2.0-or-later
//! Compares the readers on many blobs, or on one again. The blob call reads each
//! of them too, and one of its own mixture, mostly boards, beside each.
//!
//! long_run_flat [--blobs N] [--seed S]
//! long_run_flat --replay FILE

use blob_call::BlobCall;
use std::process::exit;
use std::time::Instant;
use sunderwath_tests::build::flat_case::{read_text, FlatCase};
use sunderwath_tests::build::flat_large;
use sunderwath_tests::build::flat_mix::any_case;
use sunderwath_tests::compare_flat::{compare_flat, Counts};
use sunderwath_tests::rng::Rng;
use sunderwath_tests::second::{flat_answer, REASONS};

/// The blob call on the blobs of the run, and on a mixture of its own.
mod blob_call {
    use sunderwath_tests::answer::{Answer, SHORT_ANSWER};
    use sunderwath_tests::build::damage::some_width;
    use sunderwath_tests::build::loader::{any_blob, some_lent, Lent};
    use sunderwath_tests::compare_blob::compare_blob;
    use sunderwath_tests::counts::{blob_numbers, Counts};
    use sunderwath_tests::rng::Rng;

    pub struct BlobCall {
        rng: Rng,
        counts: Counts,
    }

    impl BlobCall {
        pub fn new(seed: u64) -> BlobCall {
            BlobCall {
                rng: Rng::new(!seed),
                counts: Counts::default(),
            }
        }

        pub fn compare(&mut self, blob: &[u8]) -> Result<(), String> {
            let width = some_width(&mut self.rng, 20);
            let lent = some_lent(&mut self.rng, width, 2);
            self.compare_with(blob, lent)?;
            let (blob, lent) = any_blob(&mut self.rng);
            self.compare_with(&blob, lent)
        }

        fn compare_with(&mut self, blob: &[u8], lent: Lent) -> Result<(), String> {
            let short = Answer::refusal(SHORT_ANSWER, 0);
            let answer = compare_blob(blob, lent)?.answer;
            self.counts.add(&answer.unwrap_or(short));
            Ok(())
        }

        pub fn lines(&self) -> String {
            format!("blob call:\n{}\n", self.counts.lines_of(blob_numbers()))
        }
    }

    /// A report of the blob call again, if the text is one.
    pub fn replay(text: &str, blob: &[u8]) -> Result<(), String> {
        if let Some(lent) = Lent::of_text(text) {
            let told = compare_blob(blob, lent)?;
            println!("the blob call agrees: {:?}", told.words());
        }
        Ok(())
    }
}

struct Options {
    blobs: u64,
    seed: u64,
    replay: Option<String>,
}

fn number(text: &str) -> Option<u64> {
    match text.strip_prefix("0x") {
        Some(hex) => u64::from_str_radix(hex, 16).ok(),
        None => text.parse().ok(),
    }
}

fn options() -> Option<Options> {
    let mut options = Options {
        blobs: 200_000,
        seed: 0xB10B,
        replay: None,
    };
    let mut arguments = std::env::args().skip(1);
    while let Some(argument) = arguments.next() {
        let value = arguments.next()?;
        match argument.as_str() {
            "--blobs" => options.blobs = number(&value)?,
            "--seed" => options.seed = number(&value)?,
            "--replay" => options.replay = Some(value),
            _ => return None,
        }
    }
    Some(options)
}

fn replay(file: &str) -> Result<(), String> {
    let content = std::fs::read_to_string(file).map_err(|e| format!("{file}: {e}"))?;
    let case = read_text(&content).map_err(|e| format!("{file}: {e}"))?;
    blob_call::replay(&content, &case.blob)?;
    let read = compare_flat(&case)?;
    println!(
        "the readers agree: {:?} {:?}",
        flat_answer(&read),
        read.err()
    );
    Ok(())
}

/// Writes a report into a file of the current folder, which `--replay` reads.
fn save(report: String, seed: u64, at: u64) -> String {
    let file = format!("flat-{seed:x}-{at}.txt");
    let saved = match std::fs::write(&file, &report) {
        Ok(()) => format!("saved as {file}"),
        Err(error) => format!("{file}: {error}"),
    };
    format!("blob {at}, {saved}\n{report}")
}

fn compare_one(case: &FlatCase, seed: u64, at: u64, counts: &mut Counts) -> Result<(), String> {
    let read = compare_flat(case).map_err(|report| save(report, seed, at))?;
    *counts.entry(read.err().map(|fault| fault.0)).or_default() += 1;
    Ok(())
}

fn run(options: &Options) -> Result<(), String> {
    let Options { blobs, seed, .. } = *options;
    let mut rng = Rng::new(seed);
    let mut counts = Counts::new();
    let mut blob_call = BlobCall::new(seed);
    let start = Instant::now();
    println!("{blobs} blobs, seed {seed:#x}");
    let mut large = flat_large::all().into_iter().cycle();
    for at in 0..blobs {
        let mut case = any_case(&mut rng);
        if at % 2000 == 1999 {
            case.blob = large.next().expect("it goes round");
            (case.nodes, case.props) = (3 * 8192, 5 * 5461);
        }
        compare_one(&case, seed, at, &mut counts)?;
        let told = blob_call.compare(&case.blob);
        told.map_err(|report| save(report, seed, at))?;
        if (at + 1) % 50_000 == 0 {
            println!("{} blobs after {:?}", at + 1, start.elapsed());
        }
    }
    println!("accepted: {}", counts.get(&None).unwrap_or(&0));
    for (number, reasons) in REASONS {
        for why in reasons {
            let count = counts.get(&Some(*why)).unwrap_or(&0);
            println!("{number} {why:?}: {count}");
        }
    }
    print!("{}", blob_call.lines());
    println!("no disagreement on {blobs} blobs");
    Ok(())
}

fn main() {
    let options = options().unwrap_or_else(|| {
        eprintln!("usage: long_run_flat [--blobs N] [--seed S] | --replay FILE");
        exit(2)
    });
    let outcome = match &options.replay {
        Some(file) => replay(file),
        None => run(&options),
    };
    if let Err(report) = outcome {
        eprintln!("{report}");
        exit(1);
    }
}
