// SPDX-License-Identifier: BSD-2-Clause OR GPL-2.0-or-later
//! What `--slots` prints: each slot with the leaf that has it, and no table for a hash of more than 12 bits.

use crate::boards::{ACCEPTED, REFUSED};
use crate::builder::{with_mpidrs, Builder};
use crate::run::{board, run, run_on_input, text};

#[test]
fn whole_case() {
    for option in ["-s", "--slots"] {
        let output = run(&[option, &board("whole-case")]);
        assert_eq!(text(&output.stdout), "0 cluster0/core1\n1 cluster0/core0\n");
        assert_eq!(text(&output.stderr), "");
        assert_eq!(output.status.code(), Some(0));
    }
}

const SPARSE: &str = "\
0 cluster0/core0
1 -
2 -
3 -
4 -
5 cluster0/core1
6 -
7 -
";

#[test]
fn gaps() {
    let output = run(&["--slots", &board("sparse-hash")]);
    assert_eq!(text(&output.stdout), SPARSE);
    assert_eq!(output.status.code(), Some(0));
}

#[test]
fn manual_shows_the_gaps() {
    let manual = include_str!("../../../docs/sunderwath.1");
    let example = format!("$ sunderwath \\-\\-slots board.dtb\n{SPARSE}");
    assert!(manual.contains(&example), "{example}");
}

/// Leaf and slot of each line that `-p` prints.
fn leaves(file: &str) -> Vec<(usize, String)> {
    let output = run(&["-p", file]);
    let rows = text(&output.stdout)
        .lines()
        .filter(|line| !line.starts_with('#'));
    let ends = |line: &str| {
        let (leaf, _) = line.split_once(',').expect("there are columns");
        let (_, slot) = line.rsplit_once(',').expect("there are columns");
        (slot.parse().expect("it is a number"), leaf.to_string())
    };
    rows.map(ends).collect()
}

/// Slots stand in a column of their own width, each once; every leaf stands at its slot, and nothing else does.
#[test]
fn same_slots_as_the_rows() {
    for (name, count, hash) in ACCEPTED.into_iter().filter(|b| b.0 != "wide-hash") {
        let output = run(&["-s", &board(name)]);
        assert_eq!(output.status.code(), Some(0), "{name}");
        let (_, bits) = hash.rsplit_once(' ').expect("it ends in the bits");
        let mut wanted = vec!["-".to_string(); 1 << bits.parse::<u32>().unwrap()];
        let leaves = leaves(&board(name));
        assert_eq!(leaves.len(), count, "{name}");
        for (slot, leaf) in leaves {
            wanted[slot] = leaf;
        }
        let width = (wanted.len() - 1).to_string().len();
        let lines = wanted.iter().enumerate();
        let lines = lines.map(|(slot, leaf)| format!("{slot:<width$} {leaf}\n"));
        assert_eq!(text(&output.stdout), lines.collect::<String>(), "{name}");
    }
}

#[test]
fn fewest_and_most_slots() {
    let one = run_on_input(&["-s", "-"], &with_mpidrs(&[0x123]));
    assert_eq!(text(&one.stdout), "0 cluster0/core0\n");
    for (highest, slot) in [(0xFFF, 4095), (0x81_0900, 2073), (0x81_0000_0009, 2073)] {
        let most = run_on_input(&["-s", "-"], &with_mpidrs(&[highest, 0]));
        assert_eq!(most.status.code(), Some(0), "{highest:#x}");
        let lines: Vec<&str> = text(&most.stdout).lines().collect();
        assert_eq!(lines.len(), 4096);
        assert_eq!(lines[0], "0    cluster0/core1");
        assert_eq!(lines[slot], format!("{slot} cluster0/core0"));
        let gaps = lines.iter().filter(|line| line.ends_with(" -")).count();
        assert_eq!(gaps, 4094);
    }
}

#[test]
fn every_slot_taken() {
    let mpidrs: Vec<u64> = (0..256).rev().collect();
    let output = run_on_input(&["-s", "-"], &with_mpidrs(&mpidrs));
    let lines = (0..256).map(|slot| format!("{slot:<3} cluster0/core{}\n", 255 - slot));
    assert_eq!(text(&output.stdout), lines.collect::<String>());
}

/// The sentence of 38, before the details.
const TOO_MANY: &str = "the hash has more than 12 bits, too many for a table of slots";

/// Only the table is refused; the other formats print the board.
#[test]
fn more_than_twelve_bits() {
    let file = board("wide-hash");
    for options in [&["-s"][..], &["-j", "-s"], &["-w", "32", "--slots"]] {
        let output = run(&[options, &[&file]].concat());
        let expected = format!(
            "{file}: ERROR 38 (slot_table_bits): /cpus: {TOO_MANY} (13 bits, mask 0x1181)\n"
        );
        assert_eq!(text(&output.stderr), expected);
        assert_eq!(text(&output.stdout), "");
        assert_eq!(output.status.code(), Some(1));
    }
    for option in ["-p", "-j", "-t"] {
        let output = run(&["-s", option, &file]);
        assert_eq!(output.stdout, run(&[option, &file]).stdout);
        assert_eq!(output.status.code(), Some(0), "{option}");
        assert_eq!(text(&output.stderr), "");
    }
    let quiet = run(&["-q", "-s", &file]);
    assert!(quiet.stdout.is_empty() && quiet.stderr.is_empty());
    assert_eq!(quiet.status.code(), Some(1));
}

#[test]
fn counts_of_bits() {
    for (highest, bits) in [(0x1FFF, 13), (0x81_8101, 17), (0xFF_00FF_FFFF, 32)] {
        let output = run_on_input(&["-s", "-"], &with_mpidrs(&[0, highest]));
        let details = format!("{TOO_MANY} ({bits} bits, mask {highest:#x})\n");
        let message = text(&output.stderr);
        assert!(message.ends_with(&details), "{message}");
        assert_eq!(output.status.code(), Some(1));
    }
}

/// The word of a gap is a slot where there are MPIDRs.
#[test]
fn highest_slot() {
    let output = run_on_input(&["-p", "-"], &with_mpidrs(&[0, 0xFF_00FF_FFFF]));
    let expected = "\ncluster0/core1,cpu@ff00ffffff,0xff00ffffff,,0,1,,4294967295\n";
    assert!(text(&output.stdout).ends_with(expected));
}

/// Whatever refuses a board comes before its table of slots, in the same words.
#[test]
fn same_refusals() {
    for (name, ..) in REFUSED {
        let file = board(name);
        let [slots, plain] = [&["-s", &file][..], &[&file]].map(run);
        assert_eq!(text(&slots.stderr), text(&plain.stderr), "{name}");
        assert_eq!(slots.status.code(), Some(1), "{name}");
        assert!(slots.stdout.is_empty());
    }
    let narrow = run(&["-s", "-w", "32", &board("example1")]);
    assert!(text(&narrow.stderr).contains("ERROR 36 (cpus_address_cells): /cpus: "));
}

/// A long blob has its note, unless it is told to be quiet.
#[test]
fn long_blobs() {
    let blob = Builder::rooted().padding(70_000).cpus().finish();
    let output = run_on_input(&["-s", "-"], &blob);
    let expected = "0 cluster0/core0\n1 cluster0/core1\n";
    assert_eq!(text(&output.stdout), expected);
    assert!(text(&output.stderr).starts_with("-: note: "));
    let quiet = run_on_input(&["-q", "-s", "-"], &blob);
    assert_eq!(quiet.stdout, output.stdout);
    assert!(quiet.stderr.is_empty());
}
