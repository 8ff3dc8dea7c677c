// SPDX-License-Identifier: BSD-2-Clause OR GPL-2.0-or-later
//! The manual page and the header name what the program has.

use std::process::Command;
use sunderwath::texts as check_and_sentence;
use sunderwath::Kind;
use sunderwath_cli::help::USAGE;
use sunderwath_cli::kind::Wording;
use sunderwath_cli::options;

const MANUAL: &str = include_str!("../../docs/sunderwath.1");

/// Those of a blob first, then those of a board: 36 and 37 are tested behind 9, 38 and 39 behind 27.
#[test]
fn manual_lists_the_checks() {
    let of = |numbers: std::ops::RangeInclusive<u32>| {
        let used = numbers.filter(|&number| number != 14);
        used.map(|number| format!("{number:2}  {}\n", check_and_sentence(number).0))
    };
    let board = of(1..=9).chain(of(36..=37)).chain(of(10..=27));
    let list: String = of(31..=35).chain(board).chain(of(38..=39)).collect();
    assert!(MANUAL.contains(&list), "{list}");
}

/// By name and by number, at the options and in the help.
#[test]
fn kinds_of_boards() {
    let names = Kind::ALL.map(Kind::name).join("|");
    assert!(USAGE.contains(&format!("  -b, --board {names}\n")));
    let names = names.replace('|', " | ");
    let option = format!(".BR \\-b \", \" \\-\\-board \" \" {names}\n");
    assert!(MANUAL.contains(&option), "{option}");
    let numbers = Kind::ALL.map(|kind| kind.number().to_string()).join("|");
    assert!(USAGE.contains(&format!("  -w, --width {numbers}\n")));
    let numbers = numbers.replace('|', " | ");
    let option = format!(".BR \\-w \", \" \\-\\-width \" \" {numbers}\n");
    assert!(MANUAL.contains(&option), "{option}");
}

#[test]
fn manual_lists_the_options() {
    let options = USAGE
        .split_whitespace()
        .filter(|word| word.starts_with("--"));
    for option in options {
        let option = option.split('[').next().unwrap_or(option);
        let escaped = option.replace('-', "\\-");
        assert!(MANUAL.contains(&escaped), "{option}");
    }
}

/// Those with a long name alone are known, too.
#[test]
fn help_lists_long_options() {
    let lines = USAGE.lines().filter(|line| line.starts_with("      --"));
    let names = lines.filter_map(|line| line.split_whitespace().next());
    let names: Vec<&str> = names.collect();
    assert_eq!(names, ["--plan"]);
    for name in names {
        assert!(options::parse([name, "file"].map(From::from)).is_ok());
        let option = format!("\n.TP\n.B {}\n", name.replace('-', "\\-"));
        assert!(MANUAL.contains(&option), "{option}");
    }
}

/// Both names of each option in the help are known, and take each value that stands there.
#[test]
fn help_lists_known_options() {
    let options: Vec<&str> = USAGE
        .lines()
        .filter_map(|line| line.strip_prefix("  -"))
        .collect();
    assert_eq!(options.len(), 10);
    for line in options {
        let (short, long) = line.split_once(", ").expect("two names");
        let letters = |letter: char| letter == '-' || letter.is_ascii_lowercase();
        let (name, rest) = long.split_at(long.find(|c| !letters(c)).unwrap_or(long.len()));
        let values = match rest.strip_prefix(' ') {
            Some(values) if !values.starts_with(' ') => values.split('|').collect(),
            _ => vec![],
        };
        let mut uses = vec![format!("-{short}"), name.to_string()];
        if !values.is_empty() {
            let joined = |value: &&str| [format!("-{short}{value}"), format!("{name}={value}")];
            uses = values.iter().flat_map(joined).collect();
        }
        for option in uses {
            let parsed = options::parse([option.clone(), "file".to_string()].map(From::from));
            assert!(parsed.is_ok(), "{option}: {parsed:?}");
        }
    }
}

/// The page names the version, and every device can print it.
#[test]
fn manual_is_of_this_version() {
    let title = format!(
        ".TH SUNDERWATH 1 \"\" \"sunderwath {}\" ",
        sunderwath::VERSION
    );
    assert!(MANUAL.contains(&title), "{title}");
    assert_eq!(sunderwath::VERSION, env!("CARGO_PKG_VERSION"));
    assert!(MANUAL.is_ascii());
}

/// Where groff is installed.
#[test]
fn manual_has_no_warnings() {
    let page = concat!(env!("CARGO_MANIFEST_DIR"), "/../docs/sunderwath.1");
    let arguments = ["-man", "-Tascii", "-ww", "-z", page];
    match Command::new("groff").args(arguments).output() {
        Ok(output) => {
            let warnings = String::from_utf8_lossy(&output.stderr);
            assert!(output.status.success() && warnings.is_empty(), "{warnings}");
        }
        Err(error) => println!("groff: {error}: not checked"),
    }
}
